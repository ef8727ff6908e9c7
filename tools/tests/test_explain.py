"""Tests of tools/explain: what it tells of faults and of terms without a value, and what a terminal shows."""

from __future__ import annotations

import os
import pty
import subprocess
import sys
import unittest

import support
from cases import FAULTS, NAT, ONE_AND_ONE, REFUSED, SUM, USAGE, Fault, read
from support import TOP, rec, run

sys.path.insert(0, support.TOOLS)
import explanations  # noqa: E402

# Runs that end without a value, and what is told of them.
WITHOUT_VALUE = [
    (("rewrite", "--fuel=1"), "rec: 'out of fuel' in line 1: --fuel was 1: raise it, to at most 1000000000"),
    (("rewrite", "--depth", "5"), "rec: 'too deep' in line 1: --depth was 5: raise it, to at most 65536"),
    (("rewrite", "--rows", "2"), "rec: --rows was 2: raise it, to at most 262144"),
]


class Tells(unittest.TestCase):
    def test_faults(self) -> None:
        def check(fault: Fault) -> None:
            self.check_fault(fault, rec(fault.case.words, fault.case.text, REC_EXPLAIN="1"), "standard input")

        support.each(check, FAULTS)

    def test_a_fault_of_a_file(self) -> None:
        with support.folder() as folder, open(f"{folder}/input", "w+b") as file:
            file.write(FAULTS[-1].case.text)
            file.flush()
            self.check_fault(FAULTS[-1], rec([*FAULTS[-1].case.words, file.name], REC_EXPLAIN="1"), file.name)

    def check_fault(self, fault: Fault, ran: tuple[bytes, bytes, int], source: str) -> None:
        line, head, text, marks, advice = ran[1].decode().split("\n")[:5]
        self.assertEqual((ran[0], line + "\n", ran[2]), (b"", fault.case.err.decode(), 3))
        self.assertEqual(
            head,
            f"{source}:{fault.line}:{fault.column}: kind {fault.kind}: "
            + explanations.words_of(fault.kind, fault.case.words[0])[0],
        )
        under = [text[at : at + 1] for at, mark in enumerate(marks) if mark == "^"]
        self.assertEqual("".join(under), fault.marked)
        self.assertTrue(advice.strip().startswith("what to do: "), advice)

    def test_what_the_readme_shows(self) -> None:
        """What README.md shows of help and of an explained fault is what comes, on a file with one wrong name."""
        if not support.IS_BUILT:
            self.skipTest("no program is built")
        with support.folder() as folder:
            with open(f"{folder}/wrong.rec", "wb") as file:
                file.write(SUM.replace(b"s(plus(X, Y))", b"s(plus(X, Z))"))
            wrong = run(["sh", "-c", f"cd {folder} && {TOP}/rec rewrite wrong.rec"], REC_EXPLAIN="1")[1]
        self.assertEqual(len(wrong.splitlines()), 5)
        for told in (wrong, rec(["help", "rewrite"], REC_EXPLAIN="1")[1]):
            shown = [(" " * 4 + line).rstrip() for line in told.decode().splitlines()]
            self.assertIn("\n".join(shown), read("README.md").decode())

    def test_each_kind_has_its_words(self) -> None:
        self.assertEqual(list(explanations.KINDS), list(range(1, 20)))
        self.assertEqual(len({words for both in explanations.KINDS.values() for words in both}), 38)
        self.assertEqual({it.kind for it in FAULTS}, set(range(1, 18)) - {14})
        told = explanations.of_fault(18, 48, b"RECTERM1", "terms.bin", True)
        self.assertEqual(told[0], "terms.bin: byte 48: kind 18: the file isn't one that pack writes, from this byte on")

    def test_terms_without_a_value(self) -> None:
        for words, told in WITHOUT_VALUE:
            with support.folder() as folder, open(f"{folder}/out", "wb") as out:
                ran = subprocess.run(
                    [f"{TOP}/rec", *words],
                    input=NAT,
                    stdout=out,
                    stderr=subprocess.PIPE,
                    env={**os.environ, "REC_PROGRAM": support.PROGRAM, "REC_EXPLAIN": "1"},
                )
                self.assertEqual(ran.stderr.decode().removeprefix("store full\n"), told + "\n")
        told = rec(["rewrite", "--fuel=1"], NAT, REC_EXPLAIN="1")[1].decode()
        self.assertIn("rec: 'out of fuel', if that is a line: --fuel was 1: raise it", told)

    def test_several_terms_without_a_value(self) -> None:
        told = explanations.told(["rewrite"], 1, "", b"", b"a\ntoo deep\nout of fuel\ntoo deep\ntoo large\n", "")
        self.assertEqual(
            [it.split(": ")[1] for it in told],
            ["'out of fuel' in line 3", "'too deep' in 2 lines, first in line 2", "'too large' in line 5"],
        )

    def test_a_term_of_a_file_that_is_too_large(self) -> None:
        told = explanations.told(["unpack"], 1, "", b"", b"a\ntoo large\n", "")
        self.assertEqual(told, [f"rec: 'too large' in line 2: {explanations.TOO_LARGE_IN_A_FILE}"])
        told = explanations.told(["unpack"], 3, "fault 3 at 47", b"RECTERM1", b"", "terms.bin")
        self.assertEqual(told[0], "terms.bin: byte 47: kind 3: the file is cut short")

    def test_a_drill_with_terms_without_a_value(self) -> None:
        words, lines = ("drill", "3", "--fuel=72"), [
            "rec: 'out of fuel', if a term is: --fuel was 72: raise it, to at most 1000000000",
            "rec: 'too deep', if a term is: --depth was 4096: raise it, to at most 65536",
        ]
        told = rec(words, REC_EXPLAIN="1")[1].decode().splitlines()
        self.assertEqual(told, ["rec: some term has no value", *lines])
        told = explanations.told(list(words), 1, "", b"", b"terms 3\nvalues 1\nspent 6\n", "")
        self.assertEqual(told, ["rec: 2 of 3 terms have no value", *lines])

    def test_the_most_that_an_option_may_be(self) -> None:
        table = explanations.commands()
        self.assertEqual(
            explanations.in_force(table, ["rewrite", "--rows=262144"], "--rows"),
            "--rows was 262144, which is the most that it may be",
        )
        self.assertEqual(
            explanations.in_force(table, ["rewrite"], "--depth"), "--depth was 4096: raise it, to at most 65536"
        )

    def test_refused_words(self) -> None:
        def check(refused: tuple[tuple[str, ...], str]) -> None:
            words, why = refused
            usage, told = rec(words, REC_EXPLAIN="1")[1].decode().split("\n")[:2]
            self.assertEqual(usage, USAGE.decode().strip())
            self.assertTrue(told.startswith(f"rec: {why}"), told)

        support.each(check, REFUSED)

    def test_a_long_line_is_cut_round_the_place(self) -> None:
        text, marks, column = explanations.shown(b"a " * 100 + b"\tbad\x1b " + b"c " * 100, 201, 3)
        self.assertEqual((column, [text[at] for at, it in enumerate(marks) if it == "^"]), (202, ["b", "a", "d"]))
        self.assertTrue(text.startswith("... ") and text.endswith(" ...") and len(text) < 120 and "\x1b" not in text)


class Terminal(unittest.TestCase):
    def on_terminal(self, words: list[str], program: str) -> str:
        """Runs rec with a terminal as standard output and error, and returns what that shows."""
        try:
            ours, theirs = pty.openpty()
        except OSError:
            self.skipTest("no terminal can be opened here")
        with subprocess.Popen(
            [f"{TOP}/rec", *words],
            stdin=subprocess.DEVNULL,
            stdout=theirs,
            stderr=theirs,
            cwd=TOP,
            env={"PATH": os.environ["PATH"], "REC_PROGRAM": program},
        ) as ran:
            os.close(theirs)
            shown = b""
            try:
                while piece := os.read(ours, 1024):
                    shown += piece
            except OSError:
                pass
        os.close(ours)
        self.status = ran.returncode
        return shown.decode().replace("\r\n", "\n")

    def test_help_and_faults_come_without_being_asked_for(self) -> None:
        self.assertIn("rec help COMMAND", self.on_terminal([], support.PROGRAM))
        self.assertEqual(self.on_terminal(["rewrite", "examples/nat.rec"], support.PROGRAM), ONE_AND_ONE.decode())
        with support.folder() as folder:
            open(f"{folder}/empty", "w").close()
            self.assertIn(
                f"{folder}/empty:1:1: kind 3", self.on_terminal(["rewrite", f"{folder}/empty"], support.PROGRAM)
            )

    def test_a_long_run_shows_its_time(self) -> None:
        with support.folder() as folder:
            shown = self.on_terminal(["rewrite"], support.script(folder, "sleep 3.2; echo value; exit 1"))
        self.assertEqual(self.status, 1)
        self.assertRegex(shown, r"^(\r\x1b\[Krec: running rewrite, [234] s)+\r\x1b\[Kvalue\n$")


if __name__ == "__main__":
    unittest.main()
