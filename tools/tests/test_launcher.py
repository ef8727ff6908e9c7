"""Tests of the launcher `rec`: what it passes on, which word it takes for a file, and what it answers by itself."""

from __future__ import annotations

import contextlib
import os
import shutil
import signal
import subprocess
import sys
import time
import unittest
from collections.abc import Iterator

import support
from cases import ANSWERS, FAULTS, NAT, ONE_AND_ONE, REFUSED, START, USAGE, Case, read
from support import TOP, rec, run

sys.path.insert(0, support.TOOLS)
from command_lines import commands  # noqa: E402

# Words for help, and what their answers have.
HELP = {
    (): ["rec rewrite [OPTIONS] [FILE]", "rec schedule [OPTIONS] [FILE]", "--fuel N", "--seats N", "store full"],
    ("--help",): ["--rows N", "1 to 262144, 65536 if not given", "for example: ./rec rewrite examples/sum.rec"],
    ("help", "schedule"): ["--seats N", "1 to 16, 2 if not given"],
    ("help", "rewrite"): ["--depth N", "1 to 65536, 4096 if not given", "--sizes"],
    ("rewrite", "--help"): ["--fuel N", "0 to 1000000000, 1000000 if not given"],
    ("help", "check", "trace"): ["rec check log", "rec check trace"],
    ("check", "log", "--help"): ["rec check log", "rec check trace"],
    ("--version",): ["rec: commit ", "rec: toolchain "],
}
# Entries of commands that the program doesn't have.
LATER = """command|dance N|none|rewrites a dance|./rec dance 100
option|--workers|1|16|1|how many workers
command|judge log|text|reads a log|./rec judge log FILE
command|unroll|bytes|reads a file of terms|./rec unroll FILE
"""
# Stands for a program that has them: it writes its words and the length of its input, and refuses that.
PROGRAM_OF_LATER = """echo "$*"; wc -c
case $1 in judge) echo fault 15 at 2 >&2 ;; *) echo fault 18 at 48 >&2 ;; esac
exit 3"""


def processes() -> list[str]:
    """Returns the folders in which the processes of this user work."""
    found = []
    for name in os.listdir("/proc"):
        if name.isdigit():
            with contextlib.suppress(OSError):
                found.append(os.readlink(f"/proc/{name}/cwd"))
    return found


class PassesOn(unittest.TestCase):
    def test_all_stays_as_it_is_where_nothing_is_asked(self) -> None:
        wordless = [
            Case(it, b"", b"", USAGE, 2)
            for it in [*(it for it, _ in REFUSED), ("--help",), ("--version",), (), ("help", "rewrite")]
        ]

        def check(case: Case) -> None:
            self.assertEqual(rec(case.words, case.text), (case.out, case.err, case.status), case)

        support.each(check, [*ANSWERS, *wordless])

    def test_what_is_told_comes_behind_the_answer(self) -> None:
        def check(case: Case) -> None:
            out, err, status = rec(case.words, case.text, REC_EXPLAIN="1")
            self.assertEqual((out, err[: len(case.err)], status), (case.out, case.err, case.status), case)
            self.assertEqual(len(err) > len(case.err), case.status != 0, case)

        # (the faults are tried below)
        faults = [it.case for it in FAULTS]
        support.each(check, [it for it in ANSWERS if it not in faults])

    def test_too_long_an_input(self) -> None:
        out, err, status = rec(["rewrite"], b" " * 16777217, REC_EXPLAIN="1")
        self.assertEqual((out, status), (b"", 3))
        self.assertTrue(
            err.startswith(
                b"fault 14 at 16777216\nstandard input: more than 16777216 bytes: kind 14: the input is too long\n"
            ),
            err,
        )

    def test_standard_input_that_is_a_folder(self) -> None:
        with support.folder() as folder:
            program, opened = support.script(folder, "exit 5"), os.open(folder, os.O_RDONLY)
            ran = subprocess.run(
                [f"{TOP}/rec", "rewrite"],
                stdin=opened,
                capture_output=True,
                env={**os.environ, "REC_PROGRAM": program, "REC_EXPLAIN": "1"},
            )
            os.close(opened)
        self.assertEqual((ran.stdout, ran.stderr, ran.returncode), (b"", b"", 5))

    def test_signals_and_statuses(self) -> None:
        with support.folder() as folder:
            for asked in ("", "1"):
                for text, wanted in (("kill -9 $$", -9), ("kill -15 $$", -15), ("exit 77", 77)):
                    status = rec(["rewrite"], REC_PROGRAM=support.script(folder, text), REC_EXPLAIN=asked)[2]
                    self.assertEqual(status, wanted, (asked, text))
                # A signal that the launcher gets reaches the program, which says so.
                told = support.script(folder, "trap 'echo told; exit 5' TERM\necho ready\nwhile :; do sleep 0.05; done")
                with subprocess.Popen(
                    [f"{TOP}/rec", "rewrite"],
                    stdin=subprocess.DEVNULL,
                    stdout=subprocess.PIPE,
                    stderr=subprocess.DEVNULL,
                    env={**os.environ, "REC_PROGRAM": told, "REC_EXPLAIN": asked},
                ) as ran:
                    self.assertEqual(ran.stdout.readline(), b"ready\n")
                    ran.send_signal(signal.SIGTERM)
                    self.assertEqual((ran.stdout.read(), ran.wait()), (b"told\n", 5))


class Files(unittest.TestCase):
    def test_large_pages_are_asked_for_unless_the_environment_says_something(self) -> None:
        asked = "glibc.malloc.hugetlb=1"
        other = "glibc.malloc.check=0"
        with support.folder() as folder:
            program = support.script(folder, 'echo "$GLIBC_TUNABLES"')
            for given, want in {
                "": asked,
                other: f"{other}:{asked}",
                "glibc.malloc.hugetlb=0": "glibc.malloc.hugetlb=0",
                f"{other}:glibc.malloc.hugetlb=2": f"{other}:glibc.malloc.hugetlb=2",
            }.items():
                with self.subTest(given):
                    told = rec(["rewrite"], REC_PROGRAM=program, GLIBC_TUNABLES=given)
                    self.assertEqual(told, (f"{want}\n".encode(), b"", 0))

    def test_a_last_word_that_is_a_file_is_read(self) -> None:
        for words in (["rewrite", "examples/nat.rec"], ["rewrite", "--fuel", "2", "examples/nat.rec"]):
            self.assertEqual(rec(words), (ONE_AND_ONE, b"", 0))
            self.assertEqual(rec(words, REC_EXPLAIN="1"), (ONE_AND_ONE, b"", 0))
        self.assertEqual(rec(["schedule", "/dev/null"]), (START, b"", 0))

    def test_no_other_word_is_taken_for_a_file(self) -> None:
        for words in (
            ["rewrite", "--fuel", "examples/nat.rec"],
            ["examples/nat.rec"],
            ["rewrite", "examples"],
            ["rewrite", "LICENSE", "examples/nat.rec"],
            ["rewrite", "LICENSE", "--sizes"],
            ["drill", "3", "LICENSE"],
        ):
            with support.folder() as folder:
                seen = rec(words, NAT, REC_PROGRAM=support.script(folder, 'for word; do echo "$word"; done'))
                self.assertEqual(seen[0].decode().split(), words)


class Help(unittest.TestCase):
    def test_words_for_help(self) -> None:
        for words, parts in HELP.items():
            out, err, status = rec(words, REC_EXPLAIN="1")
            self.assertEqual((out, status), (b"", 2), words)
            self.assertTrue(err.startswith(USAGE) and all(it in err.decode() for it in parts), (words, err))

    def test_a_file_is_offered_only_where_one_is_read(self) -> None:
        for words, is_read in (("help", True), ("help rewrite", True), ("help schedule", True), ("help drill", False)):
            err = rec(words.split(), REC_EXPLAIN="1")[1].decode()
            self.assertEqual("FILE" in err, is_read, words)
            self.assertIn("An option is --name N or --name=N.", err)

    @unittest.skipUnless(support.IS_BUILT, "no program is built")
    def test_what_is_offered_is_there(self) -> None:
        """The program takes each command and option of the table, and of an option's values just those in its range."""
        for command in commands().values():
            words = [support.PROGRAM, *("1" if it == "N" else it for it in command.words)]
            self.assertNotEqual(run(words)[2], 2, words)
            for name, option in command.options.items():
                if option is None:
                    self.assertNotEqual(run([*words, name])[2], 2, name)
                    continue
                for value in (option.least, option.most, option.least - 1, option.most + 1):
                    is_taken = option.least <= value <= option.most
                    self.assertEqual(run([*words, f"{name}={value}"])[2] != 2, is_taken, (name, value))

    def test_what_is_not_offered(self) -> None:
        told = rec(["help", "nonsense"], REC_EXPLAIN="1")[1].decode()
        self.assertIn("rec: nonsense is no command: the commands are rewrite", told)

    def test_tools_have_help(self) -> None:
        for name in ("explain", "spread", "draw", "from-trs"):
            out, err, status = run([f"{support.TOOLS}/{name}", "--help"])
            self.assertTrue(out.startswith(b"usage: ") or b"\nusage: " in out)
            self.assertEqual((err, status), (b"", 0))
            self.assertEqual(run([f"{support.TOOLS}/{name}", "--wrong-word"])[2], 2, name)


# Stands for the toolchain's command: it notes where it is called and what is there. What it has begun in a process
# group of its own goes on writing for a moment after it has ended. The program that it builds isn't executable.
TOOLCHAIN = """echo "$*" "$PWD" >>"$NOTES"
find . -type f >>"$NOTES"
[ -z "$WAITS" ] || { : >"$WAITS"; exec sleep 60; }
set -m
(for it in $(seq 3); do mkdir "at_$it"; sleep 0.1; done) >/dev/null 2>&1 &
echo 'rt: faults proved'
echo 'rt: ends is kept: an earlier run on this machine proved the same files over the same libraries'
echo 'statements thiserror: modules loaded=1 checked=0'
[ -z "$FAILS" ] || { echo 'rt: rec_main NOT PROVED'; exit 1; }
mkdir crates/rec_main/out && printf '#!/bin/sh\\nexit 5\\n' >crates/rec_main/out/rec_main"""
# Crates that the program stands on, and some that it doesn't.
WITHIN, BEYOND = ("faults", "rule_automaton", "shared_desk", "rec_main"), ("store_core", "run_trials", "log_speed")


class Builds(unittest.TestCase):
    """The first build, by a toolchain that notes what it is given."""

    @contextlib.contextmanager
    def clone(self) -> Iterator[tuple[str, dict[str, str]]]:
        """Gives a folder with a clone in top, whose files have little in them, and words for its launcher's environment."""
        with support.folder() as folder:
            for name in ("rec", "crates.txt", "HANDLES", "tools/commands.txt"):
                os.makedirs(os.path.dirname(f"{folder}/top/{name}"), exist_ok=True)
                shutil.copy(f"{TOP}/{name}", f"{folder}/top/{name}")
            for name in os.listdir(f"{TOP}/crates"):
                for file in ("src/lib.rt", "specs/Lib.antt", "must-fail/wrong.edit", "out/old"):
                    os.makedirs(os.path.dirname(f"{folder}/top/crates/{name}/{file}"))
                    with open(f"{folder}/top/crates/{name}/{file}", "w") as made:
                        made.write(name)
            os.makedirs(f"{folder}/copies of it")
            os.makedirs(f"{folder}/bin")
            os.rename(support.script(folder, TOOLCHAIN), f"{folder}/bin/rt")
            words = {"PATH": f"{folder}/bin:{os.environ['PATH']}", "TMPDIR": f"{folder}/copies of it"}
            words |= {"NOTES": f"{folder}/notes", "REC_PROGRAM": "", "REC_EXPLAIN": "0", "FAILS": "", "WAITS": ""}
            yield folder, words
            self.assertEqual(os.listdir(f"{folder}/copies of it"), [])
            self.assertFalse([it for it in processes() if it.startswith(f"{folder}/") and not it.endswith(" (deleted)")])

    def test_the_program_is_built_in_a_copy_of_its_crates(self) -> None:
        with self.clone() as (folder, words):
            _, said, status = run([f"{folder}/top/rec", "rewrite"], **words)
            self.assertEqual(status, 5)
            with open(f"{folder}/notes") as notes:
                called, *files = notes.read().splitlines()
            self.assertTrue(called.startswith(f"ci {folder}/copies of it/"), called)
            copied = {it.split("/")[2] for it in files if it.startswith("./crates/")}
            for name in copied:
                self.assertLessEqual({f"./crates/{name}/src/lib.rt", f"./crates/{name}/specs/Lib.antt"}, set(files))
            self.assertLessEqual({*WITHIN}, copied)
            self.assertFalse(copied & {*BEYOND})
            self.assertLessEqual({"./crates.txt", "./HANDLES"}, set(files))
            self.assertFalse([it for it in files if "/out/" in it or "/must-fail/" in it])
            self.assertIn(f"rec: proved 2 of {len(copied)} crates", said.decode())
            with open(f"{folder}/top/crates/rec_main/out/build.log") as log:
                self.assertIn("rt: faults proved\n", log.read())
            # What is built isn't built again, unless a source of its own changes.
            for name, is_built_again in (("run_trials", False), ("faults", True)):
                os.remove(f"{folder}/notes")
                with open(f"{folder}/top/crates/{name}/src/lib.rt", "a") as source:
                    source.write("changed")
                self.assertEqual(run([f"{folder}/top/rec", "rewrite"], **words)[2], 5)
                self.assertEqual(os.path.exists(f"{folder}/notes"), is_built_again, name)
                open(f"{folder}/notes", "a").close()

    def test_a_build_that_fails(self) -> None:
        with self.clone() as (folder, words):
            _, said, status = run([f"{folder}/top/rec", "rewrite"], **(words | {"FAILS": "1"}))
            self.assertEqual(status, 126)
            told = said.decode().splitlines()
            self.assertEqual([it for it in told if it.startswith("rt: ")], ["rt: rec_main NOT PROVED"])
            self.assertFalse([it for it in told if "thiserror" in it])
            self.assertTrue(told[-1].startswith("rec: the build failed; "), told)
            self.assertEqual({*os.listdir(f"{folder}/top/crates/rec_main/out")} & {"rec_main", "built-from"}, set())

    def test_a_build_that_is_ended(self) -> None:
        for number in (signal.SIGTERM, signal.SIGINT):
            with self.clone() as (folder, words):
                words["WAITS"] = f"{folder}/waits"
                # (tests that run in the background ignore an interrupt, and a shell would too)
                how = {"stderr": subprocess.DEVNULL, "preexec_fn": lambda: signal.signal(signal.SIGINT, signal.SIG_DFL)}
                with subprocess.Popen([f"{folder}/top/rec", "rewrite"], env=os.environ | words, **how) as ran:
                    for _ in range(200):
                        if os.path.exists(words["WAITS"]):
                            break
                        time.sleep(0.05)
                    ran.send_signal(number)
                self.assertEqual(ran.returncode, 128 + number)
                self.assertFalse(os.path.exists(f"{folder}/top/crates/rec_main/out/rec_main"))


class Later(unittest.TestCase):
    def test_a_command_joins_by_its_entry(self) -> None:
        with support.folder() as folder:
            shutil.copy(f"{TOP}/rec", folder)
            shutil.copytree(support.TOOLS, f"{folder}/tools", ignore=shutil.ignore_patterns("tests"))
            with open(f"{folder}/tools/commands.txt", "a") as table:
                table.write(LATER)
            program = support.script(folder, PROGRAM_OF_LATER)

            def later(*words: str) -> tuple[str, str]:
                out, err, _ = run([f"{folder}/rec", *words], REC_PROGRAM=program, REC_EXPLAIN="1")
                return out.decode(), err.decode()

            told = later("help", "dance")[1]
            self.assertIn("  rec dance N [OPTIONS]\n    rewrites a dance\n", told)
            self.assertIn("    --workers N how many workers: 1 to 16, 1 if not given\n", told)
            self.assertEqual(later("dance", "LICENSE")[0], "dance LICENSE\n0\n")
            out, err = later("judge", "log", "LICENSE")
            self.assertEqual(
                (out, err.split("\n")[1][:21]), (f"judge log\n{len(read('LICENSE'))}\n", "LICENSE:2:1: kind 15:")
            )
            self.assertIn("LICENSE: byte 48: kind 18: ", later("unroll", "LICENSE")[1])


if __name__ == "__main__":
    unittest.main()
