"""Tests of tools/soak: on programs that answer wrongly once there are several workers, and on the program itself."""

from __future__ import annotations

import os
import unittest

import support
from support import PROGRAM, run

SOAK = f"{support.TOOLS}/soak"
# Programs that read their input and answer by their number of workers.
SAME = "cat >/dev/null; echo a"
FULL = 'cat >/dev/null; case "$*" in *--workers=1\\ *) echo a ;; *) exit 4 ;; esac'
OTHER = 'cat >/dev/null; case "$*" in *--workers=8\\ *) echo b ;; *) echo a ;; esac'
FULL_WITH_BYTES = 'cat >/dev/null; echo a; case "$*" in *--workers=16\\ *) exit 4 ;; esac'
REFUSES = "cat >/dev/null; exit 3"
# Programs that write a log of one line behind their line, and check one.
LOGS = 'case "$1" in check) grep -q "^# log 1" && echo legal 0 || exit 9 ;; *) cat >/dev/null; echo a; WRITTEN ;; esac'
UNLOGGED = LOGS.replace("WRITTEN", 'case "$*" in *--workers=8\\ *) ;; *) echo "# log 1" ;; esac')
ILLEGAL = LOGS.replace("WRITTEN", 'case "$*" in *--workers=8\\ *) echo "# log 2" ;; *) echo "# log 1" ;; esac')
LOGS = LOGS.replace("WRITTEN", 'echo "# log 1"')


class Soak(unittest.TestCase):
    def setUp(self) -> None:
        room = support.folder()
        self.addCleanup(room.cleanup)
        self.room = room.name

    def soak(self, text: str, *options: str) -> tuple[str, int]:
        program = support.script(self.room, f"{text}\n")
        here = f"cd {self.room} && exec {SOAK} 0 --seed 7 --rec {program} {' '.join(options)}"
        out, err, status = run(["sh", "-c", here])
        self.assertEqual(err, b"")
        return out.decode(), status

    def test_same_answers_and_full_stores_pass(self) -> None:
        self.assertEqual(self.soak(SAME)[1], 0)
        out, status = self.soak(FULL)
        self.assertEqual(status, 0)
        self.assertIn("of which 5 with several workers were full: no difference", out)

    def test_the_first_other_answer_is_told_and_its_input_kept(self) -> None:
        for program, words in ((OTHER, "--workers=8"), (FULL_WITH_BYTES, "--workers=16"), (REFUSES, "--workers=1")):
            out, status = self.soak(program)
            self.assertEqual(status, 1, program)
            self.assertIn(words, out)
            self.assertIn("< soak-difference.rec", out)
            with open(f"{self.room}/soak-difference.rec", "rb") as file:
                self.assertTrue(file.read().startswith(b"REC-SPEC SOAK\n"))
            os.remove(f"{self.room}/soak-difference.rec")

    def test_logs_are_checked_and_left_out_of_the_lines(self) -> None:
        self.assertEqual(self.soak(LOGS, "--log")[1], 0)
        for program in (UNLOGGED, ILLEGAL):
            out, status = self.soak(program, "--log")
            self.assertEqual(status, 1, program)
            self.assertIn("--workers=8", out)

    def test_one_specification_is_soaked_on_the_program(self) -> None:
        if not support.IS_BUILT:
            self.skipTest("the program isn't built")
        for options in ([], ["--log"]):
            out, err, status = run([SOAK, "0", "--seed", "1", "--rec", PROGRAM, *options])
            self.assertEqual((err, status), (b"", 0))
            self.assertIn(b"no difference", out)

    def test_a_program_that_is_not_there(self) -> None:
        _, err, status = run([SOAK, "0", "--rec", f"{self.room}/none"])
        self.assertEqual(status, 2)
        self.assertIn(b"can't be run", err)


if __name__ == "__main__":
    unittest.main()
