"""Tests of tools/spread against the bytes of one run, with a slot that is killed and resumed."""

from __future__ import annotations

import os
import unittest

import support
from cases import NAT
from support import PROGRAM, run

SPREAD = f"{support.TOOLS}/spread"
FRONT = b"""REC-SPEC BASE SORTS S CONS a b c : -> S EVAL a b END-SPEC
REC-SPEC LAST : BASE
CONS f : S S -> S % EVAL (
EVAL
"""
# The first run on the last of eight parts is killed, and each run on a part is noted in a folder.
FRAGILE = """[ "$*" = rewrite ] && echo run >>FOLDER/runs
[ "$PARALLEL_SEQ" = 8 ] && mkdir FOLDER/killed 2>/dev/null && kill -9 $$
exec PROGRAM "$@"
"""
# In place of ssh: what is sent to a host is run here, as ssh would run it there.
FAR = """while :; do case $1 in -*) shift ;; *) break ;; esac; done
shift
[ "$1" = -- ] && shift
echo "$*" >>FOLDER/sent
SHELL=/bin/sh exec sh -c "$*"
"""
TERMS = [b"a", b"f ( a , b )", b"f(f(a,b),c),", b"c, ", b"f(c,% a comment ) (\n f(a,a))", b"b"]
LINES = [b"a", b"f(a,b)", b"f(f(a,b),c)", b"c", b"f(c,f(a,a))", b"b"]
END = b"\nEND-SPEC % END-SPEC EVAL a\n"


@unittest.skipUnless(support.is_here("parallel"), "parallel isn't here")
class Spread(unittest.TestCase):
    def setUp(self) -> None:
        self.room = support.folder()
        self.addCleanup(self.room.cleanup)
        self.file = f"{self.room.name}/input.rec"

    def write(self, text: bytes) -> str:
        with open(self.file, "wb") as file:
            file.write(text)
        return self.file

    def script(self, text: str) -> str:
        return support.script(self.room.name, text.replace("FOLDER", self.room.name).replace("PROGRAM", PROGRAM))

    def spread(self, *words: str, program: str = PROGRAM) -> tuple[bytes, bytes, int]:
        return run([SPREAD, "--rec", program, "--jobs", "4", *words])

    def test_lines_stand_in_order_however_many_parts(self) -> None:
        self.write(FRONT + b" ".join(TERMS) + END)
        wanted = b"".join(it + b"\n" for it in LINES)
        for parts in ("1", "4", "100"):
            self.assertEqual(self.spread("--parts", parts, self.file), (wanted, b"", 0), parts)
        for text in (FRONT + END, FRONT.replace(b"EVAL\n", b"") + END):
            self.assertEqual(self.spread(self.write(text)), (b"", b"", 0))

    def test_a_killed_slot_is_resumed(self) -> None:
        """65,535 terms on four slots: the bytes are those of one run, and only the lost part is run again."""
        self.write(FRONT + b" ".join(TERMS[at % 2] for at in range(65535)) + END)
        wanted = b"".join(LINES[at % 2] + b"\n" for at in range(65535))
        room, fragile = self.room.name, self.script(FRAGILE)
        self.assertEqual(run([f"{support.TOP}/rec", "rewrite", self.file]), (wanted, b"", 0))
        out, err, status = self.spread("--parts", "8", "--folder", f"{room}/kept", self.file, program=fragile)
        self.assertEqual((out, status), (b"", 10))
        self.assertIn(b"1 of 8 parts are lost, as part00007", err)
        out, err, status = self.spread("--resume", "--folder", f"{room}/kept", program=fragile)
        self.assertEqual((out == wanted, err, status), (True, b"", 0))
        with open(f"{room}/runs") as file:
            # (one more for the words, and one for each part)
            self.assertEqual(len(file.readlines()), 1 + 8 + 1)

    def test_a_part_without_all_its_lines_is_lost(self) -> None:
        text = FRONT + b" ".join(TERMS) + END
        half = self.script("PROGRAM \"$@\" | sed '/^b/d'")
        kept = f"{self.room.name}/kept"
        out, err, status = self.spread(self.write(text), "--parts", "6", "--folder", kept, program=half)
        self.assertEqual((out, status), (b"", 10))
        self.assertIn(b"1 of 6 parts are lost, as part00005", err)

    def test_the_worst_status_is_answered(self) -> None:
        self.assertEqual(self.spread("nowhere.rec"), (b"", b"spread: nowhere.rec: No such file or directory\n", 2))
        self.assertEqual(self.spread(self.write(b"REC-SPEC A EVAL q END-SPEC")), (b"", b"fault 5 at 16\n", 3))
        self.assertEqual(
            self.spread(self.write(FRONT + END), "--", "--rows"), (b"", b"usage: rec COMMAND [OPTIONS]\n", 2)
        )
        self.assertEqual(self.spread(self.write(FRONT + END), "--", "--log")[2], 2)

    @unittest.skipUnless(support.IS_BUILT, "no program is built")
    def test_lines_without_a_value_and_too_few_rows(self) -> None:
        loop = b"REC-SPEC L SORTS S CONS a : -> S f : S -> S OPNS l : -> S RULES l -> l EVAL a l f(a) END-SPEC"
        self.assertEqual(self.spread(self.write(loop)), (b"a\nout of fuel\nf(a)\n", b"", 1))
        self.assertEqual(self.spread(self.write(NAT), "--", "--rows", "2"), (b"", b"store full\n", 4))

    def test_other_machines_get_the_parts(self) -> None:
        """A command in place of ssh runs on this machine what it is to run on the other."""
        if not support.is_here("rsync"):
            self.skipTest("rsync isn't here")
        self.write(FRONT + b" ".join(TERMS) + END)
        far = self.script(FAR)
        wanted = b"".join(it + b"\n" for it in LINES)
        self.assertEqual(self.spread("--sshlogin", f"2/{far} there,:", "--parts", "6", self.file), (wanted, b"", 0))
        self.assertTrue(os.path.getsize(f"{self.room.name}/sent"))


class Without(unittest.TestCase):
    def test_parallel_is_asked_for(self) -> None:
        with support.folder() as folder:
            for name in ("python3", "env"):
                os.symlink(run(["sh", "-c", f"command -v {name}"])[0].decode().strip(), f"{folder}/{name}")
            out, err, status = run([SPREAD, "examples/sum.rec"], PATH=folder)
        self.assertEqual((out, status), (b"", 10))
        self.assertIn(b"GNU parallel isn't here: install it", err)


if __name__ == "__main__":
    unittest.main()
