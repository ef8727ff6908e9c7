"""Runs of the program with the answers that README.md and docs/LANGUAGE.md state, worked out by hand.

They are tried on the program where one is built, and else on stand_in, which answers by this list.
"""

from __future__ import annotations

import os
from typing import NamedTuple

HERE = os.path.dirname(os.path.abspath(__file__))
TOP = os.path.dirname(os.path.dirname(HERE))


class Case(NamedTuple):
    words: tuple[str, ...]
    text: bytes
    out: bytes = b""
    err: bytes = b""
    status: int = 0


class Fault(NamedTuple):
    """A refusal of a kind, with the line and column of its place and what is marked there."""

    kind: int
    case: Case
    line: int
    column: int
    marked: str


def fault(kind: int, text: str, marked: str) -> Fault:
    """A fault of a specification, at the place where § stands in the text."""
    front, _, back = text.partition("§")
    case = Case(("rewrite",), (front + back).encode(), err=f"fault {kind} at {len(front)}\n".encode(), status=3)
    return Fault(kind, case, front.count("\n") + 1, len(front) - front.rfind("\n"), marked)


def fault_of_text(kind: int, text: str, marked: str) -> Fault:
    """A fault of term text, at the place where § stands in it."""
    front, _, back = text.partition("§")
    case = Case(("terms",), (front + back).encode(), err=f"fault {kind} at {len(front)}\n".encode(), status=3)
    return Fault(kind, case, front.count("\n") + 1, len(front) - front.rfind("\n"), marked)


def fault_of_line(kind: int, text: str, line: int, words: tuple[str, ...] = ("schedule",)) -> Fault:
    case = Case(words, text.encode(), err=f"fault {kind} at {line}\n".encode(), status=3)
    return Fault(kind, case, line, 1, text.split("\n")[line - 1])


ONE = "REC-SPEC A\nSORTS S T\nCONS a : -> S\n  b : -> T\nOPNS f : S -> S\nVARS X Y : S\n"
FAULTS = [
    fault(1, 'REC-SPEC A EVAL §"q END-SPEC', '"'),
    fault(1, "REC-SPEC A % any byte may stand here: >\nEVAL §> END-SPEC", ">"),
    fault(2, "REC-SPEC A EVAL §( END-SPEC", "("),
    fault(2, "REC-SPEC A EVAL f(§) END-SPEC", ")"),
    fault(2, "REC-SPEC A\nEVAL\n§RULES END-SPEC", "RULES"),
    fault(3, "REC-SPEC A EVAL§", ""),
    fault(3, "§", ""),
    fault(4, "REC-SPEC A\nSORTS S\nCONS a : -> §Sort\nEND-SPEC\n", "Sort"),
    fault(5, "REC-SPEC A EVAL §q END-SPEC", "q"),
    fault(6, ONE + "\tZ §a : S\nEND-SPEC\n", "a"),
    fault(7, ONE + "EVAL a\n  §a(a)\nEND-SPEC\n", "a"),
    fault(8, "REC-SPEC A SORTS S T CONS a : -> S b : -> T f : S -> S EVAL f(§b) END-SPEC", "b"),
    fault(9, ONE + "RULES\n  f(X) -> a\n  §X -> a\nEND-SPEC\n", "X"),
    fault(10, ONE + "RULES\n  f(X) -> f(§Y)\nEND-SPEC\n", "Y"),
    fault(11, ONE + "EVAL f(§X)\nEND-SPEC\n", "X"),
    fault(12, "REC-SPEC A : §Base END-SPEC", "Base"),
    fault(13, "REC-SPEC §" + 256 * "n" + " END-SPEC", 50 * "n"),
    fault_of_line(15, "0 raise\n1 take\n1 give now\n", 3),
    fault_of_line(15, "0 raise\n2 raise\n", 2),
    fault_of_line(16, "0 raise\n1 give\n0 look\n", 2),
    fault_of_line(15, "# log 1 1\n# caller 0\n# made 1 0 s0\n# end\n", 3, ("check", "log")),
    fault_of_text(1, "f(a)\n§% b", "%"),
    fault_of_text(2, "[§,]", ","),
    fault_of_text(3, "f(a§", ""),
    fault_of_text(13, "f(" + 16 * "a," + "§b)", "b"),
    fault_of_text(17, "f(1)\n[0,§01]", "01]"),
]


def read(name: str) -> bytes:
    with open(f"{TOP}/{name}", "rb") as file:
        return file.read()


NAT, SUM, LAZY = read("examples/nat.rec"), read("examples/sum.rec"), read("examples/lazy.rec")
PAIRS = (
    "REC-SPEC P SORTS S CONS z : -> S p : S S -> S OPNS d : S -> S VARS X : S RULES d(X) -> p(X,X) EVAL %s END-SPEC\n"
)
LARGE = (PAIRS % (20 * "d(" + "z" + 20 * ")")).encode()
ONE_AND_ONE, TWO_AND_TWO = b"s(s(z))\n", b"s(s(s(s(z))))\n"
FIRST_TWO = b"cons(z,cons(s(z),nil))\n"
START = b"seat 0 out busy 0 forbidden 0 free\nseat 1 out busy 0 forbidden 0 free\nmutex free\n"
USAGE = b"usage: rec COMMAND [OPTIONS]\n"
TERMS = b'f(a, "b c")  f(a,a)'
LOG = b"# log 2 1\n# caller 0\n# make 1 0 s0\n# make 2 1 s1 0\n# roots 2 1\n# end\n"
# A specification, and its output with a trace.
TRACE = b"spec 63\nREC-SPEC A SORTS S CONS a b : -> S RULES a -> b EVAL a END-SPEC\nb\n# trace 0 r0\n# end\n"
# A file: the magic, two symbols, two records (a, and f over a twice), and a root.
PACKED = b"RECTERM1" + bytes.fromhex(
    "00000002 016100 016602 00000002 0000000000 00000000010000000000000000 00000001 00000001"
)
ANSWERS = [
    Case(("rewrite",), NAT, ONE_AND_ONE),
    Case(("rewrite", "--fuel", "2"), NAT, ONE_AND_ONE),
    Case(("rewrite",), SUM, TWO_AND_TWO),
    Case(("rewrite", "--fuel=1"), NAT, b"out of fuel\n", status=1),
    Case(("rewrite", "--depth", "5"), NAT, b"too deep\n", status=1),
    Case(("rewrite",), LARGE, b"too large\n", status=1),
    Case(("rewrite", "--rows", "2"), NAT, err=b"store full\n", status=4),
    Case(("rewrite", "--workers", "2"), SUM, TWO_AND_TWO),
    Case(("rewrite", "--trace"), SUM, TWO_AND_TWO + b"# trace 0 r1 d1 r1 d1 r0\n# end\n"),
    Case(("rewrite", "--trace", "--fuel=1"), NAT, b"out of fuel\n# end\n", status=1),
    Case(("rewrite", "--trace", "--cache=0"), NAT, ONE_AND_ONE + b"# trace 0 r1 d1 r0\n# end\n"),
    Case(("rewrite", "--cache", "16"), SUM, TWO_AND_TWO),
    Case(("rewrite", "--fuel", "1000"), LAZY, b"out of fuel\n", status=1),
    Case(("outermost", "--fuel", "1000"), LAZY, FIRST_TWO),
    Case(("drill", "3", "--workers=2"), b"", b"terms 3\nvalues 3\nspent 168\n"),
    # (the three terms take 6, 73 and 89 units of fuel)
    Case(("drill", "3", "--fuel=72"), b"", b"terms 3\nvalues 1\nspent 6\n", status=1),
    Case(("schedule",), b"", START),
    Case(("terms",), TERMS, b'f(a,"b c")\nf(a,a)\ndistinct 4 nodes 6\n'),
    Case(("terms", "--rows", "3"), TERMS, err=b"store full\n", status=4),
    Case(("terms",), b"", b"distinct 0 nodes 0\n"),
    Case(("pack",), b"f(a, a)", PACKED),
    Case(("pack", "--rows", "1"), b"f(a, a)", err=b"store full\n", status=4),
    Case(("unpack",), PACKED, b"f(a,a)\n"),
    Case(("unpack",), PACKED[:-1], err=b"fault 3 at 47\n", status=3),
    Case(("unpack",), PACKED[:-1] + b"\0", err=b"fault 18 at 48\n", status=3),
    Case(("check", "log"), LOG, b"legal 3\n"),
    Case(("check", "log"), LOG.replace(b"# make 2 1", b"# make 1 1"), b"illegal 4\n", status=9),
    Case(("check", "trace"), TRACE, b"derived 1\n"),
    Case(("check", "trace"), TRACE.replace(b" r0", b" r1"), b"underived 0\n", status=9),
    Case(("check", "trace"), TRACE.replace(b"spec 63", b"spec 62"), err=b"fault 15 at 0\n", status=3),
    Case(("check", "trace"), TRACE.replace(b"trace 0", b"trace 1"), err=b"fault 15 at 2\n", status=3),
    Case(("check", "trace"), TRACE.replace(b"-> b", b"-> c"), err=b"fault 5 at 46\n", status=3),
    *(it.case for it in FAULTS),
]
# Words that are refused, and what is said of them.
REFUSED = [
    (("rewrit",), "rewrit is no command: the commands are rewrite"),
    (("rewrite", "--fuell=3"), "rewrite has no option --fuell: is --fuel meant?"),
    (("rewrite", "--fuel", "1000000001"), "--fuel wants a number from 0 to 1000000000, and 1000000001 is none"),
    (("rewrite", "--rows"), "--rows wants a number from 1 to 262144"),
    (("rewrite", "--rows=1", "--rows=1"), "--rows stands twice"),
    (("rewrite", "--sizes=1"), "--sizes has no value"),
    (("rewrite", "--trace", "--sizes"), "--sizes and --trace aren't taken together"),
    (("rewrite", "--cache", "1", "--trace"), "--cache and --trace aren't taken together"),
    (("rewrite", "nowhere.rec"), "nowhere.rec is no file"),
    (("rewrite", "--workers", "17"), "--workers wants a number from 1 to 16, and 17 is none"),
    (("drill",), "a word is missing: drill N"),
    (("check",), "a word is missing: check log or check trace"),
    (("drill", "3", "4"), "4 is no file"),
    (("drill", "--sizes", "3"), "drill has no option --sizes"),
    (("outermost", "--trace"), "outermost has no option --trace"),
    (("schedule", "one", "two"), "one is one word too many"),
    (("terms", "--sizes"), "terms has no option --sizes"),
    (("terms", "--rows", "0"), "--rows wants a number from 1 to 262144, and 0 is none"),
    (("pack", "nowhere.txt"), "nowhere.txt is no file"),
    (("unpack", "--rows=3"), "unpack has no option --rows"),
    (("check", "log", "--rows=3"), "check has no option --rows"),
    (("check", "log", "nowhere.txt"), "nowhere.txt is no file"),
]
