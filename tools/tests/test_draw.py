"""Tests of tools/draw, on pictures worked out by hand."""

from __future__ import annotations

import re
import unittest
import xml.etree.ElementTree
from pathlib import Path

import support
from support import call, run

DRAW = f"{support.TOOLS}/draw"
SVG = "{http://www.w3.org/2000/svg}"
# A term, the labels of its different subterms, and the arrows between these, by label where that tells which.
PICTURES = [
    (b"a\n", ["a"], []),
    (b"p(p(z,z),p(z,z))\n", ["p", "p", "z"], ["p z", "p z", "p p", "p p"]),
    (
        b"cons(z,cons(s(z),nil))\n",
        ["cons", "cons", "nil", "s", "z"],
        ["s z", "cons s", "cons nil", "cons z", "cons cons"],
    ),
    (b'f("1",1)\n', ["1", "1", "f"], ["f 1", "f 1"]),
    (
        b"[1,f(2)]\n[]\n[[],1]\n",
        ["1", "2", ":", ":", ":", ":", "[]", "f"],
        ["f 2", ": f", ": []", ": 1", ": :", ": 1", ": []", ": []", ": :"],
    ),
    (b'f(a,"b\\"c")\ndistinct 3 nodes 3\n', ["a", 'b\\"c', "f"], ["f a", 'f b\\"c']),
]
WRONG = [
    b"[1,\n",
    b"[,]\n",
    b"f()\n",
    b"f(a\n",
    b"f a\n",
    b"f(a))\n",
    b"a,b\n",
    b"f(a]\n",
    b"(a)\n",
    b'a"\n',
    b"f(,a)\n",
    b"[a,]\n",
    b'"\\x"\n',
    b"",
    b"out of fuel\n",
]

# A log of two callers, and its marks: kind, column of time and lane. The times are 1, 2, 3, after 3, 8, 9 and after 9.
LOG = b"""s(z)
# log 4 2
# caller 0
# make 1 0 s0
# make 3 1 s1 0
# roots 3 1
# collect 8 0 1
# make 9 2 s1 1
# roots 9 2
# caller 1
# make 2 2 s2
# find 3 1 s1 0
# roots 3
# find 9 2 s1 1
# end
"""
MARKS = [
    ("collect", 4, 0),
    ("find", 3, 1),
    ("find", 6, 1),
    ("make", 0, 0),
    ("make", 1, 1),
    ("make", 2, 0),
    ("make", 5, 0),
    ("roots", 3, 0),
    ("roots", 3, 1),
    ("roots", 6, 0),
]
WRONG_LOGS = [
    b"s(z)\n",
    b"# log 4 1\n# caller 0\n# make 1 0 s0\n",
    b"# caller 0\n# log 4 1\n# end\n",
    b"# log 4 2\n# caller 1\n# end\n",
    b"# log 4 1\n# caller 0\n# caller 1\n# end\n",
    b"# log 4 1\n# make 1 0 s0\n# end\n",
    b"# log 4 1\n# caller 0\n# make 01 0 s0\n# end\n",
    b"# log 4 1\n# caller 0\n# make 1 0 t0\n# end\n",
    b"# log 4 1\n# caller 0\n# roots\n# end\n",
    b"# log 4 1\n# log 4 1\n# end\n",
]


def marks(picture: str) -> list[tuple[str, int, int]]:
    """Returns the kind, the column and the lane of each mark of a log's picture, in order."""
    found = []
    for it in xml.etree.ElementTree.fromstring(picture).iter():
        if kind := it.get("class"):
            at = it.find(f"{SVG}rect") if kind == "collect" else it
            half = {"collect": (5, 5), "roots": (3, 6)}.get(kind, (0, 0))
            x, y = (int(at.get(short) or at.get(f"c{short}")) + more for short, more in zip("xy", half))
            found.append((kind, *((x - 78) / 12, (y - 54) / 28)))
    return sorted(found)


def parts(picture: str) -> tuple[list[str], list[str]]:
    """Returns the sorted labels of a picture's nodes, and its arrows by label in order."""
    labels = dict(re.findall(r'^  (n\d+) \[label="(.*?)"(?:, penwidth=2.5)?\];$', picture, re.MULTILINE))
    arrows = re.findall(r"^  (n\d+) -> (n\d+);$", picture, re.MULTILINE)
    return sorted(labels.values()), [f"{labels[start]} {labels[end]}" for start, end in arrows]


class Draw(unittest.TestCase):
    def test_each_different_subterm_stands_once(self) -> None:
        for text, labels, arrows in PICTURES:
            out, _, status = call(DRAW, given=text)
            self.assertEqual((*parts(out), status), (labels, arrows, 0), text)

    def test_what_is_no_term(self) -> None:
        for text in WRONG:
            out, err, status = call(DRAW, given=text)
            self.assertEqual((out, status), ("", 1), text)
            self.assertIn("draw: ", err)

    def test_deep_terms_and_large_ones(self) -> None:
        deep = b"s(" * 20000 + b"z" + b")" * 20000
        self.assertEqual(call(DRAW, given=deep)[2], 1)
        self.assertEqual(call(DRAW, "--most", "20001", given=deep)[0].count("->"), 20000)

    @unittest.skipUnless(support.is_here("dot"), "dot isn't here")
    def test_svg_has_the_same_nodes(self) -> None:
        out, err, status = run([DRAW, "--svg"], b"p(p(z,z),p(z,z))\n")
        groups = [it.get("class") for it in xml.etree.ElementTree.fromstring(out).iter(f"{SVG}g")]
        self.assertEqual((groups.count("node"), groups.count("edge"), err, status), (3, 4, b"", 0))

    def test_a_log_has_a_mark_for_each_entry(self) -> None:
        out, err, status = call(DRAW, "--log", given=LOG)
        self.assertEqual((marks(out), err, status), (MARKS, "", 0))
        self.assertIn("<title>caller 0, make 3: row 1 is s1(0)</title>", out)
        self.assertIn("<title>caller 0, collect 8: kept 2 rows: 0 1</title>", out)

    def test_what_is_no_log(self) -> None:
        for text in WRONG_LOGS:
            out, err, status = call(DRAW, "--log", given=text)
            self.assertEqual((out, status), ("", 1), text)
            self.assertIn("draw: ", err)
        self.assertEqual(call(DRAW, "--log", "--most", "9", given=LOG)[2], 1)
        self.assertEqual(call(DRAW, "--log", "--most", "10", given=LOG)[2], 0)

    def test_the_picture_of_the_repository(self) -> None:
        """docs/sort.svg shows the value of examples/sort.rec: three cells, nil, and the numbers 0, 1 and 2."""
        tree = xml.etree.ElementTree.parse(f"{support.TOP}/docs/sort.svg")
        shown = sorted(it.text for it in tree.iter(f"{SVG}text"))
        self.assertEqual(shown, ["cons", "cons", "cons", "nil", "s", "s", "z"])

    def test_the_log_of_the_repository(self) -> None:
        """docs/log.svg shows four callers on examples/sums.rec: 20 sums of each kind, of 13, 11 and 9 creations."""
        shown = Path(f"{support.TOP}/docs/log.svg").read_text(encoding="utf-8")
        self.assertEqual(re.findall(r">(caller [0-9])<", shown), [f"caller {caller}" for caller in range(4)])
        self.assertEqual(len(re.findall('class="(?:make|find)"', shown)), 20 * (13 + 11 + 9))
        self.assertGreater(shown.count('class="collect"'), 0)


if __name__ == "__main__":
    unittest.main()
