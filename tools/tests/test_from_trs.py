"""Tests of tools/from-trs: specifications, refusals, and values worked out by hand."""

from __future__ import annotations

import unittest

import support
from support import PROGRAM, call, run

FROM_TRS = f"{support.TOOLS}/from-trs"
PEANO = """% Made of peano.trs by tools/from-trs.
REC-SPEC peano
SORTS Term
CONS
  0 : -> Term
  s : Term -> Term
OPNS
  plus : Term Term -> Term
  times : Term Term -> Term
VARS
  x y : Term
RULES
  plus(0,y) -> y
  plus(s(x),y) -> s(plus(x,y))
  times(0,y) -> 0
  times(s(x),y) -> plus(y,times(x,y))
EVAL
  times(s(s(0)),s(0))
END-SPEC
"""
PLUS = b"(VAR x)(RULES plus(0,x) -> s(x))"
# A system, and the term's value.
VALUES = {
    "peano": [("times(s(s(0)),s(s(s(0))))", "s(s(s(s(s(s(0))))))"), ("plus(s(0),0)", "s(0)")],
    "ackermann": [("ack(s(s(0)),s(s(0)))", "s(s(s(s(s(s(s(0)))))))"), ("ack(s(0),s(0))", "s(s(s(0)))")],
    "group": [
        ("m(i(m(a,b)),m(a,m(b,c)))", "c"),
        ("m(m(a,i(b)),b)", "a"),
        ("i(m(i(a),b))", "m(i(b),a)"),
        ("i(i(e))", "e"),
    ],
    "combinators": [("app(app(app(S,K),K),a)", "a"), ("app(app(app(S,app(K,a)),K),b)", "app(a,app(K,b))")],
    "sort": [("sort(:(s(0),:(0,:(s(s(0)),nil))))", "_3a(0,_3a(s(0),_3a(s(s(0)),nil)))"), ("<=(s(0),0)", "false")],
    "even": [
        ("even(s(s(s(0))))", "false"),
        ("odd(s(s(s(0))))", "true"),
        ("max(s(0),s(s(0)))", "s(s(0))"),
        ("max(s(0),0)", "s(0)"),
    ],
}
# A system that can't be said, and what is refused.
REFUSED = [
    ("(VAR x)(RULES f(x) -> x)(THEORY (AC f))", "line 1: a theory can't be said"),
    ("(VAR x)\n(STRATEGY OUTERMOST)\n(RULES f(x) -> x)", "line 2: the strategy OUTERMOST can't be said"),
    ("(STRATEGY CONTEXTSENSITIVE (f 1))", "line 1: the strategy CONTEXTSENSITIVE can't be said"),
    ("(CONDITIONTYPE JOIN)", "line 1: the type of conditions JOIN can't be said"),
    ("(VAR x)(RULES f(x) ->= x)", "line 1: a relative rule can't be said"),
    (
        "(VAR x y)(RULES\nf(x) -> y)",
        "line 2: the variable y of a right side is extra: it isn't bound, which can't be said",
    ),
    (
        "(CONDITIONTYPE ORIENTED)(VAR x y)(RULES f(x) -> x | g(x) == y)",
        "line 1: the variable y of a condition is extra: it isn't bound, which can't be said",
    ),
    ("(VAR x)(RULES f(x) -> x | x -><- a)", "line 1: a condition of joinability can't be said"),
    ("(VAR x)(RULES f(x) -> x | x == a)", "line 1: a condition == stands without (CONDITIONTYPE ORIENTED) before it"),
    (
        "(VAR x)(RULES f(x) -> x | x -> f(a))",
        "line 1: a condition whose second side has f, which begins a left side, can't be said",
    ),
    ("(VAR x)(RULES x -> a)", "line 1: a left side that is a variable can't be said"),
    ("(VAR x)(RULES f(x(a)) -> a)", "line 1: the variable x has arguments"),
    ("(RULES f(a) -> f)", "line 1: the symbol f has 1 arguments elsewhere, and 0 here"),
    (f"(RULES f({','.join('a' * 17)}) -> a)", "line 1: the symbol f has more than 16 arguments"),
    ("(RULES f(a) -> )", "line 1: ) stands where a name is wanted"),
    ("(RULES f(a) - b)", "line 1: - stands where -> is wanted"),
    ("(RULES f(a) -> b", "line 1: the end stands where a name is wanted"),
    ("(SIG (f 1))", "line 1: a declaration SIG isn't known"),
    (f"(RULES {'f' * 256} -> a)", "the name ffffffffffffffffffff... has more than 255 bytes"),
]
# Rules, and the lines that they become.
WRITTEN = [
    (
        "(CONDITIONTYPE ORIENTED)(VAR x)(RULES f(x)->x|g(x)==s(x),x==0 f(x)->a())",
        ["  f(x) -> x if g(x) = s(x), x = 0", "  f(x) -> a", "  a : -> Term"],
    ),
    ("(VAR x)(RULES f(x) -> s(x) | g(x) -> 0)", ["  f(x) -> s(x) if g(x) = 0"]),
    (
        "(STRATEGY INNERMOST)(COMMENT (a) ->)(VAR EVAL)(RULES if(EVAL)->+-(EVAL))",
        ["  if'(EVAL') -> +-(EVAL')", "% if is written if'."],
    ),
    (
        "(VAR EVAL if)(RULES f(EVAL,if')->EVAL)",
        ["% EVAL is written EVAL'.", "% if is written if''.", "  f(EVAL',if') -> EVAL'"],
    ),
]


class FromTrs(unittest.TestCase):
    def test_a_whole_specification(self) -> None:
        ran = run([FROM_TRS, "--term", "times(s(s(0)),s(0))", "examples/trs/peano.trs"])
        self.assertEqual(ran, (PEANO.encode(), b"", 0))

    def test_rules(self) -> None:
        for text, lines in WRITTEN:
            out, err, status = call(FROM_TRS, given=text.encode())
            self.assertEqual((err, status), ("", 0), text)
            for line in lines:
                self.assertIn(line, out.split("\n"))

    def test_what_cannot_be_said_is_refused_by_name(self) -> None:
        for text, why in REFUSED:
            self.assertEqual(call(FROM_TRS, given=text.encode()), ("", f"from-trs: input: {why}\n", 1), text)
        for term in ("s(x)", "s(0", "s(0) 0", "plus(0)"):
            out, err, status = call(FROM_TRS, "--term", term, given=PLUS)
            self.assertEqual(
                (out, err.startswith(f"from-trs: input: --term {term}: line 1: "), status), ("", True, 1), err
            )
        self.assertEqual(
            run([FROM_TRS], b"(THEORY (C f))"), (b"", b"from-trs: standard input: line 1: a theory can't be said\n", 1)
        )

    @unittest.skipUnless(support.IS_BUILT, "no program is built")
    def test_values(self) -> None:
        for name, terms in VALUES.items():
            words = [it for term, _ in terms for it in ("--term", term)]
            made = run([FROM_TRS, *words, f"examples/trs/{name}.trs"])
            self.assertEqual(made[1:], (b"", 0), name)
            wanted = "".join(f"{value}\n" for _, value in terms).encode()
            self.assertEqual(run([PROGRAM, "rewrite"], made[0]), (wanted, b"", 0), name)

    def test_each_system_has_values_to_be_tried(self) -> None:
        self.assertEqual([f"{support.TOP}/examples/trs/{it}.trs" for it in sorted(VALUES)], support.examples(".trs"))


if __name__ == "__main__":
    unittest.main()
