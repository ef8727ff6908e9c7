"""Tests of tools/believed, on a small repository whose tables are worked out by hand, and on this one's page of definitions."""

from __future__ import annotations

import os
import unittest

import support
from support import run

BELIEVED = f"{support.TOOLS}/believed"
FILES = {
    "crates/top/src/top.rt": """
// not_this is named in a comment alone
ghost use Rattle.top.specs.Run.{IsRight, unused};
ghost use Rattle.low.specs.declared.stack.Stack.{Stack};
pub fn run(words: &[u8]) -> Stack
    requires few { length words.now < 3 } // comment_only
    ensures right { IsRight words.now result.now }
{
    unused(words)
}
pub fn other() -> bool
    ensures { result ≡ true }
{
    true
}
""",
    "crates/top/specs/Run.antt": """-- unused stands in this comment
use Rattle.std.specs.Prelude.{◌≡◌, List}
use Rattle.low.specs.Words.{count as number, ◌before◌, apart, rows}
use Rattle.low.specs.Trees as trees

abbrev pub IsRight : List ℕ → List ℕ → Type 0
IsRight rows found = (rows before found) × Given (number rows) found

-- a record's fields are its own
pub record Given (n : ℕ) (apart : List ℕ) : Type 0 where
  pub unused : n ≡ trees.size apart
  pub held : (shown : ℕ) → shown ≡ n → IsSome
    shown

abbrev pub unused : ℕ
unused = 1
""",
    "crates/low/specs/Words.antt": """abbrev pub count : List ℕ → ℕ
count [] = zero
count (x ∷ xs) = suc (count xs)

abbrev pub ◌before◌ : List ℕ → List ℕ → Type 0
xs before ys = Ordered xs ys

pub data Ordered : List ℕ → List ℕ → Type 0 where
  Both : Ordered [] []

abbrev pub apart : ℕ
apart = 2

abbrev pub rows : ℕ
rows = 3
""",
    "crates/low/specs/Trees.antt": """module _ (base : Start) where
  abbrev mutual
    pub size : List ℕ → ℕ
    size xs = sizes xs

    pub sizes : List ℕ → ℕ
    sizes xs = size xs

abbrev pub Start : Type 0
Start = ℕ

abbrev pub alone : ℕ
alone = 4
""",
    "crates/low/src/stack.rt": """pub struct Stack { items: Vec<u8> }
impl Model for Stack {
    ghost use Rattle.low.specs.Seen.{seen_as};
    ghost Value = { List ℕ };
    ghost view = { λ s. seen_as s.items };
}
""",
    "crates/low/specs/Seen.antt": "abbrev pub seen_as : List ℕ → List ℕ\nseen_as xs = xs\n\nabbrev pub blind : ℕ\nblind = 0\n",
}
TABLE = """`run` of `top` stands on 10 definitions in 5 modules:

| Crate | Modules, with the number of their definitions |
|---|---|
| `low` | Seen 1, Trees 3, Words 3, src/stack.rt 1 |
| `top` | Run 2 |
"""


class Believed(unittest.TestCase):
    def given(self, *words: str) -> tuple[str, str, int]:
        with support.folder() as room:
            for name, text in FILES.items():
                os.makedirs(os.path.dirname(f"{room}/{name}"), exist_ok=True)
                with open(f"{room}/{name}", "w", encoding="utf-8") as file:
                    file.write(text)
            out, err, status = run([BELIEVED, "--top", room, *words])
        return out.decode(), err.decode(), status

    def test_a_contract_stands_on_what_its_clauses_name_in_turn(self) -> None:
        self.assertEqual(self.given("top/top.rt/run"), (TABLE, "", 0))

    def test_a_contract_of_std_alone_stands_on_nothing(self) -> None:
        out, _, status = self.given("top/top.rt/other")
        self.assertIn("`other` of `top` stands on 0 definitions in 0 modules:", out)
        self.assertEqual(status, 0)

    def test_a_function_that_is_not_there_is_refused(self) -> None:
        self.assertEqual(self.given("top/top.rt/none"), ("", "believed: crates/top/src/top.rt has no function none\n", 1))

    def test_a_word_of_another_form_is_refused(self) -> None:
        out, err, status = self.given("run")
        self.assertEqual((out, status), ("", 2))
        self.assertEqual(err, "believed: run isn't CRATE/FILE/NAME, as rec_top/top.rt/run\n")

    def test_the_page_of_definitions_has_the_tables(self) -> None:
        out, _, status = run([BELIEVED])
        self.assertEqual(status, 0)
        with open(f"{support.TOP}/docs/DEFINITIONS.md", encoding="utf-8") as file:
            self.assertTrue(out.decode() in file.read(), "run tools/believed, and put its tables into docs/DEFINITIONS.md")


if __name__ == "__main__":
    unittest.main()
