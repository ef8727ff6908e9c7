"""Tests of the syntax files on every example, against the words of docs/LANGUAGE.md."""

from __future__ import annotations

import json
import re
import unittest
from pathlib import Path

import support
from support import TOP, run

# Words as docs/LANGUAGE.md has them: what a word is, in the names of the two syntax files.
RESERVED = {"REC-SPEC", "SORTS", "CONS", "OPNS", "VARS", "RULES", "EVAL", "END-SPEC"}
SCOPES = {
    "recSection": "keyword.other.section.rec",
    "recCondition": "keyword.control.conditional.rec",
    "recName": "variable.other.rec",
    "recArrow": "keyword.operator.rec",
    "recMark": "punctuation.separator.rec",
    "recComment": "comment.line.percentage.rec",
    "recBad": "invalid.illegal.rec",
}
NAME_BYTES = set("ABCDEFGHIJKLMNOPQRSTUVWXYZabcdefghijklmnopqrstuvwxyz0123456789_'.@#$&*+/!?^~|\\")
# All that the examples lack: arrows without spaces, runs that begin as reserved words do, bytes that begin no word.
HARD = """REC-SPEC A-b SORTS->S RULESX iffy
 f(X)->a if g(X)-><-b and-if X->/<-c, if->if- <> EVAL-x EVAL->and-iff
> < " [ % -> if >
ENDSPEC - -- a--> END-SPEC"""


def groups(line: str) -> list[str]:
    """Returns the group of each character of a line, '' for white space."""
    found: list[str] = []
    while len(found) < len(line):
        rest = line[len(found) :]
        end = 0
        while end < len(rest) and (rest[end] in NAME_BYTES or rest[end] == "-" and rest[end + 1 : end + 2] != ">"):
            end += 1
        arrow = next((it for it in ("-><-", "->/<-", "->", "<>", "=") if rest.startswith(it)), "")
        if end:
            name = rest[:end]
            found += [
                "recSection" if name in RESERVED else "recCondition" if name in ("if", "and-if") else "recName"
            ] * end
        elif arrow:
            found += ["recArrow"] * len(arrow)
        elif rest[0] == "%":
            found += ["recComment"] * len(rest)
        else:
            found.append("" if rest[0] in " \t" else "recMark" if rest[0] in ":,()" else "recBad")
    return found


def scopes(grammar: dict, line: str) -> list[str]:
    """Returns the scope of each character: of the matches that begin first, that of the first pattern."""
    patterns = [(re.compile(it["match"]), it["name"]) for it in grammar["patterns"]]
    found: list[str] = []
    while len(found) < len(line):
        matches = [(it, name) for pattern, name in patterns if (it := pattern.search(line, len(found)))]
        it, name = min(matches, key=lambda both: both[0].start(), default=(None, ""))
        if it is None:
            return found + [""] * (len(line) - len(found))
        found += [""] * (it.start() - len(found)) + [name] * (it.end() - it.start())
    return found


class Editors(unittest.TestCase):
    def setUp(self) -> None:
        self.texts = [Path(it).read_text(encoding="utf-8") for it in support.examples(".rec")] + [HARD]

    def test_textmate(self) -> None:
        with open(f"{TOP}/editors/vscode/syntaxes/rec.tmLanguage.json") as file:
            grammar = json.load(file)
        for text in self.texts:
            for line in text.splitlines():
                self.assertEqual(scopes(grammar, line), [SCOPES.get(it, "") for it in groups(line)], line)

    def test_vscode_finds_its_files(self) -> None:
        folder = f"{TOP}/editors/vscode"
        with open(f"{folder}/package.json") as file:
            adds = json.load(file)["contributes"]
        for path in (adds["languages"][0]["configuration"], adds["grammars"][0]["path"]):
            with open(f"{folder}/{path}") as file:
                self.assertIsInstance(json.load(file), dict)
        self.assertEqual(adds["languages"][0]["extensions"], [".rec"])

    @unittest.skipUnless(support.is_here("vim"), "vim isn't here")
    def test_vim(self) -> None:
        if b"+syntax" not in run(["vim", "--version"])[0]:
            self.skipTest("this vim has no syntax")
        for text in self.texts:
            with support.folder() as folder:
                with open(f"{folder}/input.rec", "w") as file:
                    file.write(text)
                words = [
                    "set runtimepath^=editors/vim",
                    "filetype plugin on",
                    "syntax on",
                    f"edit {folder}/input.rec",
                    "source tools/tests/groups.vim",
                ]
                run(
                    ["vim", "-N", "-u", "NONE", "-i", "NONE", "-es", *(it for word in words for it in ("-c", word))],
                    REC_GROUPS=f"{folder}/groups",
                )
                with open(f"{folder}/groups") as file:
                    found = [it.rstrip("\n").split(" ") for it in file]
            wanted = [
                [str(at), str(column), group]
                for at, line in enumerate(text.splitlines(), 1)
                for column, group in enumerate(groups(line), 1)
            ]
            self.assertEqual(found, wanted)


if __name__ == "__main__":
    unittest.main()
