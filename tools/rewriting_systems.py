"""Term rewriting systems in the old TPDB and COPS text formats, as tools/from-trs reads them."""

from __future__ import annotations

import re
from dataclasses import dataclass, field
from typing import NamedTuple, NoReturn

TOKEN = re.compile(r'"[^"\n]*"|-><-|->=|->|==|[(),|]|(?:(?!->|==)[^\s(),|"])+|\s+|.')
# Words that are no names, and the declarations that a specification says too.
MARKS = ("(", ")", ",", "|", "->", "->=", "-><-", "==")
SAID = (("STRATEGY", "INNERMOST"), ("CONDITIONTYPE", "ORIENTED"))


class Refused(Exception):
    """What a specification can't say, or what isn't of the format."""


class Word(NamedTuple):
    text: str
    line: int


class Term(NamedTuple):
    name: Word
    arguments: list[Term]

    def all(self) -> list[Term]:
        return [self, *(below for it in self.arguments for below in it.all())]


class Rule(NamedTuple):
    left: Term
    right: Term
    conditions: list[tuple[Term, Term]]


@dataclass
class System:
    variables: list[str] = field(default_factory=list)
    rules: list[Rule] = field(default_factory=list)
    is_oriented: bool = False
    # The number of arguments of each symbol, in the order in which they come.
    symbols: dict[str, int] = field(default_factory=dict)


def refuse(what: str, at: Word) -> NoReturn:
    raise Refused(f"line {at.line}: {what}")


class Reader:
    """Goes through the words of a system from the first to the last."""

    def __init__(self, text: str, system: System) -> None:
        self.system, self.words, self.at, line = system, [], 0, 1
        for token in TOKEN.findall(text):
            if not token.isspace():
                self.words.append(Word(token, line))
            line += token.count("\n")
        self.end = Word("the end", line)

    def next(self) -> Word:
        return self.words[self.at] if self.at < len(self.words) else self.end

    def peek(self) -> str:
        return self.words[self.at].text if self.at < len(self.words) else ""

    def take(self, wanted: str = "") -> Word:
        word = self.next()
        if word is self.end or wanted and word.text != wanted or not wanted and word.text in MARKS:
            refuse(f"{word.text} stands where {wanted or 'a name'} is wanted", word)
        self.at += 1
        return word

    def declarations(self) -> None:
        while self.at < len(self.words):
            self.take("(")
            self.declaration(self.take())
            self.take(")")

    def declaration(self, word: Word) -> None:
        if word.text == "VAR":
            while self.peek() != ")":
                self.system.variables.append(self.take().text)
        elif word.text == "RULES":
            while self.peek() != ")":
                self.system.rules.append(self.rule())
        elif word.text == "COMMENT":
            depth = 0
            while self.at < len(self.words) and (depth or self.peek() != ")"):
                depth += {"(": 1, ")": -1}.get(self.peek(), 0)
                self.at += 1
        elif (word.text, self.peek()) in SAID:
            self.system.is_oriented |= self.take().text == "ORIENTED"
        elif word.text in ("STRATEGY", "CONDITIONTYPE"):
            refuse(
                f"the {'strategy' if word.text == 'STRATEGY' else 'type of conditions'} {self.peek()} can't be said",
                word,
            )
        else:
            refuse(
                "a theory can't be said" if word.text == "THEORY" else f"a declaration {word.text} isn't known", word
            )

    def rule(self) -> Rule:
        left = self.term()
        if self.peek() == "->=":
            refuse("a relative rule can't be said", self.words[self.at])
        self.take("->")
        right = self.term()
        conditions: list[tuple[Term, Term]] = []
        while self.peek() == ("," if conditions else "|"):
            self.at += 1
            side, between = self.term(), self.next()
            if between.text == "-><-":
                refuse("a condition of joinability can't be said", between)
            if between.text not in ("->", "=="):
                refuse(f"{between.text} stands where == is wanted", between)
            if between.text == "==" and not self.system.is_oriented:
                refuse("a condition == stands without (CONDITIONTYPE ORIENTED) before it", between)
            self.at += 1
            conditions.append((side, self.term()))
        return Rule(left, right, conditions)

    def term(self) -> Term:
        name = self.take()
        arguments: list[Term] = []
        if self.peek() == "(":
            self.take("(")
            while self.peek() != ")":
                if arguments:
                    self.take(",")
                arguments.append(self.term())
            self.take(")")
        return Term(name, arguments)
