"""The commands of the program with their options, as tools/commands.txt lists them."""

from __future__ import annotations

import difflib
import os
import re
from dataclasses import dataclass, field

TABLE = os.path.join(os.path.dirname(os.path.abspath(__file__)), "commands.txt")


@dataclass
class Option:
    least: int
    most: int
    default: int


@dataclass
class Command:
    words: list[str]
    input: str
    # The words of further commands with the same first word.
    others: list[list[str]] = field(default_factory=list)
    # None stands for a switch, which has no value.
    options: dict[str, Option | None] = field(default_factory=dict)
    # Pairs of options of which at most one is taken.
    apart: list[tuple[str, str]] = field(default_factory=list)


def commands() -> dict[str, Command]:
    """Returns the commands that tools/commands.txt lists, by their first word."""
    found: dict[str, Command] = {}
    with open(TABLE, encoding="utf-8") as table:
        entries = [line.rstrip("\n").split("|") for line in table]
    for entry in entries:
        if entry[0] == "command":
            words = entry[1].split()
            last = found.setdefault(words[0], Command(words, entry[2]))
            if last.words != words:
                last.others.append(words)
        elif entry[0] == "option":
            least, most, default = entry[2:5]
            last.options[entry[1]] = None if least == "-" else Option(int(least), int(most), int(default))
        elif entry[0] == "apart":
            last.apart.append((entry[1], entry[2]))
    return found


def options_given(command: Command, words: list[str]) -> tuple[dict[str, str], list[str]]:
    """Returns the value that each option is given, and the other words; a complaint is raised as a ValueError."""
    given: dict[str, str] = {}
    plain: list[str] = []
    rest = iter(words)
    for word in rest:
        if not word.startswith("-"):
            plain.append(word)
            continue
        name, equals, value = word.partition("=")
        if name not in command.options:
            near = difflib.get_close_matches(name, command.options, 1)
            raise ValueError(f"{command.words[0]} has no option {name}" + (f": is {near[0]} meant?" if near else ""))
        if name in given:
            raise ValueError(f"{name} stands twice")
        option = command.options[name]
        if option is None and equals:
            raise ValueError(f"{name} has no value")
        if option is not None:
            value = value if equals else next(rest, "")
            if not re.fullmatch(r"\+?[0-9]+", value, re.ASCII) or not option.least <= int(value) <= option.most:
                raise ValueError(
                    f"{name} wants a number from {option.least} to {option.most}"
                    + (f", and {value} is none" if value else "")
                )
        given[name] = value
    # (a number 0 asks for nothing)
    asked = {name for name, value in given.items() if command.options[name] is None or int(value) > 0}
    for one, other in command.apart:
        if one in asked and other in asked:
            raise ValueError(f"{one} and {other} aren't taken together")
    return given, plain
