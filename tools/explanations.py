"""What is to be told of a run that was refused or gave up: what tools/explain adds, in words."""

from __future__ import annotations

import os
import re

from command_lines import Command, commands, options_given

# Of each kind of fault: what it is, and what to do.
KINDS: dict[int, tuple[str, str]] = {
    1: ("no word, white space or comment begins with this byte", "remove it, or put it behind a % into a comment"),
    2: (
        "this word can't stand here",
        "see the grammar in docs/LANGUAGE.md: the sections have one order, and brackets are never empty",
    ),
    3: (
        "the input ends too early, or nothing is there",
        "close each bracket, and end each specification with END-SPEC",
    ),
    4: ("this sort isn't listed", "list it in SORTS, or include a specification that does"),
    5: (
        "this name isn't declared",
        "declare it in CONS, OPNS or VARS, or include a specification that declares it as a symbol",
    ),
    6: (
        "this name is declared again, or the entry brings another declaration of a symbol",
        "keep one of the two, or give this one another name",
    ),
    7: (
        "a symbol has another number of arguments than declared, or a variable has arguments",
        "give it the arguments of its declaration",
    ),
    8: (
        "this term has another sort than is wanted here",
        "compare the declaration of its first name with that of the symbol around it, or of the other side",
    ),
    9: ("a variable stands alone on the left side of a rule", "begin the left side with a symbol"),
    10: (
        "a variable of a right side or a condition isn't in the rule's left side",
        "use variables of the left side alone",
    ),
    11: ("a variable stands in EVAL", "put a term without variables in its place"),
    12: ("no earlier specification has this name", "put the specification before this one, or correct the name"),
    13: (
        "a limit is passed",
        "keep to 255 bytes a name, 16 arguments, 65,535 symbols, 65,535 rules and 65,535 terms a specification",
    ),
    14: ("the input is too long", "cut it into several inputs"),
    15: (
        "this line has another form, or names a seat that isn't there",
        "write it as README.md tells the lines of a schedule, with seats below --seats",
    ),
    16: ("this step is out of place here", "see the list of steps in README.md, which says when each is in place"),
    17: (
        "this number begins with 0, or is above 18446744073709551615",
        "write it without leading zeros, or as a quoted name",
    ),
    18: ("the file isn't one that pack writes, from this byte on", "pack the terms again"),
    19: (
        "a rule has a condition, which this command doesn't take",
        "leave the conditions out, or use rewrite without --trace",
    ),
}
# The same of term text, where it is something else.
KINDS_OF_TEXT: dict[int, tuple[str, str]] = {
    1: (
        "no word or white space begins with this byte, or it can't stand in quotes here",
        "put names with other bytes than letters, digits and _ ' . - into quotes, and write \\\" and \\\\ there",
    ),
    2: ("no term goes on with this word", "see the grammar of term text in docs/LANGUAGE.md"),
    3: ("the input ends inside a term", "close each parenthesis, bracket and quote"),
    13: ("a limit is passed here", "keep to 255 bytes a name, 16 arguments of a name and 65,535 symbols"),
}
# Of a log.
KINDS_OF_LOGS: dict[int, tuple[str, str]] = {
    15: (
        "no line of a log has this form or may stand here, or the log has no end",
        "see docs/FORMATS.md: a log begins with '# log', and ends with '# end'",
    ),
}
# Of an output with traces.
TRACE = "check trace"
KINDS_OF_TRACES: dict[int, tuple[str, str]] = {
    15: (
        "no line here has this form, or a line is missing; where it is line 0, the specification isn't there whole",
        "see docs/FORMATS.md: a line 'spec N', N bytes and a line feed, then the output, and '# end'",
    ),
    19: ("a rule has a condition, of which no trace tells", "leave the conditions out"),
}
# And of a file of terms.
KINDS_OF_FILES: dict[int, tuple[str, str]] = {3: ("the file is cut short", "take the whole file, or pack the terms again")}
KINDS_OF = {"terms": KINDS_OF_TEXT, "pack": KINDS_OF_TEXT, "unpack": KINDS_OF_FILES, "check": KINDS_OF_LOGS, TRACE: KINDS_OF_TRACES}
# A word of a specification, as far as it is to be marked.
WORD = re.compile(rb"-><-|->/<-|->|<>|[^\s(),:=<>%]*")
# The kinds whose place is a line.
OF_LINES = (15, 16)
# Lines that stand for a term without a value, with the option that gives it more.
NO_VALUE = {"out of fuel": "--fuel", "too deep": "--depth", "too large": "--sizes"}
# Why a run ended with these statuses.
CAUSES = {
    5: "standard input couldn't be read",
    6: "standard output couldn't be written: was it closed, or is the disk full?",
    7: "the system gave no more memory",
    8: "the store's numbers may end: with fewer rows or workers they last longer",
    9: "what was checked isn't right: docs/FORMATS.md says what the line means",
}
TOO_LARGE = "the value has too many symbols to be written: --sizes tells its size"
TOO_LARGE_IN_A_FILE = "the term has too many nodes to be written, or too many were written before it"


def what_is(path: str) -> str:
    if os.path.isdir(path):
        return "a folder"
    return "a file that can't be read" if os.path.exists(path) else "no file"


def of_words(table: dict[str, Command], words: list[str]) -> list[str]:
    """Says what is wrong with refused words."""
    if not words or words[0] not in table:
        asked = words[1:2] if words[:1] == ["help"] else words[:1]
        why = "".join(f"{it} is no command: " for it in asked)
        return [f"rec: {why}the commands are {', '.join(table)}", "rec: 'rec --help' tells more"]
    command, why = table[words[0]], "these words are no command line"
    try:
        _, plain = options_given(command, words[1:])
        surplus = plain[len(command.words) - 1 :]
        if len(surplus) == 1:
            why = f"{surplus[0]} is {what_is(surplus[0])}"
        elif surplus:
            why = f"{surplus[0]} is one word too many"
        elif len(plain) < len(command.words) - 1:
            why = "a word is missing: " + " or ".join(" ".join(it) for it in (command.words, *command.others))
    except ValueError as fault:
        why = str(fault)
    return [f"rec: {why}", f"rec: 'rec help {words[0]}' tells more"]


def in_force(table: dict[str, Command], words: list[str], name: str) -> str:
    """Says what to give the option, and what it had in this run."""
    option = table[words[0]].options.get(name)
    if option is None:
        return f"{name} has to be more"
    value = int(options_given(table[words[0]], words[1:])[0].get(name, option.default))
    if value >= option.most:
        return f"{name} was {value}, which is the most that it may be"
    return f"{name} was {value}: raise it, to at most {option.most}"


def shown(line: bytes, at: int, length: int) -> tuple[str, str, int]:
    """Returns a line's text round a place in it, with marks for under it, and the column from 1."""
    before, marked = (it.decode(errors="replace") for it in (line[:at], line[at : at + length]))
    text = "".join(it if it.isprintable() or it == "\t" else "\ufffd" for it in line.decode(errors="replace"))
    start, end = max(0, len(before) - 50), len(before) + 50
    space = "".join("\t" if it == "\t" else " " for it in text[start : len(before)])
    front, back = "... " if start else "", " ..." if len(text) > end else ""
    marks = "^" * max(1, min(len(marked), end - len(before)))
    return front + text[start:end] + back, " " * len(front) + space + marks, len(before) + 1


def word_length(line: bytes, at: int) -> int:
    word = WORD.match(line, at)
    return len(word[0]) if word else 0


def words_of(kind: int, command: str) -> tuple[str, str]:
    """Says what a fault of the command's input is, and what to do."""
    return KINDS_OF.get(command, {}).get(kind) or KINDS.get(kind, ("a fault without a name", "see docs/LANGUAGE.md"))


def of_fault(
    kind: int, place: int, text: bytes | None, source: str, is_bytes: bool, command: str = "rewrite"
) -> list[str]:
    """Says what a fault is and where it stands."""
    what, advice = words_of(kind, command)
    name = source or "standard input"
    if kind == 14 or is_bytes or text is None:
        where = f"more than {place} bytes" if kind == 14 else f"{'line' if kind in OF_LINES else 'byte'} {place}"
        return [f"{name}: {where}: kind {kind}: {what}", f"    what to do: {advice}"]
    if kind in OF_LINES:
        number, lines = place, text.split(b"\n")
        line = lines[place - 1] if place <= len(lines) else b""
        at, length = 0, max(1, len(line))
    else:
        start = text.rfind(b"\n", 0, place) + 1
        number, line, at = text.count(b"\n", 0, place) + 1, text[start:].partition(b"\n")[0], place - start
        length = 1 if kind == 1 else word_length(line, at)
    written, marks, column = shown(line.rstrip(b"\r"), at, length)
    head, margin = f"{name}:{number}:{column}: kind {kind}: {what}", " " * len(str(number))
    return [head, f" {number} | {written}", f" {margin} | {marks}", f" {margin} what to do: {advice}"]


def place_in_all(command: str, kind: int, place: int, text: bytes | None) -> int:
    """Returns a fault's place in the whole input: behind its heading an output with traces has two parts, each with places of its own."""
    heading = re.match(rb"spec ([0-9]+)\n", text or b"") if command == TRACE else None
    if heading is None or text is None or kind == 14:
        return max(place, 1) if command == TRACE and kind in OF_LINES else place
    if kind not in OF_LINES:
        return heading.end() + place
    lines = text.count(b"\n", 0, heading.end() + int(heading[1]) + 1)
    return lines + place if place else 1


def places(numbers: list[int]) -> str:
    if not numbers:
        return ", if that is a line"
    return f" in line {numbers[0]}" if len(numbers) == 1 else f" in {len(numbers)} lines, first in line {numbers[0]}"


def too_large_in(command: str) -> str:
    return TOO_LARGE_IN_A_FILE if command == "unpack" else TOO_LARGE


def of_lines(table: dict[str, Command], words: list[str], output: bytes | None) -> list[str]:
    """Says which terms have no value, and why: of all that may be so where the output isn't known."""
    said = []
    lines = (output or b"").decode(errors="replace").splitlines()
    for text, option in NO_VALUE.items():
        if words[0] == "unpack" and option != "--sizes":
            continue
        numbers = [at for at, line in enumerate(lines, 1) if line == text]
        if numbers or output is None:
            why = too_large_in(words[0]) if option == "--sizes" else in_force(table, words, option)
            said.append(f"rec: '{text}'{places(numbers)}: {why}")
    return said


def of_counts(table: dict[str, Command], words: list[str], output: bytes | None) -> list[str]:
    """Says how many terms of a drill have no value, and what may help. Of its values none is too large to be written."""
    counts = dict(re.findall(r"^(terms|values) ([0-9]+)$", (output or b"").decode(errors="replace"), re.MULTILINE))
    said = ["rec: some term has no value"]
    if len(counts) == 2:
        said = [f"rec: {int(counts['terms']) - int(counts['values'])} of {counts['terms']} terms have no value"]
    for text in ("out of fuel", "too deep"):
        said.append(f"rec: '{text}', if a term is: {in_force(table, words, NO_VALUE[text])}")
    return said


def told(words: list[str], status: int, line: str, text: bytes | None, output: bytes | None, source: str) -> list[str]:
    """Says what is to be told of a run.

    Of the run are given its words, its status, its line on standard error, what it read and what it wrote where
    that is known, and the name of the file that it read, or nothing.
    """
    table = commands()
    if status == 2:
        return of_words(table, words)
    if not words or words[0] not in table:
        return []
    fault = re.match(r"fault ([0-9]+) at ([0-9]+)$", line)
    if status == 3 and fault:
        plain = [it for it in words if not it.startswith("-")]
        command = TRACE if plain[:2] == TRACE.split() else words[0]
        place = place_in_all(command, int(fault[1]), int(fault[2]), text)
        return of_fault(int(fault[1]), place, text, source, table[words[0]].input == "bytes", command)
    if status == 1:
        return of_counts(table, words, output) if words[0] == "drill" else of_lines(table, words, output)
    if status == 4:
        return [f"rec: {in_force(table, words, '--rows')}"]
    return [f"rec: {CAUSES[status]}"] if status in CAUSES else []
