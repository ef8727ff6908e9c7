"""The parts of an input that tools/spread runs, and the folder that keeps them with their answers."""

from __future__ import annotations

import fcntl
import os
import re
import shutil
from dataclasses import dataclass

# The words of a specification that a cut has to know: comments, names and single marks.
WORD = re.compile(rb"%[^\n]*|(?:[A-Za-z0-9_'.@#$&*+/!?^~|\\]|-(?!>))+|[(),]")
# The statuses with which a part is done: run again, it would answer the same.
DONE = (0, 1, 2, 3, 4, 8)
# The status of a part that didn't end by itself, or hasn't a line for each of its terms.
LOST = 10


@dataclass
class Cut:
    """A specification up to the terms of its EVAL, and these terms."""

    front: bytes
    terms: list[bytes]

    def part(self, start: int, end: int) -> bytes:
        return b"%s\n%s\nEND-SPEC\n" % (self.front, b"\n".join(self.terms[start:end]))


def cut(text: bytes) -> Cut:
    """Cuts an accepted input; where its last specification has no EVAL there are no terms."""
    front: int | None = None
    spans: list[list[int]] = []
    end = depth = 0
    for word in WORD.finditer(text):
        it = word[0]
        if it == b"REC-SPEC":
            front, spans = None, []
        elif it == b"EVAL":
            front = word.end()
        elif it == b"END-SPEC":
            end = word.start()
        elif front is None or it.startswith(b"%"):
            continue
        elif it == b"(":
            depth += 1
        elif it == b")":
            depth -= 1
            spans[-1][1] = word.end()
        elif it != b"," and depth == 0:
            spans.append([word.start(), word.end()])
    return Cut(text[: end if front is None else front], [text[at:to] for at, to in spans])


def write_parts(folder: str, specification: Cut, number: int) -> dict[str, int]:
    """Writes the parts, each of as many terms as the others or one more; returns their names with these numbers."""
    terms, counts = len(specification.terms), {}
    number = max(1, min(number, terms))
    for at in range(number):
        start, end = terms * at // number, terms * (at + 1) // number
        counts[f"part{at:05}"] = end - start
        with open(f"{folder}/part{at:05}", "wb") as file:
            file.write(specification.part(start, end))
    with open(f"{folder}/parts", "w") as file:
        file.writelines(f"{name}\n" for name in counts)
    return counts


def statuses(folder: str, counts: dict[str, int]) -> dict[str, int]:
    """Returns the status of each part: of one that didn't end by itself, or hasn't a line for each term, LOST."""
    found = dict.fromkeys(counts, LOST)
    for line in lines_of(f"{folder}/joblog")[1:]:
        columns, name = line.split("\t"), line.split()[-1]
        if columns[7] == "0" and 0 <= int(columns[6]) < LOST:
            found[name] = int(columns[6])
            with open(f"{folder}/answers/{name}/stdout", "rb") as file:
                if found[name] <= 1 and file.read().count(b"\n") != counts[name]:
                    found[name] = LOST
    return found


def lines_of(path: str) -> list[str]:
    if not os.path.isfile(path):
        return []
    with open(path) as file:
        return file.read().splitlines()


def forget_undone(folder: str, counts: dict[str, int]) -> None:
    """Has the next run take up each part that isn't done: parallel passes over what has a line or an answer."""
    found = statuses(folder, counts)
    lines = lines_of(f"{folder}/joblog")
    with open(f"{folder}/joblog", "w") as log:
        log.writelines(f"{it}\n" for it in [*lines[:1], *(it for it in lines[1:] if found[it.split()[-1]] in DONE)])
    for name in (it for it in counts if found[it] not in DONE):
        shutil.rmtree(f"{folder}/answers/{name}", ignore_errors=True)


def take(folder: str) -> int | None:
    """Keeps other calls from the folder for as long as this one or its parallel lives: none where one has it."""
    lock = os.open(f"{folder}/lock", os.O_CREAT | os.O_RDWR, 0o644)
    try:
        fcntl.flock(lock, fcntl.LOCK_EX | fcntl.LOCK_NB)
    except OSError:
        os.close(lock)
        return None
    return lock
