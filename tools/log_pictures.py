"""Pictures of the log of a run: its callers as lanes, its numbers as time, its entries as marks. SVG, by hand."""

from __future__ import annotations

import re
from typing import Iterable, NamedTuple
from xml.sax.saxutils import escape

MAKE, FIND, ROOTS, COLLECT = "make", "find", "roots", "collect"
NUMBER = r"(?:0|[1-9][0-9]*)"
START = re.compile(rf"# log {NUMBER} ({NUMBER})")
CALLER = re.compile(rf"# caller ({NUMBER})")
CREATION = re.compile(rf"# (make|find) ({NUMBER}) ({NUMBER}) ([si]{NUMBER}|e|c)((?: {NUMBER})*)")
NAMES = re.compile(rf"# (roots|collect) ({NUMBER})((?: {NUMBER})*)")

# Sizes in the picture's units: a column of time, a lane, and what stands beside and above the lanes.
COLUMN, LANE, LEFT, TOP = 12, 28, 78, 40
COLOURS = {MAKE: "#1b6ac9", FIND: "#1b6ac9", ROOTS: "#6b7280", COLLECT: "#c2410c"}


class Entry(NamedTuple):
    """What one caller noted: its kind, its number (of a find or roots: that of the last change before it), in words."""

    caller: int
    kind: str
    number: int
    words: str

    def time(self) -> tuple[int, bool]:
        """Makes and collections come at their number, finds and roots after it."""
        return self.number, self.kind in (FIND, ROOTS)


class Log(NamedTuple):
    callers: int
    entries: list[Entry]


def entry_of(caller: int, line: str) -> Entry:
    """Reads an entry; a ValueError tells that the line has none."""
    if creation := CREATION.fullmatch(line):
        kind, number, row, head, arguments = creation.groups()
        return Entry(caller, kind, int(number), f"{kind} {number}: row {row} is {head}({','.join(arguments.split())})")
    if names := NAMES.fullmatch(line):
        kind, number, rows = names.groups()
        verb = "kept" if kind == COLLECT else "protected"
        return Entry(caller, kind, int(number), f"{kind} {number}: {verb} {len(rows.split())} rows:{rows}")
    raise ValueError("the line has no entry")


def read_log(lines: Iterable[tuple[int, str]]) -> Log:
    """Reads numbered lines up to the end of a log, and passes over what isn't of it; else a ValueError tells where."""
    callers, entries, caller = None, [], -1
    for at, line in ((at, line) for at, line in lines if line.startswith("# ")):
        start, next_caller = START.fullmatch(line), CALLER.fullmatch(line)
        if (callers is None) != bool(start):
            raise ValueError(f"line {at}: {'# log is wanted first' if callers is None else 'a second # log'}")
        if start:
            callers = int(start[1])
        elif line == "# end":
            return Log(callers or 0, entries)
        elif next_caller:
            caller += 1
            if int(next_caller[1]) != caller or caller >= (callers or 0):
                raise ValueError(f"line {at}: caller {caller} of {callers} is wanted, if there is one")
        elif caller < 0:
            raise ValueError(f"line {at}: caller 0 is wanted first")
        else:
            try:
                entries.append(entry_of(caller, line))
            except ValueError:
                raise ValueError(f"line {at}: this is no line of a log: {line}") from None
    raise ValueError("there is no log" if callers is None else "the log has no # end")


def mark(entry: Entry, x: int, y: int, bottom: int) -> str:
    colour, title = COLOURS[entry.kind], f"<title>caller {entry.caller}, {escape(entry.words)}</title>"
    if entry.kind == COLLECT:
        return (
            f'<g class="collect"><line x1="{x}" y1="{TOP - 8}" x2="{x}" y2="{bottom}" stroke="{colour}"/>'
            f'<rect x="{x - 5}" y="{y - 5}" width="10" height="10" fill="{colour}"/>{title}</g>'
        )
    if entry.kind == ROOTS:
        return f'<rect class="roots" x="{x - 3}" y="{y - 6}" width="6" height="12" fill="{colour}">{title}</rect>'
    fill = colour if entry.kind == MAKE else "white"
    circle = f'<circle class="{entry.kind}" cx="{x}" cy="{y}" r="4" fill="{fill}" stroke="{colour}">'
    return f"{circle}{title}</circle>"


def legend(y: int) -> list[str]:
    """What each mark means, side by side."""
    told = ((MAKE, "makes a row"), (FIND, "finds a row"), (ROOTS, "protects rows"), (COLLECT, "collects"))
    drawn, x = [], LEFT
    for kind, words in told:
        sample = mark(Entry(0, kind, 0, ""), x, y, y + 8) if kind != COLLECT else (
            f'<rect x="{x - 5}" y="{y - 5}" width="10" height="10" fill="{COLOURS[kind]}"/>'
        )
        drawn.append(re.sub(r' class="\w+"|<title>.*?</title>', "", sample))
        drawn.append(f'<text x="{x + 10}" y="{y + 4}">{words}</text>')
        x += 110
    return drawn


def picture(log: Log) -> str:
    """Draws a log. Time goes to the right: a column for each number of an entry, and one for what came after it."""
    times = sorted({entry.time() for entry in log.entries})
    columns = {time: LEFT + COLUMN * at for at, time in enumerate(times)}
    right, bottom = LEFT + COLUMN * max(len(times), 36), TOP + LANE * log.callers
    drawn = [
        f'<svg xmlns="http://www.w3.org/2000/svg" width="{right + 20}" height="{bottom + 48}" '
        'font-family="sans-serif" font-size="12">',
        '<rect width="100%" height="100%" fill="white"/>',
    ]
    for caller in range(log.callers):
        y = TOP + LANE * caller + LANE // 2
        drawn.append(f'<text x="8" y="{y + 4}">caller {caller}</text>')
        drawn.append(f'<line x1="{LEFT - 8}" y1="{y}" x2="{right}" y2="{y}" stroke="#d1d5db"/>')
    ordered = sorted(log.entries, key=lambda entry: entry.kind != COLLECT)
    for entry in ordered:
        drawn.append(mark(entry, columns[entry.time()], TOP + LANE * entry.caller + LANE // 2, bottom))
    for entry in (it for it in ordered if it.kind == COLLECT):
        at = f'x="{columns[entry.time()] + 4}" y="{TOP - 12}"'
        drawn.append(f'<text {at} fill="{COLOURS[COLLECT]}">{entry.number}</text>')
    return "\n".join([*drawn, *legend(bottom + 24), "</svg>"]) + "\n"
