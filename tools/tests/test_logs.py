"""Tests of `rec check log` on logs by chance, with a change each, against a judge of its own.

The judge is written from the definition of a good log alone: a set of trees under names, one step after another.
"""

from __future__ import annotations

import random
import unittest
from typing import NamedTuple, Optional

import support
from support import run

MOST_NUMBER = 2**62 - 1
# How many logs of each kind are tried, and with each of them every change once.
LOGS = 40
SPECIFICATIONS = ("examples/sums.rec", "examples/nat.rec", "examples/sort.rec")


class Entry(NamedTuple):
    kind: str
    key: int
    rest: tuple[str, ...]

    def line(self) -> str:
        return " ".join(["#", self.kind, str(self.key), *self.rest])


class Log(NamedTuple):
    rows: int
    callers: list[list[Entry]]
    before: str = ""

    def text(self) -> bytes:
        lines = [f"# log {self.rows} {len(self.callers)}"]
        for number, entries in enumerate(self.callers):
            lines += [f"# caller {number}", *(it.line() for it in entries)]
        return (self.before + "\n".join([*lines, "# end"]) + "\n").encode()

    def places(self) -> list[tuple[int, int]]:
        return [(j, k) for j, entries in enumerate(self.callers) for k in range(len(entries))]

    def line_of(self, caller: int, at: int) -> int:
        """The line of an entry, counted from 1."""
        return self.before.count("\n") + 2 + sum(1 + len(it) for it in self.callers[:caller]) + 1 + at


def read(text: bytes) -> Log:
    lines = text.decode().split("\n")
    start = next(at for at, line in enumerate(lines) if line.startswith("# "))
    rows, callers = 0, []
    for line in lines[start:]:
        words = line.split(" ")[1:]
        if words[:1] == ["log"]:
            rows = int(words[1])
        elif words[:1] == ["caller"]:
            callers.append([])
        elif words[:1] not in ([], ["end"]):
            callers[-1].append(Entry(words[0], int(words[1]), tuple(words[2:])))
    return Log(rows, callers, "".join(f"{it}\n" for it in lines[:start]))


class Set:
    """Trees under names, and the root names of each caller. A tree is its head with its arguments' trees."""

    def __init__(self, rows: int, callers: int) -> None:
        self.rows, self.trees, self.roots = rows, {}, [[] for _ in range(callers)]

    def over(self, head: str, names: list[int]) -> Optional[tuple]:
        """The head over the trees of these names, if it may be created."""
        if any(it not in self.trees for it in names):
            return None
        trees = tuple(self.trees[it] for it in names)
        if head == "e" or head[0] == "i":
            return (head,) if not trees else None
        if head == "c":
            return (head, *trees) if len(trees) == 2 and trees[1][0] in ("e", "c") else None
        return (head, *trees)

    def kept(self) -> list[int]:
        reached, left = set(), [self.trees[it] for names in self.roots for it in names]
        while left:
            tree = left.pop()
            if tree not in reached:
                reached.add(tree)
                left += tree[1:]
        return sorted(name for name, tree in self.trees.items() if tree in reached)

    def steps(self, caller: int, entry: Entry) -> bool:
        """Whether the entry is a step of the set, which it makes then."""
        if entry.kind in ("make", "find"):
            name, head, *names = entry.rest
            tree = self.over(head, [int(it) for it in names])
            if entry.kind == "find":
                return tree is not None and self.trees.get(int(name)) == tree
            if tree is None or tree in self.trees.values() or int(name) in self.trees or int(name) >= self.rows:
                return False
            self.trees[int(name)] = tree
            return True
        names = [int(it) for it in entry.rest]
        if entry.kind == "roots":
            self.roots[caller] = names
            return all(it in self.trees for it in names)
        if names != self.kept():
            return False
        self.trees = {name: self.trees[name] for name in names}
        return True


def breaks(entries: list[Entry], at: int) -> bool:
    """Whether the key of an entry falls, or isn't above all of its caller before where it has to be."""
    before = [it.key for it in entries[:at]]
    above = entries[at].kind in ("make", "collect")
    return any(entries[at].key < it or above and entries[at].key == it for it in before)


def judge(log: Log) -> str:
    wrong = [log.line_of(j, k) for j, k in log.places() if breaks(log.callers[j], k)]
    if wrong:
        return f"illegal {min(wrong)}\n"

    def turn(place: tuple[int, int]) -> tuple[int, bool, tuple[int, int]]:
        entry = log.callers[place[0]][place[1]]
        return entry.key, entry.kind in ("find", "roots"), place

    order = sorted(log.places(), key=turn)
    trees = Set(log.rows, len(log.callers))
    for caller, at in order:
        if not trees.steps(caller, log.callers[caller][at]):
            return f"illegal {log.line_of(caller, at)}\n"
    return f"legal {len(order)}\n"


def drawn(draw: random.Random) -> Log:
    """A legal log by chance, of integers, lists and symbols."""
    rows, callers = draw.randint(3, 12), [[] for _ in range(draw.randint(1, 4))]
    trees, number = Set(rows, len(callers)), draw.choice((0, 5, 2**40))
    for _ in range(draw.randint(4, 40)):
        caller, what = draw.randrange(len(callers)), draw.random()
        free = [it for it in range(rows) if it not in trees.trees]
        number += draw.choice((0, 0, 1, 3)) + 1
        if what < 0.15:
            names = draw.sample(sorted(trees.trees), draw.randint(0, min(3, len(trees.trees))))
            entry = Entry("roots", number, tuple(str(it) for it in names))
        elif what < 0.25 or not free:
            entry = Entry("collect", number, tuple(str(it) for it in trees.kept()))
        else:
            head = draw.choice(("e", "c", "i7", "i18446744073709551615", "s0", "s1", "s2", "s65534"))
            count = {"e": 0, "c": 2, "i": 0, "s": draw.randint(0, 3)}[head[0]]
            names = [draw.choice(sorted(trees.trees)) for _ in range(count)] if trees.trees else []
            tree = trees.over(head, names)
            if tree is None:
                continue
            held = [name for name, it in trees.trees.items() if it == tree]
            rest = (str(held[0] if held else draw.choice(free)), head, *(str(it) for it in names))
            entry = Entry("find" if held else "make", number, rest)
        assert trees.steps(caller, entry)
        callers[caller].append(entry)
    return Log(rows, callers)


def of_a_run(draw: random.Random) -> Log:
    """The log of a run of the program."""
    workers, rows = draw.randint(1, 5), draw.choice((40, 60, 200))
    words = [support.PROGRAM, "rewrite", "--log", f"--workers={workers}", f"--rows={rows}"]
    with open(f"{support.TOP}/{draw.choice(SPECIFICATIONS)}", "rb") as file:
        out, _, status = run(words, file.read())
    return read(out) if status in (0, 1) and out.count(b"\n") < 2000 else drawn(draw)


def put(log: Log, caller: int, at: int, *entries: Entry) -> Log:
    """The log with these entries in place of one."""
    callers = [list(it) for it in log.callers]
    callers[caller][at : at + 1] = entries
    return log._replace(callers=callers)


def number_changed(draw: random.Random, log: Log) -> Log:
    j, k = draw.choice(log.places())
    entry = log.callers[j][k]
    if entry.rest and draw.random() < 0.5:
        at = draw.randrange(len(entry.rest))
        if not entry.rest[at].isdigit():
            return put(log, j, k, entry._replace(rest=(entry.rest[0], "s3", *entry.rest[2:])))
        other = str(draw.randrange(log.rows + 1))
        rest = (*entry.rest[:at], other, *entry.rest[at + 1 :])
        if entry.kind == "collect":
            rest = tuple(str(it) for it in sorted({int(it) for it in rest}))
        return put(log, j, k, entry._replace(rest=rest))
    return put(log, j, k, entry._replace(key=min(MOST_NUMBER, max(0, entry.key + draw.choice((-3, -2, -1, 1, 2, 3))))))


def line_dropped(draw: random.Random, log: Log) -> Log:
    return put(log, *draw.choice(log.places()))


def two_exchanged(draw: random.Random, log: Log) -> Log:
    one, other = draw.choice(log.places()), draw.choice(log.places())
    first, second = (log.callers[j][k] for j, k in (one, other))
    return put(put(log, *one, second), *other, first)


def kept_row_added(draw: random.Random, log: Log) -> Log:
    places = [it for it in log.places() if log.callers[it[0]][it[1]].kind == "collect"]
    if not places:
        return line_dropped(draw, log)
    j, k = draw.choice(places)
    entry = log.callers[j][k]
    names = sorted({*(int(it) for it in entry.rest), draw.randrange(log.rows)})
    return put(log, j, k, entry._replace(rest=tuple(str(it) for it in names)))


def birth_out_of_order(draw: random.Random, log: Log) -> Log:
    places = [it for it in log.places() if log.callers[it[0]][it[1]].kind == "make"]
    if len(places) < 2:
        return line_dropped(draw, log)
    one, other = draw.sample(places, 2)
    first, second = (log.callers[j][k] for j, k in (one, other))
    changed = put(log, *one, first._replace(key=second.key))
    return changed if draw.random() < 0.5 else put(changed, *other, second._replace(key=first.key))


def another_caller(draw: random.Random, log: Log) -> Log:
    j, k = draw.choice(log.places())
    callers = [list(it) for it in log.callers]
    entry, to = callers[j].pop(k), draw.choice(callers)
    to.insert(draw.randint(0, len(to)), entry)
    return log._replace(callers=callers)


CHANGES = (number_changed, line_dropped, two_exchanged, kept_row_added, birth_out_of_order, another_caller)


@unittest.skipUnless(support.IS_BUILT, "no program is built")
class Verdicts(unittest.TestCase):
    def check(self, log: Log, why: str) -> str:
        wanted = judge(log)
        out, err, status = run([support.PROGRAM, "check", "log"], log.text())
        self.assertEqual((out.decode(), err, status), (wanted, b"", 9 if wanted[0] == "i" else 0), (why, log.text()))
        return wanted

    def test_each_change_is_judged_alike(self) -> None:
        illegal = dict.fromkeys((it.__name__ for it in CHANGES), 0)
        for source in (drawn, of_a_run):
            for seed in range(LOGS):
                draw = random.Random(seed)
                log = source(draw)
                self.assertEqual(self.check(log, f"{source.__name__} {seed}"), f"legal {len(log.places())}\n")
                for change in CHANGES if log.places() else ():
                    verdict = self.check(change(draw, log), f"{source.__name__} {seed} {change.__name__}")
                    illegal[change.__name__] += verdict.startswith("illegal")
        # (each change is found at least a few times, and so the judge isn't one that says legal)
        self.assertTrue(all(it >= LOGS // 4 for it in illegal.values()), illegal)


if __name__ == "__main__":
    unittest.main()
