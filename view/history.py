"""The printed history as entries, effects and the objects that are left, and how it fits the script's schedule."""
from __future__ import annotations

import re
from dataclasses import dataclass

from script import Misfit, Script, text_lines

ENTRY = re.compile(r"([1-9][0-9]*) (t[0-9]+|irq[0-9]+|idfc|tick|idle) (\S+)((?: [^ =]\S*)*)(?: = (0|-?[1-9][0-9]*))?")
REFERENCE = re.compile(r"([+-])(p\d+\.\d+|t\d+\.\d+|tmp\d+|own\d+|lnk\d+|msg\d+|krn):(\d+)")
OTHERS = re.compile(
    r"(dead|swept|seek|missed|accept|ended|doom|bury):(\d+)|(take|give):(\d+):(f?)(\d+)"
    r"|(finish):(\d+):(-?\d+)|(signal):(\d+):(w|\d+):(-?\d+)")


@dataclass(frozen=True)
class Effect:
    """One effect. `kind` is `+`, `-`, a word, or `raw` where its form isn't known.

    `number` is the object, thread or message that it is about; `holder` the holder, the status or `f` of a fast
    mutex; `other` the mutex or the code."""

    text: str
    kind: str
    number: int = 0
    holder: str = ""
    other: int = 0


@dataclass(frozen=True)
class Entry:
    """One entry. `thread` is the acting thread's number, and None for an interrupt and the like."""

    place: int
    actor: str
    step: str
    effects: tuple[Effect, ...]
    answer: int | None
    text: str
    thread: int | None

    def has(self, kind: str) -> bool:
        """Whether it has an effect of a kind."""
        return any(it.kind == kind for it in self.effects)

    def is_return(self) -> bool:
        """Whether it is the opening behind a find."""
        return self.step in ("open.return", "connect.return")


@dataclass(frozen=True)
class Left:
    """A line of an object that is left. `stage` is `live`, an exit, or empty where it is no thread."""

    number: int
    kind: str
    name: str
    count: int
    stage: str
    line: int


@dataclass
class History:
    """A whole history. `shared` tells that returns took no slot of the schedule."""

    lines: list[str]
    entries: list[Entry]
    left: list[Left]
    shared: bool = False


def read_effect(word: str) -> Effect:
    """The effect of a word."""
    it = REFERENCE.fullmatch(word)
    if it:
        return Effect(word, it[1], int(it[3]), it[2])
    it = OTHERS.fullmatch(word)
    if not it:
        return Effect(word, "raw")
    if it[1]:
        return Effect(word, it[1], int(it[2]))
    if it[3]:
        return Effect(word, it[3], int(it[4]), it[5], int(it[6]))
    if it[7]:
        return Effect(word, it[7], int(it[8]), "", int(it[9]))
    return Effect(word, it[10], int(it[11]), it[12], int(it[13]))


def read_entry(line: str, place: int) -> Entry:
    """The entry of a line, which must have this place."""
    it = ENTRY.fullmatch(line)
    if not it:
        raise Misfit("history", place, "it is no entry of a history")
    if int(it[1]) != place:
        raise Misfit("history", place, f"entry {it[1]} stands where {place} is due: is it cut, or a `brief` history?")
    effects = tuple(read_effect(word) for word in it[4].split())
    answer = None if it[5] is None else int(it[5])
    thread = int(it[2][1:]) if it[2][0] == "t" and it[2] != "tick" else None
    return Entry(place, it[2], it[3], effects, answer, line, thread)


def read_left(line: str, number: int) -> Left:
    """The object of a line."""
    words = line.split(" ")
    if len(words) < 4 or not words[0].isdigit() or not words[3].isdigit():
        raise Misfit("history", number, "it is no line of an object that is left")
    return Left(int(words[0]), words[1], words[2], int(words[3]), " ".join(words[4:]), number)


def read_history(data: bytes) -> History:
    """The history of a text. Raises Misfit at the first line that doesn't fit one."""
    lines = text_lines(data, "history")
    if lines and lines[0].startswith("refused "):
        raise Misfit("history", 1, f"the script was refused (`{lines[0]}`), so there is no history")
    entries: list[Entry] = []
    while len(entries) < len(lines) and lines[len(entries)] != "objects":
        entries.append(read_entry(lines[len(entries)], len(entries) + 1))
    if len(entries) == len(lines):
        raise Misfit("history", len(lines) + 1, "the text ends where a line `objects` is due: it is cut")
    left: list[Left] = []
    for number in range(len(entries) + 2, len(lines) + 1):
        if lines[number - 1] == "end":
            break
        left.append(read_left(lines[number - 1], number))
    ending = len(entries) + 2 + len(left)
    if len(lines) != ending or not data.endswith(b"\n"):
        raise Misfit("history", min(len(lines), ending) + 1, "the text ends with one line `end`: is it cut?")
    return History(lines, entries, left)


def slot_word(entry: Entry) -> str:
    """The word of the slots that can make this entry."""
    if entry.actor == "tick" or entry.actor.startswith("irq"):
        return entry.actor
    return "go"


def fit(script: Script, history: History) -> None:
    """Finds out whether returns took slots, which tells `run` from `share`. Raises Misfit at the first entry that no
    slot of the schedule makes, as in a history of another script."""
    plain = first_misfit(script, history, history.entries)
    if plain is None:
        return
    kept = [entry for entry in history.entries if not entry.is_return()]
    history.shared = len(kept) < len(history.entries)
    apart = first_misfit(script, history, kept) if history.shared else plain
    if apart is not None:
        raise max(plain, apart, key=lambda it: it[0])[1]


def first_misfit(script: Script, history: History, entries: list[Entry]) -> tuple[int, Misfit] | None:
    """The first entry that isn't of its slot, with its line, and what is wrong."""
    for entry, slot in zip(entries, script.slots):
        if slot_word(entry) != slot.word:
            why = f"`{entry.text}` doesn't come from `{script.line(slot.line)}`, line {slot.line} of the script"
            return entry.place, Misfit("history", entry.place, why)
    line = len(history.entries) + 1
    if len(entries) > len(script.slots):
        line = entries[len(script.slots)].place
    if len(entries) != len(script.slots):
        why = f"the script's schedule has {len(script.slots)} slots, and there are "
        why += ("more" if len(entries) > len(script.slots) else "fewer") + " entries"
        return line, Misfit("history", line, why)
    return None
