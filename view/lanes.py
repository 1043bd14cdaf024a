"""Lanes of text: a column a thread, a line an entry, fitted to a width."""
from __future__ import annotations

import textwrap
from dataclasses import dataclass, field

import codes
from record import Arrow, Reading, Row, Span
from state import Kind, Standing, Thread

SIGNS = {
    Kind.READY: "|", Kind.WANTS: "w", Kind.WAITS: ":", Kind.UNKNOWN: "?", Kind.SUSPENDED: "#", Kind.OUT: "o",
    Kind.DOOMED: "x", Kind.CLEANED: "-", Kind.BURIED: "", Kind.IDLE: ".",
}
KEY = ("[step] acts   | ready   : waits   w wants a fast mutex   # suspended   ? unknown   o out   "
       "x doomed   - cleaned   . no call")
NARROWEST, WIDEST, NOTES = 8, 20, 22
COLOURS = {"plain": "34", "owed": "90", "death": "35", "call": "36"}


@dataclass
class Columns:
    """Which threads have a column, where the first begins, and how wide each is."""

    threads: list[Thread]
    first: int
    wide: int
    at: dict[int, int] = field(init=False)

    def __post_init__(self) -> None:
        self.at = {it.number: self.first + place * self.wide for place, it in enumerate(self.threads)}


def columns_of(reading: Reading, width: int, names: list[str]) -> Columns:
    """The columns that fit: narrower ones where there are many, and then those of the threads that act most. The first
    column is of interrupts and immediate calls, where there are any."""
    threads = [it for it in reading.acting() if not names or it.name in names]
    first = len(str(len(reading.rows))) + 2
    if any(row.entry.actor == "idfc" or row.entry.actor.startswith("irq") for row in reading.rows):
        first += 12
    room = max(width - first - NOTES, NARROWEST)
    most = max(room // NARROWEST, 1)
    if len(threads) > most:
        acts = {it.number: 0 for it in threads}
        for row in reading.rows:
            if row.entry.thread in acts:
                acts[row.entry.thread] += 1
        kept = sorted(threads, key=lambda it: -acts[it.number])[:most]
        threads = [it for it in threads if it in kept]
    longest = max([len(row.entry.step) + 3 for row in reading.rows] + [len(it.name) + 1 for it in threads] + [0])
    wide = min(room // max(len(threads), 1), max(longest, NARROWEST), WIDEST)
    return Columns(threads, first, wide)


class Cursor:
    """The span that a row belongs to, of a thread's list; rows are asked for in their order."""

    def __init__(self, spans: list[Span]) -> None:
        self.spans, self.place = spans, 0

    def at(self, row: int) -> tuple[Standing, bool]:
        """How the lane stands in a row, and whether that begins with it."""
        moved = False
        while self.place + 1 < len(self.spans) and self.spans[self.place + 1].first <= row:
            self.place += 1
            moved = True
        return self.spans[self.place].standing, moved


def short(words: str) -> str:
    """The words of a state as they fit a narrow column."""
    words = words.replace(" acts for it", "").replace("message", "msg").replace("fast semaphore", "fsem")
    return words.replace("semaphore ", "").replace("mutex ", "")


class Line:
    """A line of text that is written at places."""

    def __init__(self, width: int) -> None:
        self.cells = [" "] * width

    def put(self, at: int, text: str) -> None:
        """Writes a text from a place on, as far as the line goes."""
        for place, sign in enumerate(text, at):
            if 0 <= place < len(self.cells):
                self.cells[place] = sign

    def text(self) -> str:
        """The line, without spaces at its end."""
        return "".join(self.cells).rstrip()


class Lanes:
    """Writes a reading as lanes of text."""

    def __init__(self, reading: Reading, width: int, names: list[str], colour: bool = False) -> None:
        self.reading, self.width, self.colour = reading, width, colour
        self.columns = columns_of(reading, width, names)
        self.cursors = {it.number: Cursor(reading.spans[it.number]) for it in self.columns.threads}
        self.words: dict[int, str] = {}
        self.notes_at = self.columns.first + self.columns.wide * len(self.columns.threads) + 1

    def head(self) -> list[str]:
        """The names of the threads, by process."""
        processes, names = Line(self.width), Line(self.width)
        last = None
        for place, thread in enumerate(self.columns.threads):
            at = self.columns.first + place * self.columns.wide
            names.put(at, thread.name[:self.columns.wide - 1])
            if thread.process != last:
                processes.put(at, (thread.lane.process or "kernel")[:self.columns.wide - 1])
            last = thread.process
        return [processes.text(), names.text()]

    def row(self, row: Row) -> str:
        """The line of an entry."""
        place, columns = row.entry.place, self.columns
        line = Line(self.notes_at)
        if row.entry.actor in ("tick", "idle"):
            sign = "~" if row.entry.actor == "tick" else "."
            line.put(columns.first - 1, sign * (self.notes_at - columns.first))
        self.put_states(line, place)
        line.put(0, str(place).rjust(len(str(len(self.reading.rows)))))
        self.put_actor(line, row)
        self.put_words(line)
        text = line.text()
        if self.colour:
            text = self.coloured(text, row)
        notes = notes_of(row)[:max(self.width - self.notes_at, 0)]
        return (text + " " * (self.notes_at - len(line.text())) + notes).rstrip() if notes else text

    def put_states(self, line: Line, place: int) -> None:
        """The sign of each lane. What a state is for stands once, in the first of its lines that nothing covers."""
        for thread in self.columns.threads:
            now, begins = self.cursors[thread.number].at(place)
            if begins:
                self.words[thread.number] = short(now.words)
            if SIGNS[now.kind]:
                line.put(self.columns.at[thread.number], SIGNS[now.kind])

    def put_words(self, line: Line) -> None:
        """What states are for, in lines in which nothing covers it."""
        room = self.columns.wide - 2
        for number, words in list(self.words.items()):
            at = self.columns.at[number] + 1
            if words and all(it == " " for it in line.cells[at:at + room]):
                line.put(at, words[:room])
                self.words[number] = ""

    def put_actor(self, line: Line, row: Row) -> None:
        """The step in brackets, and the arrows from it to other columns."""
        at, room = self.columns.at.get(row.entry.thread or 0), self.columns.wide - 1
        step = row.entry.step
        if row.entry.actor in ("tick", "idle"):
            line.put(self.columns.first + 2, f" {row.entry.actor} ")
            return
        if row.entry.thread is None:
            at, room = self.columns.first - 12, 11
            step = row.entry.actor if row.entry.actor.startswith("irq") else step
        if at is None:
            return
        box = f"[{step[:room - 2]}]"
        for arrow in self.farthest_first(row.arrows, at):
            self.put_arrow(line, at, len(box), arrow)
        line.put(at, box)

    def farthest_first(self, arrows: list[Arrow], at: int) -> list[Arrow]:
        """The arrows to other columns. A near one is written over a far one."""
        there = [it for it in arrows if self.columns.at.get(it.to, at) != at]
        return sorted(there, key=lambda it: -abs(self.columns.at[it.to] - at))

    def put_arrow(self, line: Line, at: int, box: int, arrow: Arrow) -> None:
        """An arrow with its label, from behind the box to the sign of the other lane."""
        to = self.columns.at[arrow.to]
        label = ("msg " if arrow.kind == "message" else "") + arrow.label
        left, right = (at + box, to) if to > at else (to + 1, at)
        room = right - left
        text = f"-{label}"[:max(room - 1, 0)] if to > at else f"<-{label}"[:room]
        line.put(left, text.ljust(room, "-"))
        if to > at:
            line.put(right - 1, ">")

    def coloured(self, text: str, row: Row) -> str:
        """The line with the colour of its box."""
        begin, end = text.find("["), text.find("]")
        if begin < 0 or end < begin:
            return text
        colour = "31" if row.refused or row.wrong else COLOURS[row.box]
        return f"{text[:begin]}\x1b[{colour}m{text[begin:end + 1]}\x1b[0m{text[end + 1:]}"

    def lines(self, first: int, last: int) -> list[str]:
        """The lines of the entries from `first` to `last`; idle ones that follow one another fold."""
        found, rows, at = self.head(), self.reading.rows[first - 1:last], 0
        while at < len(rows):
            run = at
            while run < len(rows) and rows[run].entry.actor == "idle" and not rows[run].wrong:
                run += 1
            found.append(self.row(rows[at]))
            if run - at >= 3:
                found[-1] = f"{found[-1]}, to {rows[run - 1].entry.place}"
                at = run
                continue
            found += [f"  !! {why}" for why in rows[at].wrong]
            at += 1
        return found + self.foot()

    def foot(self) -> list[str]:
        """What stands below: the signs, who has no column, and what disagrees at the end."""
        found = ["", KEY]
        shown = {it.number for it in self.columns.threads}
        rest = [it.name for it in self.reading.acting() if it.number not in shown]
        if rest:
            found.append("Without a column (choose by --lanes): " + ", ".join(rest))
        quiet = [it.name for it in self.reading.quiet()]
        if quiet:
            found.append("Never act or change: " + ", ".join(quiet))
        found += [f"!! line {line}: {why}" for line, why in self.reading.wrong_at_end]
        return [line for it in found for line in textwrap.wrap(it, self.width, break_on_hyphens=False) or [""]]


def notes_of(row: Row) -> str:
    """What stands at the right: a value or an error's name, and for whom."""
    answer, found = row.entry.answer, []
    if answer is not None and answer < 0:
        found.append(codes.name_of(answer))
    elif answer:
        found.append(f"= {answer}")
    if row.acts_for:
        found.append(f"for {row.acts_for}")
    found += [f"{it.kind} {it.number}" for it in row.entry.effects if it.kind in ("dead", "missed", "ended")]
    return ", ".join(found)
