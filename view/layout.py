"""Where the columns of a page stand: lanes, objects, messages, boot objects, the printed line and the instruction."""
from __future__ import annotations

from dataclasses import dataclass, field

from record import Reading, Row
from state import Message, Thing, Thread

ROW, BLOCK = 22, 40
MOST_COLUMNS = 14
NARROWEST, WIDEST, LANES = 46, 132, 960
OBJECT, MESSAGE, BOOT, CALLS = 54, 66, 34, 92
SIGN = 6.7
# How wide a group of columns is at least, for its title.
LEAST = 56


@dataclass
class Shown:
    """A row of the page: one entry, or the first and the last of idle ones that are folded."""

    first: Row
    last: Row

    def folded(self) -> int:
        """How many entries the row stands for."""
        return self.last.entry.place - self.first.entry.place + 1


@dataclass
class Layout:
    """The columns, by where they begin, and the rows. `skipped` has a sentence for what isn't drawn."""

    shown: list[Shown]
    row_at: dict[int, int]
    calls: int = 0
    lanes: dict[int, int] = field(default_factory=dict)
    threads: list[Thread] = field(default_factory=list)
    wide: int = WIDEST
    objects: dict[Thing, int] = field(default_factory=dict)
    messages: dict[Message, int] = field(default_factory=dict)
    boots: dict[Thing, int] = field(default_factory=dict)
    objects_at: int = 0
    messages_at: int = 0
    boots_at: int = 0
    printed: int = 0
    source: int = 0
    width: int = 0
    skipped: list[str] = field(default_factory=list)

    def row_of(self, place: int) -> int:
        """The row of an entry, in the range of the page: -1 before it, and the number of rows behind it."""
        if not self.shown or place < self.shown[0].first.entry.place:
            return -1
        return self.row_at.get(place, len(self.shown))


def fold(rows: list[Row]) -> list[Shown]:
    """The rows of a page: three or more idle entries that follow one another are one."""
    shown, at = [], 0
    while at < len(rows):
        run = at
        while run < len(rows) and rows[run].entry.actor == "idle" and not rows[run].wrong:
            run += 1
        if run - at >= 3:
            shown.append(Shown(rows[at], rows[run - 1]))
            at = run
        else:
            shown.append(Shown(rows[at], rows[at]))
            at += 1
    return shown


def pack(lives: list[tuple[int, int, object]]) -> list[list[tuple[int, int, object]]]:
    """Puts lives (first row, last row, what) into columns: one is used again after the life in it has ended."""
    columns: list[list[tuple[int, int, object]]] = []
    for life in sorted(lives, key=lambda it: it[0]):
        free = next((it for it in columns if it[-1][1] < life[0]), None)
        if free is None:
            columns.append([life])
        else:
            free.append(life)
    return columns


def most_telling(columns: list, changes, most: int = MOST_COLUMNS) -> list:
    """At most so many columns: those with the fewest changes go. The order stays."""
    kept = sorted(range(len(columns)), key=lambda at: -sum(changes(it[2]) for it in columns[at]))[:most]
    return [columns[at] for at in sorted(kept)]


class Planner:
    """Places the columns of a reading from left to right."""

    def __init__(self, reading: Reading, first: int, last: int, small: bool) -> None:
        self.reading, self.first, self.last, self.small = reading, first, last, small
        shown = fold(reading.rows[first - 1:last])
        row_at = {place: at for at, it in enumerate(shown)
                  for place in range(it.first.entry.place, it.last.entry.place + 1)}
        self.layout = Layout(shown, row_at)
        self.at = 12 + 8 * len(str(last))

    def plan(self) -> Layout:
        """Places all columns."""
        self.place_lanes()
        self.place_objects()
        self.place_messages()
        self.place_boots()
        self.place_texts()
        return self.layout

    def rows(self) -> list[Row]:
        """The rows of the range."""
        return self.reading.rows[self.first - 1:self.last]

    def place_lanes(self) -> None:
        """The column of interrupts, and the lanes of threads that act or change."""
        layout = self.layout
        if any(it.entry.actor == "idfc" or it.entry.actor.startswith("irq") for it in self.rows()):
            layout.calls = self.at
            self.at += CALLS
        layout.threads = self.reading.acting()
        if self.small:
            busy = {number for it in self.rows() for number in [it.entry.thread] + [arrow.to for arrow in it.arrows]}
            layout.threads = [it for it in layout.threads if it.number in busy]
        layout.wide = max(NARROWEST, min(WIDEST, LANES // max(len(layout.threads), 1)))
        for thread in layout.threads:
            layout.lanes[thread.number] = self.at
            self.at += layout.wide
        drawn = {it.number for it in layout.threads}
        quiet = [it.name for it in self.reading.threads.values() if it.number not in drawn]
        if quiet:
            layout.skipped.append("Not drawn, as they never act or change: " + ", ".join(quiet) + ".")
        self.at += 14

    def lives(self, things: list[Thing]) -> list[tuple[int, int, object]]:
        """The lives of objects that meet the range, by their entries."""
        end = len(self.reading.rows) + 1
        lives = [(it.born, it.swept or end, it) for it in things]
        return [it for it in lives if it[0] <= self.last and it[1] >= self.first]

    def place_columns(self, columns: list, wide: int, target: dict, what: str, changes) -> int:
        """Gives each life its column's middle, and answers where the columns begin."""
        begin, kept = self.at, most_telling(columns, changes)
        for place, column in enumerate(kept):
            for life in column:
                target[life[2]] = begin + place * wide + 14
        self.at += max(len(kept) * wide, LEAST * bool(kept))
        left_out = sum(len(it) for it in columns) - sum(len(it) for it in kept)
        if left_out:
            self.layout.skipped.append(f"Not drawn, as they change least: {left_out} {what}.")
        return begin

    def changes(self, thing: Thing) -> int:
        """How often the count of an object changes in the range."""
        return sum(1 for place, _ in thing.changes if self.first <= place <= self.last)

    def place_objects(self) -> None:
        """The columns of objects that were made."""
        made = [it for it in self.reading.things if it.born > 0]
        layout = self.layout
        layout.objects_at = self.place_columns(pack(self.lives(made)), OBJECT, layout.objects, "objects", self.changes)

    def place_messages(self) -> None:
        """The columns of messages."""
        end = len(self.reading.rows) + 1
        lives = [(it.accepted, it.finished or end, it) for it in self.reading.messages]
        columns = pack([it for it in lives if it[0] <= self.last and it[1] >= self.first])
        layout = self.layout
        layout.messages_at = self.place_columns(columns, MESSAGE, layout.messages, "messages", lambda it: 3)

    def place_boots(self) -> None:
        """The columns of objects of boot whose count changes."""
        boots = [it for it in self.reading.things if it.born == 0 and self.changes(it)]
        columns = [[it] for it in self.lives(boots)]
        layout = self.layout
        layout.boots_at = self.place_columns(columns, BOOT, layout.boots, "objects of boot", self.changes)

    def place_texts(self) -> None:
        """The printed line, and the instruction or what disagrees."""
        layout, rows = self.layout, self.rows()
        layout.printed = self.at + 10
        printed = max([len(it.entry.text) for it in rows] + [12])
        layout.source = layout.printed + int(SIGN * printed) + 16
        script = self.reading.script
        source = 0 if self.small else max([len(script.line(it.line)) + 6 for it in rows if it.line] + [12])
        wrong = max([len("; ".join(it.wrong)) for it in rows] + [0])
        layout.width = layout.source + int(SIGN * max(min(source, 60), wrong)) + 8


def plan(reading: Reading, first: int, last: int, small: bool = False) -> Layout:
    """The layout of the entries from `first` to `last`; a small one has no instructions and only lanes that act."""
    return Planner(reading, first, last, small).plan()
