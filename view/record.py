"""What the pictures are drawn from: a row for each entry, and what lasts between entries."""
from __future__ import annotations

from dataclasses import dataclass, field

from history import Entry, History
from script import Instruction, Script
from state import Message, Standing, Thing, Thread


@dataclass(frozen=True)
class Arrow:
    """An arrow from the actor's box to another thread's lane."""

    kind: str
    to: int
    label: str


@dataclass
class Row:
    """One entry, with the line of the script that it comes from (0 where there is none), the object that its call is
    about, the one that a return was to open, its arrows, in whose place the holder of a fast mutex acts, what it is
    about (`t3`, `o5`, `m2`), and what disagrees."""

    entry: Entry
    instruction: Instruction | None = None
    line: int = 0
    thing: Thing | None = None
    found: Thing | None = None
    box: str = "plain"
    raw: bool = False
    acts_for: str = ""
    refused: bool = False
    arrows: list[Arrow] = field(default_factory=list)
    about: set[str] = field(default_factory=set)
    wrong: list[str] = field(default_factory=list)


@dataclass
class Span:
    """What lasts from row `first` on, until the next one of its list begins."""

    first: int
    standing: Standing


@dataclass
class Stripe:
    """A fast mutex held, a mutex owned, a critical section or a noted exit, from row `first` to row `last`."""

    kind: str
    label: str
    first: int
    last: int | None = None


@dataclass
class Reading:
    """A history as it was read."""

    script: Script
    history: History
    threads: dict[int, Thread]
    things: list[Thing]
    messages: list[Message]
    rows: list[Row] = field(default_factory=list)
    spans: dict[int, list[Span]] = field(default_factory=dict)
    stripes: dict[int, list[Stripe]] = field(default_factory=dict)
    wrong_at_end: list[tuple[int, str]] = field(default_factory=list)
    mutex_names: dict[str, str] = field(default_factory=dict)

    def disagreements(self) -> list[str]:
        """Each disagreement as a line of text."""
        found = [f"entry {row.entry.place}: {why}" for row in self.rows for why in row.wrong]
        return found + [f"line {line}: {why}" for line, why in self.wrong_at_end]

    def acting(self) -> list[Thread]:
        """The threads that act or change, in the order of their numbers."""
        busy = {row.entry.thread for row in self.rows}
        return [it for number, it in sorted(self.threads.items())
                if number in busy or len(self.spans[number]) > 1 or self.stripes[number]]

    def quiet(self) -> list[Thread]:
        """The threads that never act or change."""
        acting = {it.number for it in self.acting()}
        return [it for number, it in sorted(self.threads.items()) if number not in acting]


class Stripes:
    """The stripes of one thread that aren't ended yet, by kind and label."""

    def __init__(self, done: list[Stripe]) -> None:
        self.done = done
        self.open: dict[tuple[str, str], Stripe] = {}

    def settle(self, place: int, now: set[tuple[str, str]]) -> None:
        """After an entry these stripes are there: the others end with its row, and new ones begin with the next."""
        for key in [it for it in self.open if it not in now]:
            self.open.pop(key).last = place
        for key in sorted(now - set(self.open)):
            self.open[key] = Stripe(key[0], key[1], place + 1)
            self.done.append(self.open[key])


def stripes_of(thread: Thread) -> set[tuple[str, str]]:
    """The stripes that a thread has at a moment."""
    now = {("mutex", f"{it.name} {it.number}") for it in thread.mutexes}
    if thread.fast is not None:
        now.add(("fast", f"f{thread.fast}"))
    if thread.critical:
        now.add(("critical", ""))
    if thread.noted:
        now.add(("noted", ""))
    return now
