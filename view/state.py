"""What the reader knows at a moment: threads, objects, messages, and the queues of calls."""
from __future__ import annotations

from dataclasses import dataclass, field
from enum import Enum

from script import Lane, Script


class Stage(Enum):
    """How far a thread's death is."""

    LIVE = "live"
    DOOMED = "doomed"
    CLEANED = "cleaned"
    BURIED = "buried"


class Kind(Enum):
    """How a lane is drawn."""

    READY = "ready"
    WANTS = "wants"
    WAITS = "waits"
    UNKNOWN = "unknown"
    SUSPENDED = "suspended"
    OUT = "out"
    DOOMED = "doomed"
    CLEANED = "cleaned"
    BURIED = "buried"
    IDLE = "idle"


@dataclass(frozen=True)
class Standing:
    """The state of a lane, and in words for what or whom."""

    kind: Kind
    words: str = ""


@dataclass(eq=False)
class Thing:
    """An object: one making of its number. Its name and kind are `?` where the history doesn't tell them.

    `changes` has each count with the entry that made it, and 0 for boot."""

    number: int
    making: int
    kind: str
    name: str
    born: int
    refs: set[str] = field(default_factory=set)
    changes: list[tuple[int, int]] = field(default_factory=list)
    died: int | None = None
    swept: int | None = None
    owner: "Thread | None" = None
    server: "Thing | None" = None

    def label(self) -> str:
        """How a sentence names the object."""
        return f"{self.kind} {self.number}" if self.name in ("-", "?") else f"{self.kind} {self.name}"

    def linked(self) -> bool:
        """Whether a session is linked to its server."""
        return self.server is not None and f"lnk{self.number}" in self.server.refs


@dataclass(frozen=True)
class Wait:
    """A wait: the word of its instruction, and the object or the status that it is for."""

    word: str
    thing: Thing | None = None
    status: int | None = None

    def label(self) -> str:
        """What the wait is for."""
        if self.word in ("lock", "wait", "receive") and self.thing:
            return f"message to {self.thing.name}" if self.word == "receive" else self.thing.label()
        texts = {"fswait": "fast semaphore", "waitany": "any request", "waitfor": f"s{self.status}"}
        return texts.get(self.word, "its message")


@dataclass(eq=False)
class Thread:
    """A thread: `answers` is its place in its list, `about` the object that its call is about, `owed` how many
    closes and sweeps the thread of a queue owes, `calls` what stands in its queue."""

    number: int
    process: int
    lane: Lane
    priority: int
    suspended: int
    stage: Stage = Stage.LIVE
    answers: int = 0
    critical: int = 0
    fast: int | None = None
    wants: int | None = None
    wait: Wait | None = None
    noted: str | None = None
    exit: str | None = None
    about: Thing | None = None
    out: Thing | None = None
    calls: list[str] = field(default_factory=list)
    owed: int = 0
    mutexes: list[Thing] = field(default_factory=list)
    pending: set[int] = field(default_factory=set)
    unknown: bool = False

    @property
    def name(self) -> str:
        """The name that the script gives."""
        return self.lane.name

    def protected(self) -> bool:
        """Whether nothing may suspend or doom it now."""
        return self.fast is not None or self.critical > 0

    def stopped(self) -> bool:
        """Whether it is suspended, and nothing puts that off."""
        return self.suspended > 0 and not self.protected()


@dataclass(eq=False)
class Message:
    """A message, with the entries at which it was accepted, taken and finished. `what` is connect, close or its
    function, and `status` what its completion signals."""

    number: int
    client: Thread
    what: str
    status: str
    accepted: int
    session: Thing | None = None
    taken: int | None = None
    finished: int | None = None
    code: int | None = None


@dataclass
class Waiters:
    """Who waits for a semaphore. Of the `old` ones between `least` and `most` were served, and the history doesn't tell
    which; the `fresh` ones came after the last signal, so they wait."""

    old: list[Thread] = field(default_factory=list)
    fresh: list[Thread] = field(default_factory=list)
    least: int = 0
    most: int = 0

    def leave(self, thread: Thread, served: bool) -> None:
        """A thread goes: it was served, or it was doomed and may have been."""
        if thread in self.fresh:
            self.fresh.remove(thread)
        elif thread in self.old:
            self.old.remove(thread)
            self.least = max(self.least - 1, 0)
            self.most = max(self.most - 1, 0) if served else min(self.most, len(self.old))

    def signal(self) -> list[Thread]:
        """A signal comes. Answers the threads that were served for certain by now."""
        self.old += self.fresh
        self.fresh = []
        self.least = min(self.least + 1, len(self.old))
        self.most = min(self.most + 1, len(self.old))
        if self.least < len(self.old):
            return []
        done, self.old, self.least, self.most = self.old, [], 0, 0
        return done

    def may_be_served(self, thread: Thread) -> bool:
        """Whether a signal may have ended the wait of a thread."""
        return thread in self.old and self.most > 0


@dataclass
class State:
    """All that the reader knows after some entries. `made` counts the makings of each number."""

    threads: dict[int, Thread] = field(default_factory=dict)
    names: dict[str, Thread] = field(default_factory=dict)
    things: dict[int, Thing] = field(default_factory=dict)
    made: dict[int, int] = field(default_factory=dict)
    all_things: list[Thing] = field(default_factory=list)
    messages: dict[int, Message] = field(default_factory=dict)
    fast: dict[int, Thread] = field(default_factory=dict)
    immediate: list[str] = field(default_factory=list)
    waiters: dict[Thing, Waiters] = field(default_factory=dict)

    def make(self, number: int, kind: str, name: str, place: int) -> Thing:
        """Adds an object, the next making of its number."""
        self.made[number] = self.made.get(number, 0) + 1
        thing = Thing(number, self.made[number], kind, name, place)
        self.things[number] = thing
        self.all_things.append(thing)
        return thing

    def supervisor(self) -> Thread:
        """The thread that buries the others."""
        return self.threads[1]


def boot(script: Script) -> State:
    """What stands before the first entry, with its numbers: the kernel and the supervisor, the threads of queues,
    the kernel threads, and then each process with its threads."""
    state = State()
    state.make(0, "process", "kernel", 0)
    supervisor = Lane("supervisor", 48, 0, serves=True)
    for lane in [supervisor] + script.queues + script.kernel_threads:
        add_thread(state, 0, lane)
    for name, lanes in script.processes:
        process = state.make(len(state.things), "process", name, 0).number
        for lane in lanes:
            add_thread(state, process, lane)
    for thing in state.all_things:
        thing.changes.append((0, len(thing.refs)))
    return state


def add_thread(state: State, process: int, lane: Lane) -> None:
    """A thread with its link to its process, and with the kernel's own reference."""
    number = len(state.things)
    state.make(number, "thread", lane.name, 0).refs.add("krn")
    state.things[process].refs.add(f"lnk{number}")
    thread = Thread(number, process, lane, lane.priority, int(lane.held))
    state.threads[number] = thread
    state.names[lane.name] = thread
