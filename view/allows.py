"""An independent comparison: what the later entries and the objects that are left allow, against the reader's state.

The reader goes forward. This goes backward from the end, by rules of its own, and asks after each entry whether what
the reader knows there can be followed by what follows."""
from __future__ import annotations

from dataclasses import dataclass, field, replace
from typing import Iterator

from history import Entry, History
from reading import Reader
from record import Row
from script import Lane, Script
from state import Kind, Stage, Thread

READY = (Kind.READY, Kind.WANTS, Kind.DOOMED)
# Kinds in which a thread can't act as the next one.
STILL = (Kind.WAITS, Kind.SUSPENDED, Kind.CLEANED, Kind.BURIED, Kind.IDLE)


@dataclass
class Ahead:
    """What lies ahead of a place: of each thread its next entry, its doom and its clean, the least and the exact number
    of its suspensions and critical sections, the fast mutex that it gives next; of each mutex who gives it next; of
    each object its count, and of each status whether a request or a signal of it comes next."""

    next: dict[int, Entry] = field(default_factory=dict)
    doom: dict[int, int] = field(default_factory=dict)
    clean: dict[int, int] = field(default_factory=dict)
    least: dict[tuple[str, int], int] = field(default_factory=dict)
    exact: dict[tuple[str, int], int] = field(default_factory=dict)
    fast: dict[int, int | None] = field(default_factory=dict)
    owner: dict[int, int | None] = field(default_factory=dict)
    counts: dict[int, int] = field(default_factory=dict)
    pending: dict[tuple[int, int], bool] = field(default_factory=dict)
    finish: dict[int, int] = field(default_factory=dict)
    taken: dict[int, int] = field(default_factory=dict)
    swept: dict[int, int] = field(default_factory=dict)

    def copy(self) -> "Ahead":
        """The same, to be kept while this one is changed."""
        return replace(self, **{name: dict(value) for name, value in vars(self).items()})


class Backward:
    """Goes over a history from its end, and keeps what lies ahead of each place."""

    def __init__(self, script: Script, history: History, words: dict[int, tuple[str, ...]]) -> None:
        self.words = words
        self.about = abouts(history)
        self.left = {it.number: it for it in history.left}
        self.ahead = Ahead(counts={it.number: it.count for it in history.left})
        self.at = [self.ahead.copy()]
        for entry in reversed(history.entries):
            self.undo(entry)
            self.at.append(self.ahead.copy())
        self.at.reverse()

    def undo(self, entry: Entry) -> None:
        """Goes back over one entry."""
        for effect in reversed(entry.effects):
            self.undo_effect(entry, effect)
        if entry.thread is None:
            return
        actor, word = entry.thread, entry.step
        self.ahead.next[actor] = entry
        if word == "clean":
            self.ahead.clean[actor] = entry.place
        if word in ("receive.do", "receive.done") and entry.answer:
            self.ahead.taken[entry.answer] = entry.place
        target = self.about.get(entry.place)
        self.count("critical", actor, word, entry, {"enter.do": -1, "leave.do": 1}, "leave.do")
        if target is not None:
            self.count("suspended", target, word, entry, {"suspend.do": -1, "resume.do": 1}, "resume.do")
        self.undo_status(entry, actor)

    def count(self, what: str, number: int, word: str, entry: Entry, ways: dict[str, int], none: str) -> None:
        """A count that goes up and down: an answer 0 moves it, and an answer -2 says that it is 0."""
        key = (what, number)
        if word == none and entry.answer == -2:
            self.ahead.least[key] = self.ahead.exact[key] = 0
        elif word in ways and entry.answer == 0:
            self.ahead.least[key] = max(self.ahead.least.get(key, 0) + ways[word], 0)
            if key in self.ahead.exact:
                self.ahead.exact[key] += ways[word]

    def undo_status(self, entry: Entry, actor: int) -> None:
        """Requests make a status pending, and what reads it tells whether it is."""
        words = self.words.get(entry.place, ())
        status = next((int(it[1:]) for it in words[1:] if it[0] == "s" and it[1:].isdigit()), -1)
        signalled = any(it.kind == "signal" and it.holder == str(status) for it in entry.effects)
        if entry.step in ("request.do", "send.do", "logon.do") and entry.answer == 0:
            if not signalled:
                self.ahead.pending[actor, status] = False
            else:
                self.ahead.pending.pop((actor, status), None)
        elif entry.step == "status.do":
            self.ahead.pending[actor, status] = entry.answer == -2147483647
        elif entry.step in ("send.look", "logon.look") and entry.answer in (None, -14):
            self.ahead.pending[actor, status] = entry.answer == -14

    def undo_effect(self, entry: Entry, effect) -> None:
        """Goes back over one effect."""
        ahead, number = self.ahead, effect.number
        if effect.kind in "+-":
            ahead.counts[number] = ahead.counts.get(number, 0) + (1 if effect.kind == "-" else -1)
        elif effect.kind == "swept":
            ahead.swept[number] = entry.place
        elif effect.kind == "doom":
            ahead.doom[number] = entry.place
            for what in ("suspended", "critical"):
                ahead.least.pop((what, number), None)
                ahead.exact.pop((what, number), None)
            for key in [it for it in ahead.pending if it[0] == number]:
                del ahead.pending[key]
        elif effect.kind == "finish":
            ahead.finish[number] = entry.place
        elif effect.kind in ("take", "give") and effect.holder == "f":
            ahead.fast[number] = effect.other if effect.kind == "give" else None
        elif effect.kind in ("take", "give"):
            ahead.owner[effect.other] = number if effect.kind == "give" else None
        elif effect.kind == "signal" and effect.holder != "w":
            ahead.pending[number, int(effect.holder)] = True


def abouts(history: History) -> dict[int, int]:
    """The object that the call of each entry is about, found by its thread's last temporary reference."""
    last: dict[int, int] = {}
    found = {}
    for entry in history.entries:
        for effect in entry.effects:
            if effect.kind == "+" and effect.holder[:3] == "tmp":
                last[int(effect.holder[3:])] = effect.number
        if entry.thread in last:
            found[entry.place] = last[entry.thread]
    return found


def instructions(script: Script, history: History) -> dict[int, tuple[str, ...]]:
    """The words of the instruction of each entry: that of the number of its thread's earlier answers."""
    lanes: list[Lane | None] = [None, None, *script.queues, *script.kernel_threads]
    for _, threads in script.processes:
        lanes += [None, *threads]
    answers: dict[int, int] = {}
    found = {}
    for entry in history.entries:
        if entry.thread is None or entry.thread >= len(lanes):
            continue
        lane = lanes[entry.thread]
        at = answers.get(entry.thread, 0)
        if lane and at < len(lane.instructions):
            found[entry.place] = lane.instructions[at].words
        if entry.answer is not None:
            answers[entry.thread] = at + 1
    return found


def contradictions(script: Script, history: History) -> Iterator[str]:
    """Each place at which the reader's state and what follows don't fit."""
    reader = Reader(script, history)
    backward = Backward(script, history, instructions(script, history))
    for entry in history.entries:
        row = Row(entry)
        reader.read(row)
        ahead = backward.at[entry.place]
        follows = history.entries[entry.place] if entry.place < len(history.entries) else None
        for thread in reader.state.threads.values():
            if not thread.unknown:
                for why in thread_wrong(reader, thread, ahead, entry.place, follows):
                    yield f"after entry {entry.place}: {thread.name} {why}"
        for why in objects_wrong(reader, backward, ahead):
            yield f"after entry {entry.place}: {why}"
        for why in queues_wrong(reader, follows):
            yield f"after entry {entry.place}: {why}"


def thread_wrong(reader: Reader, thread: Thread, ahead: Ahead, place: int, follows: Entry | None) -> Iterator[str]:
    """What doesn't fit of one thread."""
    number, now = thread.number, reader.now[thread.number].kind
    comes, doom = ahead.next.get(number), ahead.doom.get(number)
    if follows and follows.thread == number and now in STILL:
        yield f"acts next, and is {now.value}"
    if comes and (doom is None or doom >= comes.place):
        yield from step_wrong(thread, now, comes.step)
    if follows and follows.actor == "idle" and now in READY:
        yield "is ready, and nobody acts"
    yield from stage_wrong(thread, ahead, doom)
    yield from counts_wrong(thread, ahead)
    if number in ahead.fast and ahead.fast[number] != thread.fast:
        yield f"holds {thread.fast}, and gives or takes {ahead.fast[number]} next"
    for status in range(16):
        told = ahead.pending.get((number, status))
        if told is not None and told != (status in thread.pending) and thread.stage is Stage.LIVE:
            yield f"has s{status} {'not ' * told}pending, and what follows tells else"


def step_wrong(thread: Thread, now: Kind, step: str) -> Iterator[str]:
    """What doesn't fit the next step of a thread that isn't doomed before."""
    if now is Kind.WAITS and thread.wait and step != f"{thread.wait.word}.done":
        yield f"waits, and goes on with {step}"
    if now is Kind.WANTS and step != "flock.done":
        yield f"wants a fast mutex, and goes on with {step}"
    if step == "flock.done" and thread.wants is None:
        yield "takes a fast mutex next, and wants none"


def stage_wrong(thread: Thread, ahead: Ahead, doom: int | None) -> Iterator[str]:
    """How far a thread is in its death, against its doom and its clean ahead."""
    if (thread.stage is Stage.LIVE) != (doom is not None or thread.exit is None):
        yield f"is {thread.stage.value}, and its doom lies elsewhere"
    if thread.stage in (Stage.CLEANED, Stage.BURIED) and thread.number in ahead.clean:
        yield "is cleaned, and is cleaned again"


def counts_wrong(thread: Thread, ahead: Ahead) -> Iterator[str]:
    """The suspensions and critical sections of a thread, against those that later steps need."""
    for what, has in (("suspended", thread.suspended), ("critical", thread.critical)):
        key = (what, thread.number)
        if has < ahead.least.get(key, 0) or ahead.exact.get(key, has) != has:
            yield f"has the count {has} of {what}, and what follows needs {ahead.least.get(key, 0)}"


def objects_wrong(reader: Reader, backward: Backward, ahead: Ahead) -> Iterator[str]:
    """What doesn't fit of objects, mutexes and messages."""
    state = reader.state
    for number in set(ahead.counts) | set(state.things):
        has = len(state.things[number].refs) if number in state.things else 0
        if has != ahead.counts.get(number, 0):
            yield f"object {number} has the count {has}, and by the end it has {ahead.counts.get(number, 0)}"
    for number, thing in state.things.items():
        if number in ahead.owner and (thing.owner.number if thing.owner else None) != ahead.owner[number]:
            yield f"mutex {number} has another owner by what follows"
        left = backward.left.get(number)
        stays = left and number not in ahead.swept and thing.kind != "?"
        if left and stays and (thing.kind, thing.name) != (left.kind, left.name):
            yield f"object {number} is {left.kind} {left.name} at the end"
    for number, message in state.messages.items():
        if number in ahead.taken and message.taken:
            yield f"message {number} is taken, and is taken again"


def queues_wrong(reader: Reader, follows: Entry | None) -> Iterator[str]:
    """What doesn't fit of the queues of calls and of priorities, by the entry that follows."""
    if not follows:
        return
    state = reader.state
    name, _, part = follows.step.rpartition(".")
    if follows.actor == "idfc" and state.immediate[:1] != [follows.step]:
        yield f"{follows.step} acts next, and the immediate queue has {state.immediate[:1]}"
    if follows.thread is not None and state.threads[follows.thread].lane.serves and part == "run":
        if name not in state.threads[follows.thread].calls:
            yield f"{name} runs next, and isn't queued"
    if follows.step == "bury" and not any("burial" in it for it in state.supervisor().calls):
        yield "a burial comes next, and none is queued"
    if follows.thread is not None and not (reader.shared and follows.is_return()):
        yield from priorities_wrong(reader, state.threads[follows.thread])


def priorities_wrong(reader: Reader, actor: Thread) -> Iterator[str]:
    """Who acts next has the greatest priority of those that are ready, or holds what such a thread wants."""
    for thread in reader.state.threads.values():
        if reader.now[thread.number].kind in READY and thread.priority > actor.priority and not actor.unknown:
            if not any(it.wants is not None and it.wants == actor.fast and it.priority >= thread.priority
                       and reader.now[it.number].kind is Kind.WANTS for it in reader.state.threads.values()):
                yield f"{actor.name} acts next, and {thread.name} is ready, of greater priority"
