"""The reader: what each entry of a history tells of threads, objects and messages.

It reads and never decides: no choice of who acts, no tables of handles, no answers. What a history doesn't tell is
unknown."""
from __future__ import annotations

import checks
from calls import run_calls
from effects import read_effects
from history import History, fit
from record import Reading, Row, Span, Stripes, stripes_of
from script import Misfit, Script
from standing import Ready, standing
from state import Stage, Standing, State, Thing, Thread, Wait, Waiters, boot
from steps import DEATHS, OWED, is_known, is_of_instruction, read_step

# The steps that begin a wait where they have no answer.
BLOCKING = {"lock.do", "wait.do", "fswait.do", "waitany.do", "waitfor.do", "connect.send", "call.do", "receive.do"}


class Reader:
    """Reads entry after entry. `state` is what is known after those that were read."""

    def __init__(self, script: Script, history: History) -> None:
        self.script, self.shared = script, history.shared
        self.state: State = boot(script)
        self.ready = Ready()
        self.now: dict[int, Standing] = {}
        self.touched: set[int] = set()
        self.reading = Reading(script, history, self.state.threads, self.state.all_things, [])
        self.stripes: dict[int, Stripes] = {}
        for thread in self.state.threads.values():
            first = standing(self.state, thread, self.shared)
            self.now[thread.number] = first
            self.ready.settle(thread, first)
            self.reading.spans[thread.number] = [Span(1, first)]
            self.reading.stripes[thread.number] = []
            self.stripes[thread.number] = Stripes(self.reading.stripes[thread.number])

    def read(self, row: Row) -> None:
        """Reads one entry. Raises Misfit where it names what isn't there."""
        try:
            self.read_entry(row)
        except KeyError as why:
            raise Misfit("history", row.entry.place, f"it names {why}, which the script hasn't") from None

    def read_entry(self, row: Row) -> None:
        """Checks an entry against what is known, and then notes what it tells."""
        entry = row.entry
        actor = self.actor_of(row)
        self.find_instruction(row, actor)
        checks.check_actor(self, row, actor)
        if actor:
            self.touch(actor)
            row.about.add(f"t{actor.number}")
            row.acts_for = acts_for(self.state, actor)
            row.found = actor.out if row.entry.is_return() else None
        read_effects(self, row, actor)
        run_calls(self, row, actor)
        if actor:
            row.thing = actor.about
            self.read_thread_step(row, actor)
        checks.check_counts(self, row)
        row.box = box_of(row)
        row.refused = is_refusal(row)
        self.settle(entry.place)
        self.reading.rows.append(row)

    def actor_of(self, row: Row) -> Thread | None:
        """The thread that acts."""
        number = row.entry.thread
        if number is None:
            return None
        if number not in self.state.threads:
            raise Misfit("history", row.entry.place, f"the script has no thread {number}")
        return self.state.threads[number]

    def find_instruction(self, row: Row, actor: Thread | None) -> None:
        """The instruction of an entry is the one whose place in its thread's list is the number of the thread's
        earlier answers."""
        if not actor or not is_of_instruction(row.entry.step):
            return
        if actor.answers < len(actor.lane.instructions):
            row.instruction = actor.lane.instructions[actor.answers]
            row.line = row.instruction.line

    def read_thread_step(self, row: Row, actor: Thread) -> None:
        """What a thread's step tells beside its effects."""
        entry = row.entry
        if entry.step in BLOCKING and entry.answer is None and not self.is_doomed_by(row, actor):
            self.begin_wait(row, actor)
        read_step(self, row, actor)
        if not is_known(entry.step, self.script):
            row.raw = True
            actor.unknown = True
        if entry.answer is not None:
            actor.answers += 1
        if entry.is_return():
            actor.out = None

    @staticmethod
    def is_doomed_by(row: Row, actor: Thread) -> bool:
        """Whether an entry dooms its own actor."""
        return any(it.kind == "doom" and it.number == actor.number for it in row.entry.effects)

    def begin_wait(self, row: Row, actor: Thread) -> None:
        """A thread waits from now on, for the object of its call, for its status, or for any."""
        word = row.entry.step.partition(".")[0]
        status = None
        if word == "waitfor" and row.instruction:
            status = int(row.instruction.words[1][1:])
        about = actor.about if word in ("lock", "wait", "receive") else None
        actor.wait = Wait(word, about, status)
        if word == "wait" and about:
            self.waiters(about).fresh.append(actor)

    def waiters(self, thing: Thing) -> Waiters:
        """The waiters of a semaphore."""
        return self.state.waiters.setdefault(thing, Waiters())

    def end_wait(self, thread: Thread) -> None:
        """A thread waits no longer."""
        thread.wait = None
        self.touch(thread)

    def touch(self, thread: Thread) -> None:
        """Notes that a thread's state may have changed in this entry."""
        self.touched.add(thread.number)

    def settle(self, place: int) -> None:
        """After an entry: writes down what changed of the threads that it touched."""
        for number in self.touched:
            thread = self.state.threads[number]
            now = standing(self.state, thread, self.shared)
            self.ready.settle(thread, now)
            if now != self.now[number]:
                self.now[number] = now
                self.reading.spans[number].append(Span(place + 1, now))
            self.stripes[number].settle(place, stripes_of(thread))
        self.touched.clear()


def acts_for(state: State, actor: Thread) -> str:
    """In whose place the holder of a fast mutex acts: that of the greatest priority among the threads that want it and
    aren't suspended, and of equals one of them."""
    if actor.fast is None:
        return ""
    wanting = [it for it in state.threads.values()
               if it.wants == actor.fast and not it.stopped() and it.stage is Stage.LIVE]
    greatest = max((it.priority for it in wanting), default=-1)
    if greatest < actor.priority:
        return ""
    names = [it.name for it in wanting if it.priority == greatest]
    return " or ".join(names + ["itself"] * (greatest == actor.priority))


def box_of(row: Row) -> str:
    """The sort of an entry's box."""
    step, actor = row.entry.step, row.entry.actor
    if row.raw:
        return "plain"
    if actor.startswith("irq") or actor == "idfc" or step.endswith(".run"):
        return "call"
    if step in OWED:
        return "owed"
    if step in DEATHS or row.entry.step == "exit.do" and row.entry.has("doom"):
        return "death"
    return "plain"


def is_refusal(row: Row) -> bool:
    """Whether the answer is an error, and no value of a status or code of a message."""
    answer = row.entry.answer
    if answer is None or answer >= 0:
        return False
    if row.entry.step in ("status.do", "call.done", "waitfor.done"):
        return False
    return row.entry.step != "waitfor.do" or answer == -14


def read(script: Script, history: History) -> Reading:
    """Reads a whole history of a script."""
    fit(script, history)
    checks.check_boot(script, history)
    reader = Reader(script, history)
    for entry in history.entries:
        reader.read(Row(entry))
    checks.check_left(reader)
    return reader.reading
