"""What the steps of threads tell beside their effects."""
from __future__ import annotations

from typing import TYPE_CHECKING

from record import Arrow, Row
from script import Script
from state import Stage, Thread

if TYPE_CHECKING:
    from reading import Reader

# The steps of each instruction.
PARTS = {
    "create": "do", "close": "do", "open": "seek return do", "dup": "look do", "duplocal": "look do",
    "lock": "look do done", "unlock": "look do", "wait": "look do done", "signal": "look do",
    "suspend": "look do", "resume": "look do", "priority": "look do", "kill": "look do", "terminate": "look do",
    "panic": "look do", "exittype": "look do", "logon": "look do", "exit": "do", "flock": "do done", "funlock": "do",
    "fswait": "do done", "fssignal": "do", "enter": "do", "leave": "do", "queue": "do", "request": "do",
    "cancel": "do", "waitany": "do done", "waitfor": "do done", "status": "do", "server": "do",
    "connect": "seek return make send done", "send": "look do", "call": "look do done", "receive": "look do done",
    "complete": "do", "function": "do", "read": "piece", "write": "piece", "fill": "do", "peek": "do",
}
KNOWN = {f"{word}.{part}" for word, parts in PARTS.items() for part in parts.split()}
OWED = ("drop", "sweep")
DEATHS = ("flush", "end", "free", "shut", "tell", "finish", "detach", "stop", "clean", "bury")
EXITS = {"kill": "kill", "terminate": "terminate", "panic": "panic"}


def is_of_instruction(step: str) -> bool:
    """Whether a thread's step is one of its instruction, and not of what it owes, gives up, or runs for its queue."""
    return step not in OWED and step not in DEATHS and not step.endswith(".run")


def call_of(step: str) -> str:
    """The name of the call that a step runs, and nothing where it is another step."""
    return step[:-len(".run")] if step.endswith(".run") else ""


def is_known(step: str, script: Script) -> bool:
    """Whether the reader knows what a step does."""
    return step in KNOWN or step in OWED or step in DEATHS or call_of(step) in script.dfcs


def read_step(reader: Reader, row: Row, actor: Thread) -> None:
    """Notes what a thread's step tells."""
    word, _, part = row.entry.step.partition(".")
    note = NOTES.get(row.entry.step)
    if note:
        note(reader, row, actor)
    elif part == "done" and row.entry.answer is not None:
        wait_done(reader, row, actor)
    elif word in EXITS and part == "do":
        note_exit(reader, row, actor)


def wait_done(reader: Reader, row: Row, actor: Thread) -> None:
    """A wait is over, whoever ended it: of several waiters of a semaphore this one was served."""
    if actor.wait and actor.wait.thing in reader.state.waiters:
        reader.waiters(actor.wait.thing).leave(actor, True)
        touch_waiters(reader, actor.wait.thing)
    reader.end_wait(actor)


def touch_waiters(reader: Reader, thing) -> None:
    """Of the waiters of a semaphore any may have been served."""
    waiters = reader.waiters(thing)
    for thread in waiters.old + waiters.fresh:
        reader.touch(thread)


def called_on(reader: Reader, row: Row, actor: Thread) -> Thread | None:
    """The thread that a call is about, where the call was answered with 0."""
    if row.entry.answer != 0 or not actor.about or actor.about.kind != "thread":
        return None
    thread = reader.state.threads.get(actor.about.number)
    if thread:
        reader.touch(thread)
        row.about.add(f"t{thread.number}")
    return thread


def suspend(reader: Reader, row: Row, actor: Thread) -> None:
    """A suspension more."""
    thread = called_on(reader, row, actor)
    if thread:
        thread.suspended += 1
        row.arrows.append(Arrow("thread", thread.number, "suspend"))


def resume(reader: Reader, row: Row, actor: Thread) -> None:
    """A suspension less."""
    thread = called_on(reader, row, actor)
    if thread:
        thread.suspended -= 1
        row.arrows.append(Arrow("thread", thread.number, "resume"))


def set_priority(reader: Reader, row: Row, actor: Thread) -> None:
    """A priority is set."""
    thread = called_on(reader, row, actor)
    if thread and row.instruction:
        thread.priority = int(row.instruction.words[2])
        row.arrows.append(Arrow("thread", thread.number, f"priority {thread.priority}"))


def exit_text(row: Row) -> str:
    """The exit that an instruction gives, as the line of an object that is left has it."""
    if not row.instruction:
        return "kill 0"
    words = row.instruction.words
    return " ".join(("kill",) + words[1:]) if words[0] == "exit" else " ".join(words[:1] + words[2:])


def note_exit(reader: Reader, row: Row, actor: Thread) -> None:
    """An exit is noted where the call was answered with 0 and nobody was doomed."""
    thread = called_on(reader, row, actor)
    if thread and not row.entry.has("doom"):
        thread.noted = exit_text(row)
        row.arrows.append(Arrow("death", thread.number, "exit noted"))


def flock(reader: Reader, row: Row, actor: Thread) -> None:
    """A fast mutex that is held is wanted from now on."""
    if row.entry.answer is None and row.instruction and not row.entry.has("doom"):
        actor.wants = int(row.instruction.words[1][1:])


def enter(reader: Reader, row: Row, actor: Thread) -> None:
    """A critical section more."""
    actor.critical += 1


def leave(reader: Reader, row: Row, actor: Thread) -> None:
    """A critical section less."""
    if row.entry.answer == 0 and actor.critical:
        actor.critical -= 1


def flush(reader: Reader, row: Row, actor: Thread) -> None:
    """All critical sections end."""
    actor.critical = 0


def fssignal(reader: Reader, row: Row, actor: Thread) -> None:
    """A kernel thread signals a fast semaphore."""
    if row.entry.answer == 0 and row.instruction:
        signal_fast(reader, row, row.instruction.words[1])


def signal_fast(reader: Reader, row: Row, name: str) -> None:
    """The fast semaphore of a thread gets a signal, where the thread is live."""
    thread = reader.state.names.get(name)
    if not thread or thread.stage is not Stage.LIVE:
        return
    row.about.add(f"t{thread.number}")
    if thread.number != row.entry.thread:
        row.arrows.append(Arrow("signal", thread.number, "signal"))
    if thread.wait and thread.wait.word == "fswait":
        reader.end_wait(thread)


def signal(reader: Reader, row: Row, actor: Thread) -> None:
    """A semaphore gets a signal: the wait of the one waiter ends, or of several one that isn't told."""
    if row.entry.answer != 0 or not actor.about:
        return
    waiters = reader.waiters(actor.about)
    touch_waiters(reader, actor.about)
    alone = waiters.old + waiters.fresh
    for thread in waiters.signal():
        reader.end_wait(thread)
    if len(alone) == 1:
        row.arrows.append(Arrow("signal", alone[0].number, actor.about.name))


def pending(reader: Reader, row: Row, actor: Thread) -> None:
    """A status is pending from an answer 0 on, where no signal of it stands beside."""
    if row.entry.answer != 0 or not row.instruction or row.entry.has("signal"):
        return
    at = 3 if row.instruction.words[0] == "send" else 2
    actor.pending.add(int(row.instruction.words[at][1:]))


def receive(reader: Reader, row: Row, actor: Thread) -> None:
    """A message is taken."""
    if row.entry.step == "receive.done":
        wait_done(reader, row, actor)
    message = reader.state.messages.get(row.entry.answer or 0)
    if message and message.taken is None:
        message.taken = row.entry.place
        row.about.add(f"m{message.number}")


def exits(reader: Reader, row: Row, actor: Thread) -> None:
    """An own end: the doom was read already, so the exit is known now."""
    if row.entry.has("doom"):
        actor.exit = exit_text(row)


def clean(reader: Reader, row: Row, actor: Thread) -> None:
    """A doomed thread has given all up, and its burial joins the supervisor's queue."""
    actor.stage = Stage.CLEANED
    supervisor = reader.state.supervisor()
    supervisor.calls.append(f"burial of {actor.name}")
    reader.touch(supervisor)
    row.arrows.append(Arrow("call", supervisor.number, "burial"))


NOTES = {
    "suspend.do": suspend, "resume.do": resume, "priority.do": set_priority, "flock.do": flock, "enter.do": enter,
    "leave.do": leave, "flush": flush, "fssignal.do": fssignal, "signal.do": signal, "request.do": pending,
    "send.do": pending, "logon.do": pending, "receive.do": receive, "receive.done": receive, "exit.do": exits,
    "end": exits, "clean": clean,
}
