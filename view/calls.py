"""Calls: the immediate queue, the queues of deferred function calls, and what bodies do."""
from __future__ import annotations

from typing import TYPE_CHECKING

from record import Arrow, Row
from script import Body, Misfit
from state import Thread
from steps import signal_fast

if TYPE_CHECKING:
    from reading import Reader


def run_calls(reader: Reader, row: Row, actor: Thread | None) -> None:
    """Notes what an interrupt, an item of the immediate queue or the thread of a queue does with calls."""
    entry = row.entry
    name, _, part = entry.step.rpartition(".")
    if entry.actor.startswith("irq"):
        interrupt(reader, row, int(entry.actor[3:]))
    elif entry.actor == "idfc":
        immediate(reader, row, name, part)
    elif actor and actor.lane.serves:
        serve(reader, row, actor, name, part)
    elif entry.step == "queue.do" and entry.answer == 1 and row.instruction:
        join(reader, row, row.instruction.words[1])


def interrupt(reader: Reader, row: Row, number: int) -> None:
    """The body of an interrupt queues its calls in the immediate queue, if they don't stand there already."""
    body = reader.script.irqs.get(number)
    if not body:
        raise Misfit("history", row.entry.place, f"the script has no body of irq {number}")
    row.line = body.line
    for word, name in body.operations:
        if word == "idfc" and f"{name}.run" not in reader.state.immediate:
            reader.state.immediate.append(f"{name}.run")
        elif word == "dfc" and not is_queued(reader, name):
            reader.state.immediate.append(f"{name}.move")


def immediate(reader: Reader, row: Row, name: str, part: str) -> None:
    """The oldest item of the immediate queue acts: a deferred function call moves to its own queue."""
    bodies = reader.script.dfcs if part == "move" else reader.script.idfcs
    if name not in bodies:
        raise Misfit("history", row.entry.place, f"the script has no call {name}")
    row.line = bodies[name].line
    if row.entry.step in reader.state.immediate:
        reader.state.immediate.remove(row.entry.step)
    if part == "move":
        join_queue(reader, row, name)
    else:
        run_body(reader, row, bodies[name])


def serve(reader: Reader, row: Row, actor: Thread, name: str, part: str) -> None:
    """The thread of a queue runs a call or a burial, or pays what it owes."""
    step = row.entry.step
    if step == "bury":
        burials = [it for it in actor.calls if it.startswith("burial")]
        if burials:
            actor.calls.remove(burials[0])
        actor.owed += 1
    elif step in ("drop", "sweep"):
        actor.owed = max(actor.owed - 1, 0)
    elif part == "run":
        if name not in reader.script.dfcs:
            raise Misfit("history", row.entry.place, f"the script has no deferred function call {name}")
        row.line = reader.script.dfcs[name].line
        if name in actor.calls:
            actor.calls.remove(name)
        run_body(reader, row, reader.script.dfcs[name])


def run_body(reader: Reader, row: Row, body: Body) -> None:
    """What the operations of a body tell: a device's completion is told by its effect."""
    for operation in body.operations:
        if operation[0] == "fssignal":
            signal_fast(reader, row, operation[1])
        elif operation[0] == "queue":
            join(reader, row, operation[1])


def is_queued(reader: Reader, name: str) -> bool:
    """Whether a deferred function call stands in the immediate queue or in its own."""
    return f"{name}.move" in reader.state.immediate or name in queue_thread(reader, name).calls


def queue_thread(reader: Reader, name: str) -> Thread:
    """The thread of the queue of a deferred function call."""
    return reader.state.names[reader.script.dfcs[name].queue]


def join(reader: Reader, row: Row, name: str) -> None:
    """A call joins its own queue, where it doesn't stand in either queue already."""
    if not is_queued(reader, name):
        join_queue(reader, row, name)


def join_queue(reader: Reader, row: Row, name: str) -> None:
    """A call stands in its own queue from now on."""
    thread = queue_thread(reader, name)
    thread.calls.append(name)
    reader.touch(thread)
    row.about.add(f"t{thread.number}")
    if thread.number != row.entry.thread:
        row.arrows.append(Arrow("call", thread.number, name))
