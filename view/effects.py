"""What the effects of an entry tell."""
from __future__ import annotations

from typing import TYPE_CHECKING

from history import Effect
from record import Arrow, Row
from state import Message, Stage, Thing, Thread, Wait
from steps import exit_text, touch_waiters

if TYPE_CHECKING:
    from reading import Reader


def read_effects(reader: Reader, row: Row, actor: Thread | None) -> None:
    """Reads the effects of an entry in their order."""
    for effect in row.entry.effects:
        EFFECTS[effect.kind](reader, row, actor, effect)


def thing_of(reader: Reader, row: Row, number: int) -> Thing:
    """The object of a number, or one that isn't known, with a disagreement."""
    thing = reader.state.things.get(number)
    if thing is None:
        row.wrong.append(f"there is no object {number}")
        thing = reader.state.make(number, "?", "?", row.entry.place)
        thing.changes.append((row.entry.place, 0))
    row.about.add(f"o{number}")
    return thing


def made_by(row: Row) -> tuple[str, str] | None:
    """The kind and the name of the object that an entry makes."""
    words = row.instruction.words if row.instruction else ()
    if row.entry.step == "create.do" and words[:1] == ("create",):
        return words[1], words[2]
    if row.entry.step == "server.do" and words[:1] == ("server",):
        return "server", words[1]
    return ("session", "-") if row.entry.step == "connect.make" else None


def plus(reader: Reader, row: Row, actor: Thread | None, effect: Effect) -> None:
    """A holder gets a reference. The first one of an object makes it."""
    made = made_by(row)
    if effect.number not in reader.state.things and made:
        reader.state.make(effect.number, *made, row.entry.place)
    thing = thing_of(reader, row, effect.number)
    if effect.holder in thing.refs:
        row.wrong.append(f"{effect.holder} holds object {thing.number} already")
    if thing.died is not None:
        row.wrong.append(f"object {thing.number} is opened, and is dead")
    if row.found and effect.holder.startswith("tmp") and row.found is not thing:
        row.wrong.append(f"object {thing.number} is opened, and another one was found")
    thing.refs.add(effect.holder)
    thing.changes.append((row.entry.place, len(thing.refs)))
    plus_of_holder(reader, row, effect, thing)


def plus_of_holder(reader: Reader, row: Row, effect: Effect, thing: Thing) -> None:
    """What a new reference tells beside the count: what a call is about, who owns a mutex or a server, which server a
    session has, and which session a message goes over."""
    sort, number = effect.holder[:3], effect.holder[3:]
    if sort == "tmp":
        reader.state.threads[int(number)].about = thing
    elif sort == "own":
        own(reader, reader.state.threads[int(number)], thing)
    elif sort == "lnk" and int(number) in reader.state.things:
        reader.state.things[int(number)].server = thing
    elif sort == "msg":
        message_reference(reader, row, reader.state.messages.get(int(number)), thing)


def own(reader: Reader, thread: Thread, thing: Thing) -> None:
    """A thread owns a mutex or a server."""
    thing.owner = thread
    if thing.kind == "mutex":
        thread.mutexes.append(thing)
    reader.touch(thread)


def message_reference(reader: Reader, row: Row, message: Message | None, thing: Thing) -> None:
    """The references of a message to its session and to its client: the wait of the server's owner ends."""
    if not message or thing.kind == "thread":
        return
    message.session = thing
    owner = thing.server.owner if thing.server else None
    if not owner:
        return
    row.about.add(f"t{owner.number}")
    row.arrows.append(Arrow("message", owner.number, str(message.number)))
    if owner.wait and owner.wait.word == "receive" and owner.wait.thing is thing.server:
        reader.end_wait(owner)


def minus(reader: Reader, row: Row, actor: Thread | None, effect: Effect) -> None:
    """A holder gives its reference up."""
    thing = thing_of(reader, row, effect.number)
    if effect.holder not in thing.refs:
        row.wrong.append(f"{effect.holder} doesn't hold object {thing.number}")
    thing.refs.discard(effect.holder)
    thing.changes.append((row.entry.place, len(thing.refs)))


def dead(reader: Reader, row: Row, actor: Thread | None, effect: Effect) -> None:
    """An object dies; the thread of a queue owes its link and its sweep."""
    thing = thing_of(reader, row, effect.number)
    if thing.refs:
        row.wrong.append(f"object {thing.number} dies, and its count is {len(thing.refs)}")
    thing.died = row.entry.place
    if actor:
        actor.owed += 2 if thing.kind == "thread" or thing.linked() else 1


def swept(reader: Reader, row: Row, actor: Thread | None, effect: Effect) -> None:
    """The row of an object goes, so its number names nothing now."""
    thing = thing_of(reader, row, effect.number)
    if thing.died is None:
        row.wrong.append(f"object {thing.number} is swept, and isn't dead")
    thing.swept = row.entry.place
    del reader.state.things[thing.number]


def seek(reader: Reader, row: Row, actor: Thread | None, effect: Effect) -> None:
    """A thread has found an object, and is out on it until its return."""
    thing = thing_of(reader, row, effect.number)
    if actor:
        actor.out = thing


def missed(reader: Reader, row: Row, actor: Thread | None, effect: Effect) -> None:
    """A return doesn't open what its seek found."""
    row.about.add(f"o{effect.number}")
    if actor and actor.out and actor.out.died is None:
        row.wrong.append(f"object {effect.number} is missed, and isn't dead")


def take(reader: Reader, row: Row, actor: Thread | None, effect: Effect) -> None:
    """A thread takes a mutex or a fast mutex: its want or its wait for it ends."""
    thread = reader.state.threads[effect.number]
    reader.touch(thread)
    row.about.add(f"t{thread.number}")
    if effect.holder == "f":
        reader.state.fast[effect.other] = thread
        thread.fast, thread.wants = effect.other, None
        touch_wanting(reader, effect.other)
        return
    thing = thing_of(reader, row, effect.other)
    if thread is not actor:
        row.arrows.append(Arrow("mutex", thread.number, thing.name))
        if thread.wait and thread.wait.word == "lock" and thread.wait.thing is thing:
            reader.end_wait(thread)


def give(reader: Reader, row: Row, actor: Thread | None, effect: Effect) -> None:
    """A thread gives a mutex or a fast mutex up."""
    thread = reader.state.threads[effect.number]
    reader.touch(thread)
    if effect.holder == "f":
        if thread.fast != effect.other:
            row.wrong.append(f"thread {thread.number} doesn't hold f{effect.other}")
        reader.state.fast.pop(effect.other, None)
        thread.fast = None
        touch_wanting(reader, effect.other)
        return
    thing = thing_of(reader, row, effect.other)
    if thing in thread.mutexes:
        thread.mutexes.remove(thing)
    else:
        row.wrong.append(f"thread {thread.number} doesn't own mutex {thing.number}")
    thing.owner = None


def touch_wanting(reader: Reader, number: int) -> None:
    """Of those that want a fast mutex it changes who acts for them."""
    for thread in reader.state.threads.values():
        if thread.wants == number:
            reader.touch(thread)


def signal(reader: Reader, row: Row, actor: Thread | None, effect: Effect) -> None:
    """A completion: the wait for the end of a message ends by `w`; any request, or one status that isn't pending after
    it, by a number."""
    thread = reader.state.threads[effect.number]
    row.about.add(f"t{thread.number}")
    label = "w" if effect.holder == "w" else f"s{effect.holder}"
    if thread is not actor:
        row.arrows.append(Arrow("signal", thread.number, f"{label} = {effect.other}"))
    if effect.holder != "w":
        thread.pending.discard(int(effect.holder))
    if thread.wait and ends_wait(thread.wait, thread.pending, effect.holder):
        reader.end_wait(thread)


def ends_wait(wait: Wait, pending: set[int], status: str) -> bool:
    """Whether a signal of a status ends a wait, where those statuses are still pending."""
    if status == "w":
        return wait.word in ("connect", "call")
    if wait.word == "waitfor":
        return wait.status not in pending
    return wait.word == "waitany"


def accept(reader: Reader, row: Row, actor: Thread | None, effect: Effect) -> None:
    """A message is accepted; its instruction tells what it is and how its end is told."""
    words = row.instruction.words if row.instruction else ()
    what, status = "close", ""
    if row.entry.step == "connect.send":
        what, status = "connect", "w"
    elif row.entry.step in ("call.do", "send.do") and words:
        what, status = words[2], "w" if words[0] == "call" else words[3]
    if not actor:
        return
    message = Message(effect.number, actor, what, status, row.entry.place)
    reader.state.messages[effect.number] = message
    reader.reading.messages.append(message)
    row.about.add(f"m{effect.number}")


def finish(reader: Reader, row: Row, actor: Thread | None, effect: Effect) -> None:
    """A message is finished."""
    row.about.add(f"m{effect.number}")
    message = reader.state.messages.pop(effect.number, None)
    if not message:
        row.wrong.append(f"message {effect.number} isn't outstanding")
        return
    message.finished, message.code = row.entry.place, effect.other


def ended(reader: Reader, row: Row, actor: Thread | None, effect: Effect) -> None:
    """A server has ended."""
    thing_of(reader, row, effect.number)


def doom(reader: Reader, row: Row, actor: Thread | None, effect: Effect) -> None:
    """A thread dies from here on: waits, wants, suspensions and requests of it end."""
    thread = reader.state.threads[effect.number]
    reader.touch(thread)
    row.about.add(f"t{thread.number}")
    if thread.stage is not Stage.LIVE:
        row.wrong.append(f"thread {thread.number} is doomed already")
    if thread.wait and thread.wait.thing in reader.state.waiters:
        reader.waiters(thread.wait.thing).leave(thread, False)
        touch_waiters(reader, thread.wait.thing)
    thread.exit = thread.noted or exit_text(row)
    thread.stage, thread.wait, thread.wants, thread.noted = Stage.DOOMED, None, None, None
    thread.suspended, thread.critical, thread.unknown = 0, 0, False
    thread.pending.clear()
    if thread is not actor:
        row.arrows.append(Arrow("death", thread.number, "doom"))


def bury(reader: Reader, row: Row, actor: Thread | None, effect: Effect) -> None:
    """The death of a thread is finished."""
    thread = reader.state.threads[effect.number]
    reader.touch(thread)
    row.about.add(f"t{thread.number}")
    if thread.stage is not Stage.CLEANED:
        row.wrong.append(f"thread {thread.number} is buried, and isn't cleaned")
    thread.stage = Stage.BURIED
    row.arrows.append(Arrow("call", thread.number, "buried"))


def raw(reader: Reader, row: Row, actor: Thread | None, effect: Effect) -> None:
    """An effect that isn't known: each thread whose number stands in it is unknown from here on."""
    row.raw = True
    numbers = {int(it) for it in effect.text.replace(".", ":").split(":") if it.isdigit()}
    for thread in [it for it in reader.state.threads.values() if it.number in numbers or it is actor]:
        thread.unknown = True
        reader.touch(thread)


EFFECTS = {
    "+": plus, "-": minus, "dead": dead, "swept": swept, "seek": seek, "missed": missed, "take": take, "give": give,
    "signal": signal, "accept": accept, "finish": finish, "ended": ended, "doom": doom, "bury": bury, "raw": raw,
}
