"""A sentence for each entry, in the words of docs/kernel.md and docs/servers.md."""
from __future__ import annotations

from bisect import bisect_left

import codes
from history import Effect, Entry
from record import Reading, Row
from state import Message, Thing
from steps import call_of

# What a step does. `{x}` is what the call is about; behind `|` stands what it does where it has no answer.
STEPS = {
    "create.do": "makes an object, and gets its handle", "close.do": "closes a handle",
    "open.seek": "finds {found} by its name, and has no reference to it yet",
    "open.return": "opens what it found", "open.do": "gets a handle of {x}",
    "dup.look": "looks a handle up", "dup.do": "gets a second handle of {x}",
    "duplocal.look": "looks a handle up", "duplocal.do": "gets a handle of {x} in its own table",
    "lock.look": "looks a handle up, to lock what it names",
    "lock.do": "locks {x}|finds that another owns {x}, and waits", "lock.done": "owns {x} since its wait ended",
    "unlock.look": "looks a handle up, to unlock what it names", "unlock.do": "holds {x} once less",
    "wait.look": "looks a handle up, to wait for what it names",
    "wait.do": "takes one of the count of {x}|finds {x} at 0, and waits", "wait.done": "was served, and goes on",
    "signal.look": "looks a handle up, to signal what it names",
    "signal.do": "signals {x}: a wait ends, or the count is one more",
    "suspend.look": "looks a handle up, to suspend the thread", "suspend.do": "suspends {x}, once more",
    "resume.look": "looks a handle up, to resume the thread", "resume.do": "takes one suspension of {x} back",
    "priority.look": "looks a handle up, to set a priority", "priority.do": "sets the priority of {x}",
    "kill.look": "looks a handle up, to kill the thread", "kill.do": "kills {x}",
    "terminate.look": "looks a handle up, to terminate the thread", "terminate.do": "terminates {x}",
    "panic.look": "looks a handle up, to make the thread panic", "panic.do": "makes {x} panic",
    "exittype.look": "looks a handle up, to ask how the thread ended", "exittype.do": "is told how {x} ended",
    "logon.look": "looks a handle up, to hear of the thread's death",
    "logon.do": "asks to be told of the death of {x}",
    "exit.do": "exits", "flock.do": "takes the fast mutex|finds the fast mutex held, wants it, and stays ready",
    "flock.done": "takes the fast mutex, which is free now", "funlock.do": "gives the fast mutex up",
    "fswait.do": "takes a signal of its fast semaphore|has no signal at its fast semaphore, and waits",
    "fswait.done": "got its signal, and goes on", "fssignal.do": "signals the fast semaphore of {named}",
    "enter.do": "begins a critical section", "leave.do": "ends a critical section",
    "queue.do": "queues a call, where it isn't queued yet",
    "request.do": "asks a device, with a status that is pending from now on", "cancel.do": "takes its request back",
    "waitany.do": "takes a signal of its request semaphore|waits for any request",
    "waitany.done": "got a signal, and goes on", "waitfor.do": "reads its status|waits for its status",
    "waitfor.done": "reads its status, which is complete", "status.do": "reads a status",
    "server.do": "makes a server, and owns it", "connect.seek": "finds {found} by its name",
    "connect.return": "opens the server", "connect.make": "makes a session with {x}",
    "connect.send": "sends the message that connects, and waits for its end", "connect.done": "is connected",
    "send.look": "looks a handle of a session up", "send.do": "sends a message, and goes on",
    "call.look": "looks a handle of a session up", "call.do": "sends a message, and waits for its end",
    "call.done": "gets the code of its message", "receive.look": "looks a handle of a server up",
    "receive.do": "receives a message|finds no message, and waits for one", "receive.done": "receives a message",
    "complete.do": "completes a message", "function.do": "asks what a message wants",
    "read.piece": "copies the last piece of its client's bytes|copies a piece of its client's bytes",
    "write.piece": "copies the last piece of bytes to its client|copies a piece of bytes to its client",
    "fill.do": "fills a part of its process's memory", "peek.do": "reads a byte of its process's memory",
    "drop": "gives up a reference that it owes", "sweep": "removes what is left of a dead object",
    "flush": "is at the end of its list, and leaves its critical sections and gives its fast mutex up",
    "end": "is at the end of its list, and ends", "free": "dies, and gives a mutex up with all levels",
    "shut": "dies, and closes a handle", "tell": "dies, and tells who asked to hear of it",
    "finish": "takes its closing server apart: a message is finished",
    "detach": "takes its closing server apart: a session's link goes", "stop": "has taken its server apart",
    "clean": "has given all up, and is to be buried", "bury": "finishes the death of a thread",
}


class Wording:
    """The sentences of a reading."""

    def __init__(self, reading: Reading) -> None:
        self.reading = reading
        self.processes = {it.number: it.name for it in reading.things if it.kind == "process" and it.born == 0}
        self.makings: dict[int, list[Thing]] = {}
        for thing in reading.things:
            self.makings.setdefault(thing.number, []).append(thing)
        self.messages: dict[int, Message] = {it.number: it for it in reading.messages}

    def thing(self, number: int, place: int) -> Thing | None:
        """The making that a number has at an entry."""
        found = [it for it in self.makings.get(number, []) if it.born <= place]
        return found[-1] if found else None

    def label(self, number: int, place: int) -> str:
        """How a sentence names the object of a number at an entry."""
        thing = self.thing(number, place)
        return f"object {number}" if not thing else f"{thing.kind} {number}" if thing.name == "-" else thing.label()

    def source(self, row: Row) -> str:
        """The line of the script that an entry comes from, with its number."""
        return f"line {row.line}: {self.reading.script.line(row.line)}" if row.line else ""

    def sentence(self, row: Row) -> str:
        """What an entry does, in words."""
        place = row.entry.place
        counts: dict[int, int] = {}
        parts = [self.actor_words(row)] + [self.effect(it, row, counts) for it in row.entry.effects]
        if row.acts_for:
            parts.insert(1, f"it acts for {row.acts_for}, which wants f{self.fast_of(row)}")
        return "; ".join(it for it in parts if it) + "."

    def fast_of(self, row: Row) -> str:
        """The fast mutex that the actor held in this row."""
        stripes = self.reading.stripes.get(row.entry.thread or 0, [])
        held = [it.label[1:] for it in stripes if it.kind == "fast" and it.first <= row.entry.place]
        return held[-1] if held else "?"

    def actor_words(self, row: Row) -> str:
        """Who acts, and what it does."""
        entry = row.entry
        if entry.thread is None:
            return self.outside_words(entry)
        name = self.reading.threads[entry.thread].name
        if call_of(entry.step):
            return f"Thread {name} runs call {call_of(entry.step)} of its queue"
        return f"Thread {name} {self.step_words(row)}"

    @staticmethod
    def outside_words(entry: Entry) -> str:
        """An entry that no thread makes."""
        if entry.actor == "tick":
            return "A time slice ends: the first of the ready threads goes behind its equals, if it holds no fast mutex"
        if entry.actor == "idle":
            return "Nobody is ready, so nobody acts"
        if entry.actor.startswith("irq"):
            return f"Interrupt {entry.actor[3:]} comes, and queues its calls"
        name, _, part = entry.step.rpartition(".")
        if part == "move":
            return f"Call {name} moves from the immediate queue to its own"
        return f"The immediate call {name} runs, before any thread"

    def step_words(self, row: Row) -> str:
        """What a thread's step does, or why it is refused."""
        entry = row.entry
        if row.refused and entry.answer is not None:
            why = codes.reason(entry.step, entry.answer)
            word = entry.step.partition(".")[0]
            return f"is refused `{word}` with {codes.name_of(entry.answer)}" + (f": {why}" if why else "")
        words = STEPS.get(entry.step)
        if row.raw or words is None:
            return f"makes the step {entry.step}, which this reader doesn't know"
        there, _, none = words.partition("|")
        text = (none or there) if entry.answer is None else there
        named = row.instruction.words[-1] if row.instruction else "it"
        text = text.format(x=row.thing.label() if row.thing else "it", found=self.found_words(row), named=named)
        return text + self.answer_words(row)

    def found_words(self, row: Row) -> str:
        """What a seek has found."""
        found = [it.number for it in row.entry.effects if it.kind == "seek"]
        return self.label(found[0], row.entry.place) if found else "it"

    @staticmethod
    def answer_words(row: Row) -> str:
        """The answer, if the sentence doesn't tell it already."""
        answer = row.entry.answer
        if answer is None or row.entry.step in ("close.do", "lock.do", "unlock.do", "lock.done"):
            return ""
        if answer < 0:
            return f" (it is {codes.name_of(answer)})"
        return "" if answer == 0 else f" (the answer is {answer})"

    def count_after(self, effect: Effect, place: int, counts: dict[int, int]) -> str:
        """The number of references behind an effect of an entry."""
        thing = self.thing(effect.number, place)
        if not thing:
            return "?"
        at = bisect_left(thing.changes, (place, -1)) + counts.get(effect.number, 0)
        counts[effect.number] = counts.get(effect.number, 0) + 1
        return str(thing.changes[at][1]) if at < len(thing.changes) else "?"

    def effect(self, effect: Effect, row: Row, counts: dict[int, int]) -> str:
        """One effect in words."""
        place = row.entry.place
        if effect.kind == "missed":
            return f"{row.found.label() if row.found else 'it'} is dead by now, so it isn't opened"
        if effect.kind in "+-":
            left = self.count_after(effect, place, counts)
            verb = "refers to" if effect.kind == "+" else "gives up"
            return f"{self.holder(effect.holder, place)} {verb} {self.label(effect.number, place)}, count {left}"
        if effect.kind in ("take", "give"):
            what = f"f{effect.other}" if effect.holder == "f" else self.label(effect.other, place)
            verb = {"take": "has", "give": "gives up"}[effect.kind]
            return f"{self.thread(effect.number)} {verb} {what}" + (" now" if effect.kind == "take" else "")
        if effect.kind == "signal":
            return self.signal(effect)
        return self.other_effect(effect, place)

    def signal(self, effect: Effect) -> str:
        """A completion in words."""
        code = codes.name_of(effect.other) if effect.other < 0 else str(effect.other)
        if effect.holder == "w":
            return f"{self.thread(effect.number)}'s wait for its message ends with {code}"
        return f"status s{effect.holder} of {self.thread(effect.number)} gets {code}, and it has a signal more"

    def other_effect(self, effect: Effect, place: int) -> str:
        """The effects that are neither a reference, nor of a mutex, nor a completion."""
        number = effect.number
        if effect.kind in ("accept", "finish"):
            return self.message(effect)
        if effect.kind in ("doom", "bury"):
            verb = {"doom": "is doomed: its death begins", "bury": "is buried"}[effect.kind]
            return f"{self.thread(number)} {verb}"
        texts = {
            "dead": "is dead, as that was its last reference", "swept": "is swept, and its name is free",
            "seek": "", "ended": "has ended",
        }
        if effect.kind == "raw":
            return f"{effect.text} isn't known to this reader"
        return f"{self.label(number, place)} {texts[effect.kind]}" if texts[effect.kind] else ""

    def message(self, effect: Effect) -> str:
        """The acceptance or the end of a message."""
        if effect.kind == "finish":
            code = codes.name_of(effect.other) if effect.other < 0 else str(effect.other)
            return f"message {effect.number} is finished with {code}"
        message = self.messages.get(effect.number)
        server = message.session.server if message and message.session else None
        return f"message {effect.number} is accepted" + (f" for server {server.name}" if server else "")

    def thread(self, number: int) -> str:
        """The name of a thread."""
        return self.reading.threads[number].name if number in self.reading.threads else f"thread {number}"

    def holder(self, holder: str, place: int) -> str:
        """A holder of a reference in words."""
        sort, number = holder[:3], holder[3:]
        if sort == "krn":
            return "the kernel"
        if sort == "msg":
            return f"message {number}"
        if sort == "lnk":
            return f"the link of {self.label(int(number), place)}"
        if sort in ("tmp", "own"):
            return {"tmp": "the call of ", "own": ""}[sort] + self.thread(int(number)) + (
                " as owner" if sort == "own" else "")
        table, _, index = holder[1:].partition(".")
        whose = self.processes.get(int(table), table) if holder[0] == "p" else self.thread(int(table))
        return f"handle {index} of " + ("process " if holder[0] == "p" else "thread ") + whose
