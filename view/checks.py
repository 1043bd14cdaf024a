"""What the reader checks. Each disagreement is a sentence of its entry, and of the objects that are left."""
from __future__ import annotations

from typing import TYPE_CHECKING

from history import History, Left
from record import Row
from script import Misfit, Script
from standing import standing
from state import Kind, Stage, Thing, Thread, boot
from steps import call_of, is_of_instruction

if TYPE_CHECKING:
    from reading import Reader


def check_actor(reader: Reader, row: Row, actor: Thread | None) -> None:
    """Checks that the actor may act, and that nobody else comes before it."""
    if row.entry.actor == "idle":
        check_idle(reader, row)
    elif row.entry.actor == "idfc":
        if reader.state.immediate[:1] != [row.entry.step]:
            row.wrong.append(f"{row.entry.step} isn't the oldest of the immediate queue")
    elif actor:
        check_thread(reader, row, actor)
        check_word(row, actor)


def check_idle(reader: Reader, row: Row) -> None:
    """Checks that nobody could act."""
    if reader.state.immediate:
        row.wrong.append("nobody acts, and the immediate queue has an item")
    if reader.ready.greatest() >= 0:
        row.wrong.append(f"nobody acts, and {ready_names(reader)} is ready")


def ready_names(reader: Reader) -> str:
    """The ready threads of the greatest priority."""
    names = [reader.state.threads[it].name for it in sorted(reader.ready.at[reader.ready.greatest()])]
    return " and ".join(names)


def check_thread(reader: Reader, row: Row, actor: Thread) -> None:
    """Checks how a thread stands that acts."""
    if reader.shared and actor.out:
        if not row.entry.is_return():
            row.wrong.append(f"{actor.name} is out on object {actor.out.number}, and doesn't return")
        return
    row.wrong += [f"{actor.name} {why}" for why in hindrances(reader, row, actor)]
    if reader.state.immediate:
        row.wrong.append(f"{actor.name} acts, and the immediate queue has an item")
    greatest = reader.ready.greatest()
    if greatest > effective_priority(reader, actor) and not actor.unknown:
        row.wrong.append(f"{ready_names(reader)} is ready, of greater priority")


def hindrances(reader: Reader, row: Row, actor: Thread) -> list[str]:
    """Why a thread may not act."""
    now = standing(reader.state, actor, reader.shared)
    if now.kind is Kind.WAITS:
        return [f"waits for {now.words}"]
    if now.kind is Kind.SUSPENDED:
        return ["is suspended"]
    if now.kind in (Kind.CLEANED, Kind.BURIED):
        return [f"is {now.kind.value}"]
    if now.kind is Kind.IDLE:
        return ["has no call"]
    if now.kind is Kind.WANTS and (actor.wants in reader.state.fast or row.entry.step != "flock.done"):
        return [f"wants f{actor.wants}"]
    if now.kind is Kind.DOOMED and is_of_instruction(row.entry.step) and not row.entry.is_return():
        return ["is doomed, and makes a step of an instruction"]
    call = call_of(row.entry.step)
    if call and call not in actor.calls or row.entry.step == "bury" and not has_burial(actor):
        return ["has no such call"]
    return []


def has_burial(actor: Thread) -> bool:
    """Whether a burial is queued."""
    return any(it.startswith("burial") for it in actor.calls)


def effective_priority(reader: Reader, actor: Thread) -> int:
    """The priority that a thread acts with: that of a thread in whose place it acts, where that is greater."""
    if actor.fast is None:
        return actor.priority
    return max([actor.priority] + [it.priority for it in reader.state.threads.values()
                                   if it.wants == actor.fast and not it.stopped()])


def check_word(row: Row, actor: Thread) -> None:
    """Checks the first word of a step against the instruction, and that a thread at its end has none left."""
    step = row.entry.step
    left = len(actor.lane.instructions) - actor.answers
    if is_of_instruction(step):
        word = step.partition(".")[0]
        if not row.instruction:
            row.wrong.append(f"{actor.name} has no instruction left")
        elif row.instruction.words[0] != word:
            row.wrong.append(f"the instruction is `{row.instruction.text()}`, and not `{word}`")
            row.instruction = None
    elif step in ("end", "flush") and left > 0:
        row.wrong.append(f"{actor.name} ends, and has {left} instructions left")


def check_counts(reader: Reader, row: Row) -> None:
    """Checks that an object dies with its last reference, unless a thread is out on it."""
    for number in {it.number for it in row.entry.effects if it.kind == "-"}:
        thing = reader.state.things.get(number)
        if not thing or thing.refs or thing.died is not None:
            continue
        if not any(reader.shared and it.out is thing for it in reader.state.threads.values()):
            row.wrong.append(f"the last reference to object {number} goes, and it isn't dead")


def check_boot(script: Script, history: History) -> None:
    """Refuses a history whose objects of boot are of another script."""
    state = boot(script)
    swept = {it.number for entry in history.entries for it in entry.effects if it.kind == "swept"}
    for left in history.left:
        thing = state.things.get(left.number)
        if thing and left.number not in swept and (thing.kind, thing.name) != (left.kind, left.name):
            why = f"object {left.number} of the script is {thing.kind} {thing.name}, and not {left.kind} {left.name}"
            raise Misfit("history", left.line, why)


def check_left(reader: Reader) -> None:
    """Checks the objects that are left: which there are, and of each kind, name, count and stage."""
    wrong = reader.reading.wrong_at_end
    left = {it.number: it for it in reader.reading.history.left}
    end = len(reader.reading.history.lines)
    for number, thing in sorted(reader.state.things.items()):
        if number not in left:
            wrong.append((end, f"object {number}, {thing.label()}, is left, and has no line"))
        else:
            wrong += [(left[number].line, why) for why in left_wrong(reader, thing, left[number])]
    for number, line in left.items():
        if number not in reader.state.things:
            wrong.append((line.line, f"object {number} isn't left"))


def left_wrong(reader: Reader, thing: Thing, line: Left) -> list[str]:
    """What disagrees of one line."""
    found = []
    if thing.kind != "?" and (thing.kind, thing.name) != (line.kind, line.name):
        found.append(f"object {thing.number} is {thing.kind} {thing.name}, and not {line.kind} {line.name}")
    if len(thing.refs) != line.count:
        found.append(f"the count of object {thing.number} is {len(thing.refs)}, and not {line.count}")
    thread = reader.state.threads.get(thing.number) if thing.kind == "thread" else None
    stage = "" if not thread else "live" if thread.stage is Stage.LIVE else thread.exit or ""
    if stage != line.stage:
        found.append(f"the exit of object {thing.number} is `{stage}`, and not `{line.stage}`")
    return found
