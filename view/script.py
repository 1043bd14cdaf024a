"""The script's text as the picture needs it: who is declared, which instructions each thread has, and the slots.

Only scripts that `eka2` accepted come here, so no form of a line is judged."""
from __future__ import annotations

from dataclasses import dataclass, field


class Misfit(Exception):
    """A line that doesn't fit: of which text, its number from 1, and why."""

    def __init__(self, text: str, line: int, why: str) -> None:
        super().__init__(f"{text}, line {line}: {why}")


@dataclass(frozen=True)
class Instruction:
    """An instruction of a thread's list, with the number of its line in the script."""

    line: int
    words: tuple[str, ...]

    def text(self) -> str:
        """The instruction with single spaces."""
        return " ".join(self.words)


@dataclass
class Lane:
    """A declared thread; `serves` tells that it is the thread of a queue, and `process` is None for the kernel's."""

    name: str
    priority: int
    line: int
    held: bool = False
    serves: bool = False
    process: str | None = None
    instructions: list[Instruction] = field(default_factory=list)


@dataclass(frozen=True)
class Body:
    """What an interrupt or a call does. The queue and its priority are those of a deferred function call."""

    line: int
    operations: tuple[tuple[str, ...], ...]
    queue: str = ""
    priority: int = 0


@dataclass(frozen=True)
class Slot:
    """One slot of the schedule: `go`, `tick` or `irq3`, and the line that it stands in."""

    word: str
    line: int


@dataclass
class Script:
    """A script: its lines, and what they declare."""

    lines: list[str]
    version: int = 1
    queues: list[Lane] = field(default_factory=list)
    kernel_threads: list[Lane] = field(default_factory=list)
    processes: list[tuple[str, list[Lane]]] = field(default_factory=list)
    dfcs: dict[str, Body] = field(default_factory=dict)
    idfcs: dict[str, Body] = field(default_factory=dict)
    irqs: dict[int, Body] = field(default_factory=dict)
    slots: list[Slot] = field(default_factory=list)

    def line(self, number: int) -> str:
        """A line with single spaces between its words."""
        return " ".join(self.lines[number - 1].split())


def operations(words: list[str]) -> tuple[tuple[str, ...], ...]:
    """The operations of a body, which stand with the word `;` between two."""
    return tuple(tuple(it.split()) for it in " ".join(words).split(" ; "))


def read_script(data: bytes) -> Script:
    """The script of a text. Raises Misfit where it can't be one."""
    script = Script(text_lines(data, "script"))
    lane: Lane | None = None
    header = False
    for number, line in enumerate(script.lines, 1):
        words = line.split()
        if not words or words[0].startswith("#"):
            continue
        if not header:
            script.version, header = version_of(words, number), True
        elif words[0] == "end":
            return script
        else:
            lane = declare(script, lane, number, words)
    raise Misfit("script", len(script.lines), "it has no `end`, or no header `eka2 1`")


def text_lines(data: bytes, name: str) -> list[str]:
    """The lines of a text of printable characters. Raises Misfit at the first other byte."""
    for number, line in enumerate(data.split(b"\n"), 1):
        if not line.isascii() or (line and not line.decode("ascii").isprintable()):
            raise Misfit(name, number, "it has a byte that is no printable character")
    lines = data.decode("ascii").split("\n")
    return lines[:-1] if lines[-1] == "" else lines


def version_of(words: list[str], number: int) -> int:
    """The version that the header tells."""
    if len(words) != 2 or words[0] != "eka2" or not words[1].isdigit():
        raise Misfit("script", number, "a script begins with `eka2` and its version")
    return int(words[1])


def declare(script: Script, lane: Lane | None, number: int, words: list[str]) -> Lane | None:
    """Adds what one line declares, and answers the thread that instructions behind it belong to."""
    try:
        return declare_words(script, lane, number, words)
    except (IndexError, ValueError):
        raise Misfit("script", number, "`eka2` refuses this line") from None


def declare_words(script: Script, lane: Lane | None, number: int, words: list[str]) -> Lane | None:
    """What a line declares, by its first word."""
    head, rest = words[0], words[1:]
    if head in ("pool", "fast"):
        return None
    if head == "dfcq":
        script.queues.append(Lane(rest[0], int(rest[1]), number, serves=True))
    elif head == "dfc":
        script.dfcs[rest[0]] = Body(number, operations(rest[3:]), rest[1], int(rest[2]))
    elif head == "idfc":
        script.idfcs[rest[0]] = Body(number, operations(rest[1:]))
    elif head == "process":
        script.processes.append((rest[0], []))
    elif head in ("kthread", "thread"):
        return declare_thread(script, number, head, rest)
    elif head in ("schedule", "go", "tick") or head == "irq" and len(rest) == 1:
        add_slots(script, number, words)
    elif head == "irq":
        script.irqs[int(rest[0])] = Body(number, operations(rest[1:]))
    elif lane is None:
        raise ValueError(head)
    else:
        lane.instructions.append(Instruction(number, tuple(words)))
    return lane


def declare_thread(script: Script, number: int, head: str, rest: list[str]) -> Lane:
    """A thread of the kernel or of the last process."""
    lane = Lane(rest[0], int(rest[1]), number, held=rest[2:] == ["held"])
    if head == "kthread":
        script.kernel_threads.append(lane)
    else:
        lane.process = script.processes[-1][0]
        script.processes[-1][1].append(lane)
    return lane


def add_slots(script: Script, number: int, words: list[str]) -> None:
    """The slots of a line of the schedule."""
    if words[0] == "go":
        script.slots += [Slot("go", number)] * int(words[1])
    elif words[0] != "schedule":
        script.slots.append(Slot("".join(words), number))
