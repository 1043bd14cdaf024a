"""How each lane stands after an entry, and which ready lane has the greatest priority."""
from __future__ import annotations

from state import Kind, Stage, Standing, State, Thread, Wait

# The kinds in which a thread is ready for certain.
READY = (Kind.READY, Kind.WANTS, Kind.DOOMED)


def standing(state: State, thread: Thread, shared: bool) -> Standing:
    """How a lane is drawn."""
    if thread.stage in (Stage.BURIED, Stage.CLEANED):
        return Standing(Kind(thread.stage.value))
    if shared and thread.out:
        return Standing(Kind.OUT, f"out on {thread.out.number}" + (", doomed" if thread.stage is Stage.DOOMED else ""))
    if thread.stage is Stage.DOOMED:
        return Standing(Kind.DOOMED)
    if thread.unknown:
        return Standing(Kind.UNKNOWN)
    if thread.stopped():
        return Standing(Kind.SUSPENDED, thread.wait.label() if thread.wait else "")
    if thread.wants is not None:
        return Standing(Kind.WANTS, want_words(state, thread.wants))
    if thread.wait:
        return wait_standing(state, thread, thread.wait)
    if thread.lane.serves and not thread.calls and not thread.owed:
        return Standing(Kind.IDLE)
    return Standing(Kind.READY)


def want_words(state: State, number: int) -> str:
    """Which fast mutex a thread wants, and who acts for it."""
    holder = state.fast.get(number)
    return f"f{number}" + (f": {holder.name} acts for it" if holder else "")


def wait_standing(state: State, thread: Thread, wait: Wait) -> Standing:
    """A thread that waits, or that was served: of several waiters of a semaphore a history doesn't tell."""
    waiters = state.waiters.get(wait.thing) if wait.thing else None
    if wait.thing and waiters and waiters.may_be_served(thread):
        return Standing(Kind.UNKNOWN, f"{wait.thing.name}, or was served")
    return Standing(Kind.WAITS, wait.label())


class Ready:
    """Which lanes are ready for certain, by priority."""

    def __init__(self) -> None:
        self.at: list[set[int]] = [set() for _ in range(64)]
        self.where: dict[int, int] = {}
        self.mask = 0

    def settle(self, thread: Thread, now: Standing) -> None:
        """Puts a thread where it belongs now."""
        wanted = thread.priority if now.kind in READY else None
        had = self.where.get(thread.number)
        if had == wanted:
            return
        if had is not None:
            self.at[had].discard(thread.number)
            self.mask &= ~(0 if self.at[had] else 1 << had)
            del self.where[thread.number]
        if wanted is not None:
            self.at[wanted].add(thread.number)
            self.mask |= 1 << wanted
            self.where[thread.number] = wanted

    def greatest(self) -> int:
        """The greatest priority of a ready lane, and -1 where none is ready."""
        return self.mask.bit_length() - 1
