"""Error codes by their Symbian names, and why a step answers one."""
from __future__ import annotations

NAMES = {
    -1: "KErrNotFound", -2: "KErrGeneral", -3: "KErrCancel", -6: "KErrArgument", -8: "KErrBadHandle",
    -9: "KErrOverflow", -11: "KErrAlreadyExists", -13: "KErrDied", -14: "KErrInUse", -15: "KErrServerTerminated",
    -16: "KErrServerBusy", -38: "KErrBadDescriptor", -46: "KErrPermissionDenied", -2147483647: "KRequestPending",
}

NO_HANDLE = "its handle names nothing that this instruction takes"
HOLDS_FAST = "the thread holds a fast mutex, and this could block"
NO_MESSAGE = "the register names no message that was taken from a server of the thread"
CLOSING = "the server is closing, or the session isn't linked any more"
FULL = "the handle table is full, or all objects were made"

# Why a step answers a code: by the whole step, else by its part, else by nothing.
REASONS: dict[tuple[str, int], str] = {
    ("create.do", -11): "the name is taken", ("create.do", -9): FULL,
    ("server.do", -11): "the name is taken", ("server.do", -9): FULL,
    ("open.seek", -1): "no object of this name is found", ("open.return", -1): "the object died since it was found",
    ("open.do", -9): FULL, ("close.do", -8): "no such handle", ("logon.look", -14): "the status is pending",
    ("dup.do", -9): FULL, ("duplocal.do", -9): FULL,
    ("dup.do", -46): "handles of servers and sessions aren't duplicated",
    ("duplocal.do", -46): "handles of servers and sessions aren't duplicated",
    ("unlock.do", -2): "the thread doesn't own the mutex", ("signal.do", -9): "the count is the greatest already",
    ("suspend.do", -9): "the suspend count is 127 already", ("resume.do", -2): "no suspension is left",
    ("flock.do", -14): "the thread holds a fast mutex already", ("funlock.do", -2): "the thread doesn't hold it",
    ("leave.do", -2): "the thread is in no critical section", ("fssignal.do", -13): "the thread isn't live",
    ("exit.do", -14): "the thread is protected", ("request.do", -14): "the status is pending, or the device in use",
    ("cancel.do", -1): "the device has no request of this thread", ("send.look", -14): "the status is pending",
    ("connect.seek", -1): "no server of this name is found", ("connect.return", -1): "the server died since",
    ("connect.make", -15): "the server is closing", ("connect.make", -9): FULL, ("connect.send", -15): CLOSING,
    ("send.do", -15): CLOSING, ("call.do", -15): CLOSING, ("send.do", -16): "all message slots are taken",
    ("complete.do", -8): NO_MESSAGE, ("function.do", -8): NO_MESSAGE, ("fill.do", -6): "it passes the memory's end",
    ("read.piece", -8): NO_MESSAGE, ("write.piece", -8): NO_MESSAGE,
    ("read.piece", -13): "the client isn't live", ("write.piece", -13): "the client isn't live",
    ("read.piece", -38): "the argument is no good descriptor",
    ("write.piece", -38): "the argument is no good descriptor",
    ("read.piece", -6): "the place is behind the descriptor's length, or passes the memory's end",
    ("write.piece", -6): "the place is behind the descriptor's length, or passes the memory's end",
    ("write.piece", -9): "the descriptor takes fewer bytes",
    ("connect.done", -15): "the server was closing when it finished the message that connects",
}
BY_PART: dict[tuple[str, int], str] = {
    ("look", -8): NO_HANDLE, ("look", -14): HOLDS_FAST, ("seek", -14): HOLDS_FAST, ("do", -14): HOLDS_FAST,
    ("do", -46): "the supervisor and the threads of queues aren't called on",
    ("do", -13): "the thread isn't live, or an exit of it is noted",
}


def name_of(code: int) -> str:
    """The name of an error code, and its number where it has none."""
    return NAMES.get(code, str(code))


def reason(step: str, code: int) -> str:
    """Why a step answers an error, or nothing where that isn't known."""
    part = step.partition(".")[2]
    return REASONS.get((step, code)) or BY_PART.get((part, code)) or ""
