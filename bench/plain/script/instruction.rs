//! The instructions of threads. Registers, statuses, devices and fast mutexes are told by their numbers.

use crate::name::{Kind, Name};

/// An instruction with its operands. `to` is the register that gets the handle or the message's number.
#[derive(Clone, Copy)]
pub enum Instruction {
    CreateMutex { name: Name, to: u8 },
    CreateSemaphore { name: Name, count: i32, to: u8 },
    Open { kind: Kind, name: Name, to: u8 },
    Dup { handle: u8, to: u8 },
    DupLocal { handle: u8, to: u8 },
    Close { handle: u8 },
    Lock { mutex: u8 },
    Unlock { mutex: u8 },
    Wait { semaphore: u8 },
    Signal { semaphore: u8 },
    Suspend { thread: u8 },
    Resume { thread: u8 },
    Priority { thread: u8, priority: u8 },
    End { thread: u8, exit: Exit },
    ExitType { thread: u8 },
    Logon { thread: u8, status: u8 },
    Exit { reason: i32 },
    FastLock { mutex: u8 },
    FastUnlock { mutex: u8 },
    FastWait,
    FastSignal { thread: Name },
    Enter,
    Leave,
    Queue { call: Name },
    Request { device: u8, status: u8 },
    Cancel { device: u8 },
    WaitAny,
    WaitFor { status: u8 },
    Status { status: u8 },
    Server { name: Name, to: u8 },
    Connect { name: Name, slots: Slots, to: u8 },
    Send { session: u8, function: i32, status: u8, arguments: [Argument; 4] },
    Call { session: u8, function: i32, arguments: [Argument; 4] },
    Receive { server: u8, to: u8 },
    Complete { message: u8, code: i32 },
    Function { message: u8 },
    Read(Copying),
    Write(Copying),
    Fill { at: u16, length: u16, byte: u8 },
    Peek { at: u16 },
}

/// How a thread ends. Only a panic has a category.
#[derive(Clone, Copy)]
pub struct Exit {
    pub kind: ExitKind,
    pub category: Name,
    pub reason: i32,
}

/// The types of exit, in the order of their numbers.
#[derive(Clone, Copy, PartialEq, Eq)]
pub enum ExitKind {
    Kill,
    Terminate,
    Panic,
}

/// The message slots that a session asks for.
#[derive(Clone, Copy)]
pub enum Slots {
    Own(u8),
    Pool,
}

/// An argument of a message. No instruction asks for a number's value. A descriptor has `length` bytes of the client's
/// memory from `offset` on, and may have `max`.
#[derive(Clone, Copy)]
pub enum Argument {
    Number,
    Descriptor { offset: u16, length: u16, max: u16 },
}

/// The operands of `read` and `write`: from byte `offset` of the message's argument on, and from place `at` of the
/// caller's memory on.
#[derive(Clone, Copy)]
pub struct Copying {
    pub message: u8,
    pub argument: u8,
    pub offset: u16,
    pub length: u16,
    pub at: u16,
}

impl Exit {
    /// A kill with this reason.
    pub fn kill(reason: i32) -> Exit {
        Exit { kind: ExitKind::Kill, category: Name::default(), reason }
    }
}

impl ExitKind {
    /// The type as it is printed, which is the first word of the instruction too.
    pub fn word(self) -> &'static str {
        match self {
            ExitKind::Kill => "kill",
            ExitKind::Terminate => "terminate",
            ExitKind::Panic => "panic",
        }
    }
}

impl Instruction {
    /// The first word.
    pub fn word(&self) -> &'static str {
        match self {
            Instruction::CreateMutex { .. } | Instruction::CreateSemaphore { .. } => "create",
            Instruction::Open { .. } => "open",
            Instruction::Dup { .. } => "dup",
            Instruction::DupLocal { .. } => "duplocal",
            Instruction::Close { .. } => "close",
            Instruction::Lock { .. } => "lock",
            Instruction::Unlock { .. } => "unlock",
            Instruction::Wait { .. } => "wait",
            Instruction::Signal { .. } => "signal",
            Instruction::Suspend { .. } => "suspend",
            Instruction::Resume { .. } => "resume",
            Instruction::Priority { .. } => "priority",
            Instruction::End { exit, .. } => exit.kind.word(),
            Instruction::ExitType { .. } => "exittype",
            Instruction::Logon { .. } => "logon",
            Instruction::Exit { .. } => "exit",
            Instruction::FastLock { .. } => "flock",
            Instruction::FastUnlock { .. } => "funlock",
            Instruction::FastWait => "fswait",
            Instruction::FastSignal { .. } => "fssignal",
            Instruction::Enter => "enter",
            Instruction::Leave => "leave",
            Instruction::Queue { .. } => "queue",
            Instruction::Request { .. } => "request",
            Instruction::Cancel { .. } => "cancel",
            Instruction::WaitAny => "waitany",
            Instruction::WaitFor { .. } => "waitfor",
            Instruction::Status { .. } => "status",
            Instruction::Server { .. } => "server",
            Instruction::Connect { .. } => "connect",
            Instruction::Send { .. } => "send",
            Instruction::Call { .. } => "call",
            Instruction::Receive { .. } => "receive",
            Instruction::Complete { .. } => "complete",
            Instruction::Function { .. } => "function",
            Instruction::Read(_) => "read",
            Instruction::Write(_) => "write",
            Instruction::Fill { .. } => "fill",
            Instruction::Peek { .. } => "peek",
        }
    }

    /// Whether only a kernel thread may have it.
    pub fn is_for_kernel_threads(&self) -> bool {
        use Instruction::*;
        matches!(
            self,
            FastLock { .. } | FastUnlock { .. } | FastWait | FastSignal { .. } | Enter | Leave | Queue { .. }
        )
    }

    /// Whether it could block, so that a thread that holds a fast mutex may not begin it.
    pub fn may_block(&self) -> bool {
        use Instruction::*;
        match self {
            Open { .. } | Lock { .. } | Wait { .. } | FastLock { .. } | FastWait | WaitAny | WaitFor { .. } => true,
            Connect { .. } | Call { .. } | Receive { .. } => true,
            _ => false,
        }
    }

    /// The status that it makes pending, if it makes one so.
    pub fn sets_status(&self) -> Option<u8> {
        match self {
            Instruction::Logon { status, .. } | Instruction::Request { status, .. } => Some(*status),
            Instruction::Send { status, .. } => Some(*status),
            _ => None,
        }
    }

    /// The register whose handle its first step looks up, with the kind that the object must have, if any.
    pub fn looks_up(&self) -> Option<(u8, Option<Kind>)> {
        use Instruction::*;
        match self {
            Dup { handle, .. } | DupLocal { handle, .. } => Some((*handle, None)),
            Lock { mutex } | Unlock { mutex } => Some((*mutex, Some(Kind::Mutex))),
            Wait { semaphore } | Signal { semaphore } => Some((*semaphore, Some(Kind::Semaphore))),
            Suspend { thread } | Resume { thread } | Priority { thread, .. } => Some((*thread, Some(Kind::Thread))),
            End { thread, .. } | ExitType { thread } | Logon { thread, .. } => Some((*thread, Some(Kind::Thread))),
            Send { session, .. } | Call { session, .. } => Some((*session, Some(Kind::Session))),
            Receive { server, .. } => Some((*server, Some(Kind::Server))),
            _ => None,
        }
    }
}
