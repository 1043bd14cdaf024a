//! An entry of the history: who acted, which step it was, what it did, and what it answered.

use crate::name::Name;

/// The number of an object, as it is printed.
pub type ObjectNumber = u16;

/// An entry. There is one of each kernel, and it is made anew for each slot.
pub struct Entry {
    pub actor: Actor,
    pub step: Step,
    pub effects: Vec<Effect>,
    pub answer: Option<i32>,
}

/// Who acted. A thread is told by its object's number.
#[derive(Clone, Copy)]
pub enum Actor {
    Thread(ObjectNumber),
    Interrupt(u8),
    Immediate,
    Tick,
    Idle,
}

/// Which step it was.
#[derive(Clone, Copy)]
pub enum Step {
    /// A step of an instruction: its first word, and the part.
    Instruction(&'static str, Part),
    /// A call of this name runs, or moves to its own queue.
    Run(Name),
    Move(Name),
    /// The body of an interrupt runs.
    Interrupt,
    Turn,
    Wait,
    Drop,
    Sweep,
    Finish,
    Detach,
    Stop,
    Free,
    Shut,
    Tell,
    Clean,
    Bury,
    Flush,
    End,
}

/// The parts of instructions.
#[derive(Clone, Copy)]
pub enum Part {
    Look,
    Seek,
    Return,
    Make,
    Send,
    Piece,
    Do,
    Done,
}

/// What a step did. Threads and servers are told by their objects' numbers.
#[derive(Clone, Copy)]
pub enum Effect {
    Plus(Holder, ObjectNumber),
    Minus(Holder, ObjectNumber),
    Dead(ObjectNumber),
    Swept(ObjectNumber),
    Seek(ObjectNumber),
    Missed(ObjectNumber),
    Accept(u32),
    Finish(u32, i32),
    Signal(ObjectNumber, Signalled, i32),
    Take(ObjectNumber, Lock),
    Give(ObjectNumber, Lock),
    Ended(ObjectNumber),
    Doom(ObjectNumber),
    Bury(ObjectNumber),
}

/// Who holds a reference.
#[derive(Clone, Copy)]
pub enum Holder {
    /// A place of a process's handle table.
    ProcessHandle(ObjectNumber, u8),
    /// A place of a thread's handle table.
    ThreadHandle(ObjectNumber, u8),
    /// The call that a thread has in flight.
    Temporary(ObjectNumber),
    /// The thread that owns the mutex or the server.
    Owner(ObjectNumber),
    /// The thread that has the process, or the session that has the server.
    Link(ObjectNumber),
    Message(u32),
    Kernel,
}

/// What is signalled: a status of a thread, or its wait for a message.
#[derive(Clone, Copy)]
pub enum Signalled {
    Status(u8),
    Reply,
}

/// A mutex or a fast mutex.
#[derive(Clone, Copy)]
pub enum Lock {
    Mutex(ObjectNumber),
    Fast(u8),
}
