//! A script that was read: its declarations, its threads with their instructions, and its schedule.

pub mod builder;
mod declared;
pub mod forms;
pub mod instruction;
mod lines;
pub mod operands;
pub mod reader;
pub mod refusal;

use crate::name::Name;
use instruction::Instruction;

/// What a script says.
#[derive(Default)]
pub struct Script {
    /// 1 or 2; in version 2 the numbers of swept objects are used again.
    pub version: u8,
    /// The message slots of the kernel's pool.
    pub pool: u32,
    /// How many fast mutexes there are.
    pub fast: u8,
    pub queues: Vec<Queue>,
    pub deferred: Vec<Deferred>,
    pub immediate: Vec<Immediate>,
    pub interrupts: Vec<Interrupt>,
    pub processes: Vec<Name>,
    pub threads: Vec<Thread>,
    pub schedule: Vec<Slots>,
}

/// A queue of deferred function calls, which has a thread of its own.
pub struct Queue {
    pub name: Name,
    pub priority: u8,
}

/// A deferred function call. Its queue is that of a name, or the supervisor's.
pub struct Deferred {
    pub name: Name,
    pub queue: Name,
    pub priority: u8,
    pub body: Vec<Operation>,
}

/// An immediate deferred function call.
pub struct Immediate {
    pub name: Name,
    pub body: Vec<Operation>,
}

/// An interrupt with its number.
pub struct Interrupt {
    pub number: u8,
    pub body: Vec<Operation>,
}

/// A thread. One without a process is a kernel thread; a process is told by its place among the processes.
pub struct Thread {
    pub name: Name,
    pub priority: u8,
    pub held: bool,
    pub process: Option<usize>,
    pub instructions: Vec<Instruction>,
}

/// An operation of a body.
#[derive(Clone, Copy)]
pub enum Operation {
    Immediate(Name),
    Deferred(Name),
    SignalThread(Name),
    CompleteDevice(u8, i32),
    Queue(Name),
}

/// A line of the schedule.
#[derive(Clone, Copy)]
pub enum Slots {
    Go(u32),
    Tick,
    Interrupt(u8),
}

impl Slots {
    /// How many slots the line stands for.
    pub fn count(self) -> u32 {
        match self {
            Slots::Go(count) => count,
            Slots::Tick | Slots::Interrupt(_) => 1,
        }
    }
}
