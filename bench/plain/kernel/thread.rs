//! The rows of threads and processes.

use super::handles::HandleTable;
use crate::entry::{Holder, ObjectNumber};
use crate::script::instruction::{Exit, Instruction};
use std::collections::VecDeque;

/// The place of a thread among all threads, in order of their objects' numbers.
pub type ThreadIndex = usize;
/// The place of a process among all processes; the kernel's is the first.
pub type ProcessIndex = usize;

/// A process.
pub struct Process {
    pub object: ObjectNumber,
    pub handles: HandleTable,
    pub memory: Vec<u8>,
    /// How many threads of it aren't cleaned.
    pub threads: usize,
}

/// A thread.
pub struct Thread<'s> {
    pub object: ObjectNumber,
    pub process: ProcessIndex,
    pub priority: u8,
    pub instructions: &'s [Instruction],
    /// The queue of deferred function calls that it serves, if it serves one.
    pub serves: Option<usize>,
    pub stage: Stage,
    pub exit: Option<Exit>,
    /// An exit that is put off while the thread is protected.
    pub noted: Option<Exit>,
    pub suspensions: u8,
    pub critical: u32,
    pub fast_signals: u32,
    pub fast_mutex: Option<u8>,
    pub wanted: Option<u8>,
    pub waiting: Waiting,
    /// Whether it stands among the ready threads.
    pub is_listed: bool,
    /// The place of its instruction in the list.
    pub next: usize,
    pub progress: Progress,
    /// The object that its call uses.
    pub uses: Option<ObjectNumber>,
    pub registers: [u32; 8],
    pub messages: [u32; 8],
    pub statuses: [i32; 16],
    pub signals: u32,
    /// The code with which its last synchronous message was completed.
    pub reply: i32,
    pub duties: VecDeque<Duty>,
    /// In order of taking.
    pub mutexes: Vec<ObjectNumber>,
    /// In order of making.
    pub servers: Vec<ObjectNumber>,
    /// How many of these are closing.
    pub closing: usize,
    pub handles: HandleTable,
}

/// How far a thread's death has come.
#[derive(Clone, Copy, PartialEq, Eq)]
pub enum Stage {
    Live,
    Doomed,
    Cleaned,
    Buried,
}

/// What a thread waits for.
#[derive(Clone, Copy, PartialEq, Eq)]
pub enum Waiting {
    Nothing,
    Mutex(ObjectNumber),
    Semaphore(ObjectNumber),
    FastSignal,
    AnySignal,
    Status(u8),
    Reply,
    Message(ObjectNumber),
}

/// How far a thread's instruction has come.
#[derive(Clone, Copy)]
pub enum Progress {
    /// It isn't begun.
    Begin,
    /// Its handle was looked up, or its object was opened.
    Found,
    /// An object was found by its name. The serial tells the object from a later one of the same number.
    Sought { object: ObjectNumber, serial: u32 },
    /// The session of a connect was made, with this handle.
    Send { session: ObjectNumber, handle: u32 },
    /// A wait was begun.
    Waited,
    /// The wait of a connect was begun.
    Connecting { handle: u32 },
    /// So many bytes were copied.
    Copied(u16),
}

/// What a thread owes.
#[derive(Clone, Copy)]
pub enum Duty {
    Close(Holder, ObjectNumber),
    Sweep(ObjectNumber),
}

impl Process {
    pub fn new(object: ObjectNumber) -> Process {
        Process { object, handles: HandleTable::new(false), memory: vec![0; 1024], threads: 0 }
    }
}

impl<'s> Thread<'s> {
    pub fn new(object: ObjectNumber, process: ProcessIndex, priority: u8) -> Thread<'s> {
        Thread {
            object,
            process,
            priority,
            instructions: &[],
            serves: None,
            stage: Stage::Live,
            exit: None,
            noted: None,
            suspensions: 0,
            critical: 0,
            fast_signals: 0,
            fast_mutex: None,
            wanted: None,
            waiting: Waiting::Nothing,
            is_listed: false,
            next: 0,
            progress: Progress::Begin,
            uses: None,
            registers: [0; 8],
            messages: [0; 8],
            statuses: [0; 16],
            signals: 0,
            reply: 0,
            duties: VecDeque::new(),
            mutexes: Vec::new(),
            servers: Vec::new(),
            closing: 0,
            handles: HandleTable::new(true),
        }
    }

    pub fn is_live(&self) -> bool {
        self.stage == Stage::Live
    }

    /// Whether its death is put off.
    pub fn is_protected(&self) -> bool {
        self.fast_mutex.is_some() || self.critical != 0
    }

    /// Whether it is cleaned or buried.
    pub fn is_gone(&self) -> bool {
        matches!(self.stage, Stage::Cleaned | Stage::Buried)
    }

    /// Whether it may act, if it has something to do.
    pub fn may_act(&self) -> bool {
        let is_stopped = self.suspensions != 0 && self.is_live() && !self.is_protected();
        !self.is_gone() && self.waiting == Waiting::Nothing && !is_stopped
    }
}
