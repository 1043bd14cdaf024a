//! The forms of lines: which words stand behind a first word.

use super::instruction::{Copying, Exit, ExitKind, Instruction};
use super::operands::Operands;
use super::refusal::Reason;
use super::{Deferred, Immediate, Interrupt, Operation, Queue, Slots};
use crate::name::Name;

/// A line that isn't skipped.
pub enum Line {
    Header(u8),
    Pool(u8),
    Fast(u8),
    Queue(Queue),
    Deferred(Deferred),
    Immediate(Immediate),
    Interrupt(Interrupt),
    KernelThread(ThreadLine),
    Process(Name),
    Thread(ThreadLine),
    Instruction(Instruction),
    Schedule,
    Slots(Slots),
    End,
}

/// What the line of a thread says.
pub struct ThreadLine {
    pub name: Name,
    pub priority: u8,
    pub held: bool,
}

/// The line with this first word, if there is one. In the schedule an `irq` line is a slot.
pub fn line(word: &[u8], operands: &mut Operands, in_schedule: bool) -> Option<Line> {
    Some(match word {
        b"eka2" => Line::Header(operands.number(1, 2) as u8),
        b"pool" => Line::Pool(operands.byte(255)),
        b"fast" => Line::Fast(operands.byte(16)),
        b"dfcq" => Line::Queue(Queue { name: operands.name(), priority: operands.priority() }),
        b"dfc" => Line::Deferred(Deferred {
            name: operands.name(),
            queue: operands.name(),
            priority: operands.byte(7),
            body: body(operands, operation),
        }),
        b"idfc" => Line::Immediate(Immediate { name: operands.name(), body: body(operands, operation) }),
        b"irq" if in_schedule => Line::Slots(Slots::Interrupt(operands.byte(31))),
        b"irq" => Line::Interrupt(Interrupt { number: operands.byte(31), body: body(operands, interrupt_operation) }),
        b"kthread" => Line::KernelThread(thread(operands)),
        b"process" => Line::Process(operands.name()),
        b"thread" => Line::Thread(thread(operands)),
        b"schedule" => Line::Schedule,
        b"go" => Line::Slots(Slots::Go(operands.number(1, 65536) as u32)),
        b"tick" => Line::Slots(Slots::Tick),
        b"end" => Line::End,
        _ => Line::Instruction(instruction(word, operands)?),
    })
}

fn thread(operands: &mut Operands) -> ThreadLine {
    let (name, priority) = (operands.name(), operands.priority());
    let held = operands.left() > 0;
    if held {
        operands.exactly(b"held");
    }
    ThreadLine { name, priority, held }
}

/// The operations of a body, with `;` between two.
fn body(operands: &mut Operands, one: fn(&[u8], &mut Operands) -> Option<Operation>) -> Vec<Operation> {
    let mut operations = Vec::new();
    for words in operands.rest().split(|word| *word == b";") {
        let read = words.split_first().and_then(|(word, rest)| {
            let mut inner = Operands::new(rest);
            let read = one(word, &mut inner)?;
            match inner.fault() {
                Some(Reason::Count) => return None,
                Some(reason) => operands.note(reason),
                None => (),
            }
            Some(read)
        });
        match read {
            Some(operation) => operations.push(operation),
            None => operands.note(Reason::Form),
        }
    }
    operations
}

fn interrupt_operation(word: &[u8], operands: &mut Operands) -> Option<Operation> {
    match word {
        b"idfc" => Some(Operation::Immediate(operands.name())),
        b"dfc" => Some(Operation::Deferred(operands.name())),
        _ => None,
    }
}

fn operation(word: &[u8], operands: &mut Operands) -> Option<Operation> {
    match word {
        b"fssignal" => Some(Operation::SignalThread(operands.name())),
        b"device" => Some(Operation::CompleteDevice(operands.device(), operands.code())),
        b"queue" => Some(Operation::Queue(operands.name())),
        _ => None,
    }
}

fn instruction(word: &[u8], operands: &mut Operands) -> Option<Instruction> {
    object_instruction(word, operands)
        .or_else(|| thread_instruction(word, operands))
        .or_else(|| kernel_instruction(word, operands))
        .or_else(|| message_instruction(word, operands))
}

/// Objects and their handles, and memory.
fn object_instruction(word: &[u8], operands: &mut Operands) -> Option<Instruction> {
    Some(match word {
        b"create" => create(operands),
        b"open" => Instruction::Open { kind: operands.kind(), name: operands.name(), to: operands.register() },
        b"dup" => Instruction::Dup { handle: operands.register(), to: operands.register() },
        b"duplocal" => Instruction::DupLocal { handle: operands.register(), to: operands.register() },
        b"close" => Instruction::Close { handle: operands.register() },
        b"lock" => Instruction::Lock { mutex: operands.register() },
        b"unlock" => Instruction::Unlock { mutex: operands.register() },
        b"wait" => Instruction::Wait { semaphore: operands.register() },
        b"signal" => Instruction::Signal { semaphore: operands.register() },
        b"fill" => {
            Instruction::Fill { at: operands.length(1024), length: operands.length(1024), byte: operands.byte(255) }
        }
        b"peek" => Instruction::Peek { at: operands.length(1023) },
        _ => return None,
    })
}

fn create(operands: &mut Operands) -> Instruction {
    match operands.word() {
        b"semaphore" => {
            Instruction::CreateSemaphore { name: operands.name(), count: operands.count(), to: operands.register() }
        }
        kind => {
            if kind != b"mutex" {
                operands.note(Reason::Form);
            }
            Instruction::CreateMutex { name: operands.name(), to: operands.register() }
        }
    }
}

/// Threads, their exits and their requests.
fn thread_instruction(word: &[u8], operands: &mut Operands) -> Option<Instruction> {
    Some(match word {
        b"suspend" => Instruction::Suspend { thread: operands.register() },
        b"resume" => Instruction::Resume { thread: operands.register() },
        b"priority" => Instruction::Priority { thread: operands.register(), priority: operands.priority() },
        b"kill" => end(operands, ExitKind::Kill),
        b"terminate" => end(operands, ExitKind::Terminate),
        b"panic" => end(operands, ExitKind::Panic),
        b"exittype" => Instruction::ExitType { thread: operands.register() },
        b"logon" => Instruction::Logon { thread: operands.register(), status: operands.status() },
        b"exit" => Instruction::Exit { reason: operands.code() },
        b"request" => Instruction::Request { device: operands.device(), status: operands.status() },
        b"cancel" => Instruction::Cancel { device: operands.device() },
        b"waitany" => Instruction::WaitAny,
        b"waitfor" => Instruction::WaitFor { status: operands.status() },
        b"status" => Instruction::Status { status: operands.status() },
        _ => return None,
    })
}

fn end(operands: &mut Operands, kind: ExitKind) -> Instruction {
    let thread = operands.register();
    let category = if kind == ExitKind::Panic { operands.category() } else { Name::default() };
    Instruction::End { thread, exit: Exit { kind, category, reason: operands.code() } }
}

/// What kernel threads alone may do.
fn kernel_instruction(word: &[u8], operands: &mut Operands) -> Option<Instruction> {
    Some(match word {
        b"flock" => Instruction::FastLock { mutex: operands.fast_mutex() },
        b"funlock" => Instruction::FastUnlock { mutex: operands.fast_mutex() },
        b"fswait" => Instruction::FastWait,
        b"fssignal" => Instruction::FastSignal { thread: operands.name() },
        b"enter" => Instruction::Enter,
        b"leave" => Instruction::Leave,
        b"queue" => Instruction::Queue { call: operands.name() },
        _ => return None,
    })
}

/// Servers, sessions and messages.
fn message_instruction(word: &[u8], operands: &mut Operands) -> Option<Instruction> {
    Some(match word {
        b"server" => Instruction::Server { name: operands.name(), to: operands.register() },
        b"connect" => Instruction::Connect { name: operands.name(), slots: operands.slots(), to: operands.register() },
        b"send" => Instruction::Send {
            session: operands.register(),
            function: operands.count(),
            status: operands.status(),
            arguments: operands.arguments(),
        },
        b"call" => Instruction::Call {
            session: operands.register(),
            function: operands.count(),
            arguments: operands.arguments(),
        },
        b"receive" => Instruction::Receive { server: operands.register(), to: operands.message() },
        b"complete" => Instruction::Complete { message: operands.message(), code: operands.code() },
        b"function" => Instruction::Function { message: operands.message() },
        b"read" => Instruction::Read(copying(operands)),
        b"write" => Instruction::Write(copying(operands)),
        _ => return None,
    })
}

fn copying(operands: &mut Operands) -> Copying {
    Copying {
        message: operands.message(),
        argument: operands.byte(3),
        offset: operands.length(1024),
        length: operands.length(1024),
        at: operands.length(1024),
    }
}
