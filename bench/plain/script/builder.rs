//! A script as it is read: what each line adds, if no earlier line has it, what it names is there, and no limit is
//! passed.

use super::declared::Declared;
use super::forms::{Line, ThreadLine};
use super::instruction::Instruction;
use super::refusal::Reason;
use super::{Operation, Script, Slots, Thread};
use crate::name::Name;

/// The name of the thread, and of the queue, that each kernel has.
pub const SUPERVISOR: &[u8] = b"supervisor";
/// The name of the process that each kernel has.
pub const KERNEL: &[u8] = b"kernel";

const QUEUES: usize = 7;
const CALLS: usize = 64;
const OPERATIONS: usize = 4;
const PROCESSES: usize = 16;
/// With the supervisor and the threads of queues.
const THREADS: usize = 64;
const INSTRUCTIONS_OF_A_THREAD: usize = 16_384;
const INSTRUCTIONS: usize = 65_536;
const SLOTS: u32 = 65_536;

/// The script of the lines so far.
pub struct Builder<'t> {
    text: &'t [u8],
    /// What the whole text declares; it is looked through when that is asked first.
    declared: Option<Declared>,
    script: Script,
    has_pool: bool,
    has_fast: bool,
    instructions: usize,
    slots: u32,
}

fn refuse_if(bad: bool, reason: Reason) -> Result<(), Reason> {
    if bad {
        Err(reason)
    } else {
        Ok(())
    }
}

impl<'t> Builder<'t> {
    pub fn new(text: &'t [u8]) -> Self {
        let script = Script::default();
        Builder { text, declared: None, script, has_pool: false, has_fast: false, instructions: 0, slots: 0 }
    }

    pub fn script(self) -> Script {
        self.script
    }

    /// Adds a line whose words are as they must be.
    pub fn add(&mut self, line: Line, in_process: bool) -> Result<(), Reason> {
        match line {
            Line::Header(version) => self.script.version = version,
            Line::Pool(slots) => {
                refuse_if(std::mem::replace(&mut self.has_pool, true), Reason::Twice)?;
                self.script.pool = u32::from(slots);
            }
            Line::Fast(count) => {
                refuse_if(std::mem::replace(&mut self.has_fast, true), Reason::Twice)?;
                self.script.fast = count;
            }
            Line::Queue(_) | Line::Deferred(_) | Line::Immediate(_) | Line::Interrupt(_) => self.add_call(line)?,
            Line::KernelThread(thread) => self.add_thread(thread, None)?,
            Line::Process(name) => self.add_process(name)?,
            Line::Thread(thread) => self.add_thread(thread, self.script.processes.len().checked_sub(1))?,
            Line::Instruction(instruction) => self.add_instruction(instruction, in_process)?,
            Line::Slots(slots) => self.add_slots(slots)?,
            Line::Schedule | Line::End => (),
        }
        Ok(())
    }

    fn add_call(&mut self, line: Line) -> Result<(), Reason> {
        match line {
            Line::Queue(queue) => {
                refuse_if(self.is_thread(queue.name), Reason::Twice)?;
                refuse_if(self.script.queues.len() >= QUEUES || self.threads() >= THREADS, Reason::Limit)?;
                self.script.queues.push(queue);
            }
            Line::Deferred(call) => {
                refuse_if(self.script.deferred.iter().any(|other| other.name == call.name), Reason::Twice)?;
                let is_queue = call.queue.characters() == SUPERVISOR || self.declared().queues.contains(&call.queue);
                refuse_if(!is_queue, Reason::Unknown)?;
                self.check_body(&call.body)?;
                refuse_if(self.script.deferred.len() >= CALLS, Reason::Limit)?;
                self.script.deferred.push(call);
            }
            Line::Immediate(call) => {
                refuse_if(self.script.immediate.iter().any(|other| other.name == call.name), Reason::Twice)?;
                self.check_body(&call.body)?;
                refuse_if(self.script.immediate.len() >= CALLS, Reason::Limit)?;
                self.script.immediate.push(call);
            }
            Line::Interrupt(interrupt) => {
                let mut others = self.script.interrupts.iter();
                refuse_if(others.any(|other| other.number == interrupt.number), Reason::Twice)?;
                self.check_body(&interrupt.body)?;
                self.script.interrupts.push(interrupt);
            }
            _ => (),
        }
        Ok(())
    }

    fn check_body(&mut self, body: &[Operation]) -> Result<(), Reason> {
        for operation in body {
            let known = match operation {
                Operation::Immediate(name) => self.declared().immediate.contains(name),
                Operation::Deferred(name) | Operation::Queue(name) => self.declared().deferred.contains(name),
                Operation::SignalThread(name) => self.declared().threads.contains(name),
                Operation::CompleteDevice(..) => true,
            };
            refuse_if(!known, Reason::Unknown)?;
        }
        refuse_if(body.len() > OPERATIONS, Reason::Limit)
    }

    fn add_process(&mut self, name: Name) -> Result<(), Reason> {
        refuse_if(name.characters() == KERNEL || self.script.processes.contains(&name), Reason::Twice)?;
        refuse_if(self.script.processes.len() >= PROCESSES, Reason::Limit)?;
        self.script.processes.push(name);
        Ok(())
    }

    fn add_thread(&mut self, line: ThreadLine, process: Option<usize>) -> Result<(), Reason> {
        let ThreadLine { name, priority, held } = line;
        refuse_if(self.is_thread(name), Reason::Twice)?;
        refuse_if(self.threads() >= THREADS, Reason::Limit)?;
        self.script.threads.push(Thread { name, priority, held, process, instructions: Vec::new() });
        Ok(())
    }

    fn add_instruction(&mut self, instruction: Instruction, in_process: bool) -> Result<(), Reason> {
        refuse_if(in_process && instruction.is_for_kernel_threads(), Reason::Kind)?;
        let known = match &instruction {
            Instruction::FastLock { mutex } | Instruction::FastUnlock { mutex } => *mutex < self.script.fast,
            Instruction::FastSignal { thread } => self.declared().threads.contains(thread),
            Instruction::Queue { call } => self.declared().deferred.contains(call),
            _ => true,
        };
        refuse_if(!known, Reason::Unknown)?;
        let thread = self.script.threads.last_mut().ok_or(Reason::Order)?;
        let full = thread.instructions.len() >= INSTRUCTIONS_OF_A_THREAD || self.instructions >= INSTRUCTIONS;
        refuse_if(full, Reason::Limit)?;
        thread.instructions.push(instruction);
        self.instructions += 1;
        Ok(())
    }

    fn add_slots(&mut self, slots: Slots) -> Result<(), Reason> {
        if let Slots::Interrupt(number) = slots {
            refuse_if(!self.declared().interrupts.contains(&i64::from(number)), Reason::Unknown)?;
        }
        self.slots += slots.count();
        refuse_if(self.slots > SLOTS, Reason::Limit)?;
        self.script.schedule.push(slots);
        Ok(())
    }

    fn declared(&mut self) -> &Declared {
        self.declared.get_or_insert_with(|| Declared::by(self.text))
    }

    /// Whether a thread or a queue has the name.
    fn is_thread(&self, name: Name) -> bool {
        name.characters() == SUPERVISOR
            || self.script.queues.iter().any(|queue| queue.name == name)
            || self.script.threads.iter().any(|thread| thread.name == name)
    }

    fn threads(&self) -> usize {
        1 + self.script.queues.len() + self.script.threads.len()
    }
}
