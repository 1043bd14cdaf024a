//! The steps of instructions.

use super::codes::{IN_USE, PENDING};
use super::names::TableOf;
use super::thread::{Duty, Progress, ThreadIndex};
use super::Kernel;
use crate::entry::{Holder, ObjectNumber, Part, Step};
use crate::name::Kind;
use crate::script::instruction::Instruction;

/// The part of an instruction that its next step is, if it isn't the first.
fn later_part(instruction: &Instruction, progress: Progress) -> Part {
    match progress {
        Progress::Found if matches!(instruction, Instruction::Connect { .. }) => Part::Make,
        Progress::Begin | Progress::Found => Part::Do,
        Progress::Sought { .. } => Part::Return,
        Progress::Send { .. } => Part::Send,
        Progress::Waited | Progress::Connecting { .. } => Part::Done,
        Progress::Copied(_) => Part::Piece,
    }
}

/// A code that is answered, whether all is well or not.
fn either(answer: Result<i32, i32>) -> i32 {
    answer.unwrap_or_else(|code| code)
}

/// How many bytes earlier pieces copied.
fn copied(progress: Progress) -> u16 {
    match progress {
        Progress::Copied(bytes) => bytes,
        _ => 0,
    }
}

impl<'s> Kernel<'s> {
    pub(super) fn instruction_of(&self, thread: ThreadIndex) -> &'s Instruction {
        let row = &self.threads[thread];
        &row.instructions[row.next]
    }

    /// The next step of a thread's instruction.
    pub(super) fn step(&mut self, thread: ThreadIndex) {
        let instruction = self.instruction_of(thread);
        let progress = self.threads[thread].progress;
        let (part, answer) = match progress {
            Progress::Begin => self.first_step(thread, instruction),
            _ => (later_part(instruction, progress), self.later_step(thread, instruction, progress)),
        };
        self.entry.step = Step::Instruction(instruction.word(), part);
        if let Some(code) = answer {
            self.answer(thread, code);
        }
    }

    /// A step answers, and so the instruction is over. What it used is owed.
    pub(super) fn answer(&mut self, thread: ThreadIndex, code: i32) {
        self.entry.answer = Some(code);
        let row = &mut self.threads[thread];
        row.next += 1;
        row.progress = Progress::Begin;
        if let Some(object) = row.uses.take() {
            row.duties.push_back(Duty::Close(Holder::Temporary(row.object), object));
        }
    }

    fn first_step(&mut self, thread: ThreadIndex, instruction: &Instruction) -> (Part, Option<i32>) {
        let refused = self.refused_at_first(thread, instruction);
        if let Some((register, kind)) = instruction.looks_up() {
            return (Part::Look, refused.or_else(|| self.look(thread, register, kind)));
        }
        match instruction {
            Instruction::Open { kind, name, .. } => (Part::Seek, refused.or_else(|| self.seek(thread, *kind, *name))),
            Instruction::Connect { name, .. } => {
                (Part::Seek, refused.or_else(|| self.seek(thread, Kind::Server, *name)))
            }
            Instruction::Read(_) | Instruction::Write(_) => {
                (Part::Piece, self.step_without_object(thread, instruction, Progress::Begin))
            }
            _ => (Part::Do, refused.or_else(|| self.step_without_object(thread, instruction, Progress::Begin))),
        }
    }

    /// What the first step answers before all else: a thread with a fast mutex may not block, and a status that is
    /// pending can't be given to a second request.
    fn refused_at_first(&self, thread: ThreadIndex, instruction: &Instruction) -> Option<i32> {
        let row = &self.threads[thread];
        let is_pending = |status: u8| row.statuses[usize::from(status)] == PENDING;
        let may_not_block = row.fast_mutex.is_some() && instruction.may_block();
        (may_not_block || instruction.sets_status().is_some_and(is_pending)).then_some(IN_USE)
    }

    /// A step that isn't the first.
    fn later_step(&mut self, thread: ThreadIndex, instruction: &Instruction, progress: Progress) -> Option<i32> {
        match self.threads[thread].uses {
            Some(object) => self.step_with_object(thread, instruction, object, progress),
            None => self.step_without_object(thread, instruction, progress),
        }
    }

    /// A step of an instruction that uses an object.
    fn step_with_object(
        &mut self,
        thread: ThreadIndex,
        instruction: &Instruction,
        object: ObjectNumber,
        progress: Progress,
    ) -> Option<i32> {
        let has_waited = matches!(progress, Progress::Waited);
        let shared = self.shared_table(thread);
        match *instruction {
            Instruction::Open { to, .. } => Some(self.answer_handle(thread, shared, object, to)),
            Instruction::Dup { to, .. } => Some(self.duplicate(thread, shared, object, to)),
            Instruction::DupLocal { to, .. } => Some(self.duplicate(thread, TableOf::Thread(thread), object, to)),
            Instruction::Lock { .. } | Instruction::Wait { .. } if has_waited => Some(0),
            Instruction::Lock { .. } => self.lock(thread, object),
            Instruction::Unlock { .. } => Some(self.unlock(thread, object)),
            Instruction::Wait { .. } => self.wait_semaphore(thread, object),
            Instruction::Signal { .. } => Some(self.signal_semaphore(object)),
            Instruction::Suspend { .. } => Some(either(self.suspend(object))),
            Instruction::Resume { .. } => Some(either(self.resume(object))),
            Instruction::Priority { priority, .. } => Some(either(self.set_priority(object, priority))),
            Instruction::End { exit, .. } => Some(either(self.end(object, exit))),
            Instruction::ExitType { .. } => Some(self.exit_type(object)),
            Instruction::Logon { status, .. } => Some(self.logon(thread, object, status)),
            Instruction::Connect { slots, .. } => self.make_session(thread, object, slots),
            Instruction::Send { function, status, arguments, .. } => {
                Some(self.send(thread, object, function, status, arguments))
            }
            Instruction::Call { .. } if has_waited => Some(self.threads[thread].reply),
            Instruction::Call { function, arguments, .. } => self.call(thread, object, function, arguments),
            Instruction::Receive { to, .. } => self.receive(thread, object, to),
            _ => unreachable!("an instruction that uses an object"),
        }
    }

    /// A step of an instruction that uses no object.
    fn step_without_object(
        &mut self,
        thread: ThreadIndex,
        instruction: &Instruction,
        progress: Progress,
    ) -> Option<i32> {
        match *instruction {
            Instruction::CreateMutex { name, to } => Some(self.create_mutex(thread, name, to)),
            Instruction::CreateSemaphore { name, count, to } => Some(self.create_semaphore(thread, name, count, to)),
            Instruction::Close { handle } => Some(self.close(thread, handle)),
            Instruction::Exit { reason } => self.exit(thread, reason),
            Instruction::Queue { call } => Some(i32::from(self.queue_call(&call))),
            Instruction::Request { device, status } => Some(self.request(thread, device, status)),
            Instruction::Cancel { device } => Some(self.cancel(thread, device)),
            Instruction::WaitAny => self.wait_any(thread),
            Instruction::WaitFor { status } => self.wait_for(thread, status),
            Instruction::Status { status } => Some(self.status(thread, status)),
            Instruction::Server { name, to } => Some(self.make_server(thread, name, to)),
            Instruction::Connect { to, .. } => self.connect_step(thread, progress, to),
            Instruction::Complete { message, code } => Some(self.complete(thread, message, code)),
            Instruction::Function { message } => Some(self.function(thread, message)),
            Instruction::Read(copying) => self.read(thread, &copying, copied(progress)).unwrap_or_else(Some),
            Instruction::Write(copying) => self.write(thread, &copying, copied(progress)).unwrap_or_else(Some),
            Instruction::Fill { at, length, byte } => Some(self.fill(thread, at, length, byte)),
            Instruction::Peek { at } => Some(self.peek(thread, at)),
            _ => self.fast_step(thread, instruction, progress),
        }
    }

    /// A step of an instruction that kernel threads alone have.
    fn fast_step(&mut self, thread: ThreadIndex, instruction: &Instruction, progress: Progress) -> Option<i32> {
        match *instruction {
            Instruction::FastLock { mutex } => self.lock_fast(thread, mutex),
            Instruction::FastUnlock { mutex } => Some(self.unlock_fast(thread, mutex)),
            Instruction::FastWait if matches!(progress, Progress::Waited) => Some(0),
            Instruction::FastWait => self.wait_fast(thread),
            Instruction::FastSignal { thread: name } => Some(self.signal_named(&name)),
            Instruction::Enter => {
                self.threads[thread].critical += 1;
                Some(0)
            }
            Instruction::Leave => Some(self.leave(thread)),
            _ => unreachable!("an instruction that uses no object"),
        }
    }

    fn connect_step(&mut self, thread: ThreadIndex, progress: Progress, to: u8) -> Option<i32> {
        match progress {
            Progress::Send { session, handle } => self.send_connect(thread, session, handle),
            Progress::Connecting { handle } => Some(self.end_connect(thread, handle, to)),
            _ => unreachable!("a step of a connect"),
        }
    }
}
