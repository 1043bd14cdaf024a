//! The death of threads.

use super::codes::IN_USE;
use super::names::TableOf;
use super::thread::{Stage, ThreadIndex, Waiting};
use super::Kernel;
use crate::entry::{Effect, Holder, Step};
use crate::script::instruction::Exit;

impl Kernel<'_> {
    pub(super) fn exit(&mut self, thread: ThreadIndex, reason: i32) -> Option<i32> {
        if self.threads[thread].is_protected() {
            return Some(IN_USE);
        }
        self.doom(thread, Exit::kill(reason));
        None
    }

    /// A protection of a thread ended. If nothing protects it any more, it may be stopped now, and a noted exit dooms
    /// it.
    pub(super) fn end_protection(&mut self, thread: ThreadIndex) {
        self.changed.push(thread);
        let row = &self.threads[thread];
        if let Some(exit) = row.noted {
            if !row.is_protected() {
                self.doom(thread, exit);
            }
        }
    }

    /// A thread dies from here on: it waits for nothing, and nothing will be signalled to it.
    pub(super) fn doom(&mut self, thread: ThreadIndex, exit: Exit) {
        let row = &mut self.threads[thread];
        row.stage = Stage::Doomed;
        row.exit = Some(exit);
        row.noted = None;
        row.suspensions = 0;
        row.wanted = None;
        match row.waiting {
            Waiting::Mutex(object) => self.objects.mutex(object).waiters.retain(|waiter| *waiter != thread),
            Waiting::Semaphore(object) => self.objects.semaphore(object).waiters.retain(|waiter| *waiter != thread),
            _ => (),
        }
        for device in &mut self.devices {
            device.take_if(|request| request.thread == thread);
        }
        self.logons.retain(|logon| logon.thread != thread);
        for server in self.threads[thread].servers.clone() {
            self.begin_closing(server);
        }
        let object = self.object_of(thread);
        self.tell(Effect::Doom(object));
        self.wake(thread);
    }

    /// A doomed thread gives up the first of what it has, or is cleaned.
    pub(super) fn reap(&mut self, thread: ThreadIndex) {
        if let Some(mutex) = self.threads[thread].mutexes.first() {
            self.entry.step = Step::Free;
            self.release(thread, *mutex);
        } else if let Some(server) = self.closing_server(thread) {
            self.work_at(thread, server);
        } else if let Some(object) = self.threads[thread].uses.take() {
            self.entry.step = Step::Drop;
            let holder = Holder::Temporary(self.object_of(thread));
            self.minus(thread, holder, object);
        } else if let Some((table, place)) = self.last_handles(thread) {
            self.entry.step = Step::Shut;
            self.close_place(thread, table, place);
        } else if let Some(place) = self.logons.iter().position(|logon| logon.on == thread) {
            self.entry.step = Step::Tell;
            self.answer_logon(place);
        } else {
            self.clean(thread);
        }
    }

    /// The first handle that is a doomed thread's to close: of its own table, and then, if it is the only thread of its
    /// process that isn't cleaned, of the process's.
    fn last_handles(&self, thread: ThreadIndex) -> Option<(TableOf, u8)> {
        let row = &self.threads[thread];
        if let Some(place) = row.handles.first_used() {
            return Some((TableOf::Thread(thread), place));
        }
        let process = &self.processes[row.process];
        let place = if process.threads == 1 { process.handles.first_used() } else { None };
        Some((TableOf::Process(row.process), place?))
    }

    fn answer_logon(&mut self, place: usize) {
        let logon = self.logons.remove(place);
        if let Some(exit) = self.threads[logon.on].exit {
            if self.threads[logon.thread].is_live() {
                self.signal(logon.thread, logon.status, exit.reason);
            }
        }
    }

    fn clean(&mut self, thread: ThreadIndex) {
        self.entry.step = Step::Clean;
        let row = &mut self.threads[thread];
        row.stage = Stage::Cleaned;
        self.processes[row.process].threads -= 1;
        self.changed.push(thread);
        self.queue_burial(thread);
    }

    /// A thread at the end of its list ends, or first gives up what protects it.
    pub(super) fn end_of_list(&mut self, thread: ThreadIndex) {
        if self.threads[thread].is_protected() {
            self.entry.step = Step::Flush;
            self.give_fast(thread);
            self.threads[thread].critical = 0;
            self.end_protection(thread);
        } else {
            self.entry.step = Step::End;
            self.doom(thread, Exit::kill(0));
        }
    }
}
