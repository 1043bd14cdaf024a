//! Calls on threads.

use super::codes::{DIED, GENERAL, OVERFLOW, PERMISSION_DENIED};
use super::objects::Body;
use super::requests::Logon;
use super::thread::ThreadIndex;
use super::Kernel;
use crate::entry::ObjectNumber;
use crate::script::instruction::{Exit, ExitKind};

/// The greatest suspend count.
const SUSPENSIONS: u8 = 127;
/// The type of the exit of a thread that lives.
const PENDING_EXIT: i32 = 3;

impl Kernel<'_> {
    /// The thread of an object.
    fn thread_of(&self, object: ObjectNumber) -> ThreadIndex {
        match self.objects.at(object).body {
            Body::Thread(thread) => thread,
            _ => unreachable!("a thread"),
        }
    }

    /// The thread of an object, if others may call on it.
    fn called(&self, object: ObjectNumber) -> Result<ThreadIndex, i32> {
        let thread = self.thread_of(object);
        let row = &self.threads[thread];
        if row.serves.is_some() {
            Err(PERMISSION_DENIED)
        } else if !row.is_live() {
            Err(DIED)
        } else {
            Ok(thread)
        }
    }

    pub(super) fn suspend(&mut self, object: ObjectNumber) -> Result<i32, i32> {
        let called = self.called(object)?;
        let row = &mut self.threads[called];
        if row.suspensions == SUSPENSIONS {
            return Err(OVERFLOW);
        }
        row.suspensions += 1;
        self.changed.push(called);
        Ok(0)
    }

    pub(super) fn resume(&mut self, object: ObjectNumber) -> Result<i32, i32> {
        let called = self.called(object)?;
        let row = &mut self.threads[called];
        row.suspensions = row.suspensions.checked_sub(1).ok_or(GENERAL)?;
        self.changed.push(called);
        Ok(0)
    }

    /// Sets a thread's priority. One that is ready arrives anew.
    pub(super) fn set_priority(&mut self, object: ObjectNumber, priority: u8) -> Result<i32, i32> {
        let called = self.called(object)?;
        let row = &mut self.threads[called];
        if row.is_listed {
            self.ready.remove(called, row.priority);
            self.ready.add(called, priority);
        }
        row.priority = priority;
        Ok(0)
    }

    /// Ends a thread, or notes its exit while it is protected.
    pub(super) fn end(&mut self, object: ObjectNumber, exit: Exit) -> Result<i32, i32> {
        let called = self.called(object)?;
        let row = &mut self.threads[called];
        if row.noted.is_some() {
            return Err(DIED);
        }
        if row.is_protected() {
            row.noted = Some(exit);
        } else {
            self.doom(called, exit);
        }
        Ok(0)
    }

    pub(super) fn exit_type(&self, object: ObjectNumber) -> i32 {
        match &self.threads[self.thread_of(object)].exit {
            None => PENDING_EXIT,
            Some(exit) => match exit.kind {
                ExitKind::Kill => 0,
                ExitKind::Terminate => 1,
                ExitKind::Panic => 2,
            },
        }
    }

    /// Asks to be told of a thread's death, which is done at once if it is cleaned.
    pub(super) fn logon(&mut self, thread: ThreadIndex, object: ObjectNumber, status: u8) -> i32 {
        let on = self.thread_of(object);
        self.set_pending(thread, status);
        match self.threads[on].exit {
            Some(exit) if self.threads[on].is_gone() => self.signal(thread, status, exit.reason),
            _ => self.logons.push(Logon { on, thread, status }),
        }
        0
    }
}
