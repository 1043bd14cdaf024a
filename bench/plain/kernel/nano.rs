//! Fast semaphores, fast mutexes and critical sections.

use super::codes::{DIED, GENERAL};
use super::thread::{Progress, ThreadIndex, Waiting};
use super::Kernel;
use crate::entry::{Effect, Lock};
use crate::name::Name;

impl Kernel<'_> {
    pub(super) fn wait_fast(&mut self, thread: ThreadIndex) -> Option<i32> {
        if self.threads[thread].fast_signals == 0 {
            return self.wait(thread, Waiting::FastSignal);
        }
        self.threads[thread].fast_signals -= 1;
        Some(0)
    }

    pub(super) fn signal_named(&mut self, name: &Name) -> i32 {
        let thread = self.threads_by_name[name];
        if !self.threads[thread].is_live() {
            return DIED;
        }
        self.signal_fast(thread);
        0
    }

    /// Takes a fast mutex. While another holds it the thread wants it, and stays ready.
    pub(super) fn lock_fast(&mut self, thread: ThreadIndex, mutex: u8) -> Option<i32> {
        let holder = &mut self.fast_mutexes[usize::from(mutex)];
        let row = &mut self.threads[thread];
        if holder.is_some() {
            row.wanted = Some(mutex);
            row.progress = Progress::Waited;
            return None;
        }
        *holder = Some(thread);
        row.wanted = None;
        row.fast_mutex = Some(mutex);
        let object = row.object;
        self.tell(Effect::Take(object, Lock::Fast(mutex)));
        Some(0)
    }

    pub(super) fn unlock_fast(&mut self, thread: ThreadIndex, mutex: u8) -> i32 {
        if self.threads[thread].fast_mutex != Some(mutex) {
            return GENERAL;
        }
        self.give_fast(thread);
        self.end_protection(thread);
        0
    }

    /// Gives up the fast mutex that a thread holds, if it holds one.
    pub(super) fn give_fast(&mut self, thread: ThreadIndex) {
        if let Some(mutex) = self.threads[thread].fast_mutex.take() {
            self.fast_mutexes[usize::from(mutex)] = None;
            let object = self.object_of(thread);
            self.tell(Effect::Give(object, Lock::Fast(mutex)));
        }
    }

    pub(super) fn leave(&mut self, thread: ThreadIndex) -> i32 {
        let row = &mut self.threads[thread];
        if row.critical == 0 {
            return GENERAL;
        }
        row.critical -= 1;
        self.end_protection(thread);
        0
    }
}
