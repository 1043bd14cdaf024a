//! Mutexes and semaphores.

use super::codes::{GENERAL, OVERFLOW};
use super::thread::{Duty, Progress, ThreadIndex, Waiting};
use super::Kernel;
use crate::entry::{Effect, Holder, Lock, ObjectNumber};
use std::cmp::Reverse;

/// A mutex, with its waiters in order of waiting.
#[derive(Default)]
pub struct Mutex {
    pub owner: Option<ThreadIndex>,
    pub level: u32,
    pub waiters: Vec<ThreadIndex>,
}

/// A semaphore, with its waiters in order of waiting.
pub struct Semaphore {
    pub count: i32,
    pub waiters: Vec<ThreadIndex>,
}

impl Kernel<'_> {
    pub(super) fn lock(&mut self, thread: ThreadIndex, object: ObjectNumber) -> Option<i32> {
        let mutex = self.objects.mutex(object);
        match mutex.owner {
            None => self.take_mutex(thread, object),
            Some(owner) if owner == thread => mutex.level += 1,
            Some(_) => {
                mutex.waiters.push(thread);
                return self.wait(thread, Waiting::Mutex(object));
            }
        }
        Some(0)
    }

    pub(super) fn unlock(&mut self, thread: ThreadIndex, object: ObjectNumber) -> i32 {
        let mutex = self.objects.mutex(object);
        if mutex.owner != Some(thread) {
            return GENERAL;
        }
        mutex.level -= 1;
        if mutex.level == 0 {
            self.release(thread, object);
        }
        0
    }

    pub(super) fn wait_semaphore(&mut self, thread: ThreadIndex, object: ObjectNumber) -> Option<i32> {
        let semaphore = self.objects.semaphore(object);
        if semaphore.count == 0 {
            semaphore.waiters.push(thread);
            return self.wait(thread, Waiting::Semaphore(object));
        }
        semaphore.count -= 1;
        Some(0)
    }

    pub(super) fn signal_semaphore(&mut self, object: ObjectNumber) -> i32 {
        let semaphore = self.objects.semaphore(object);
        if semaphore.waiters.is_empty() {
            if semaphore.count == i32::MAX {
                return OVERFLOW;
            }
            semaphore.count += 1;
            return 0;
        }
        let mut waiters = std::mem::take(&mut semaphore.waiters);
        if let Some(served) = self.take_best(&mut waiters) {
            self.wake(served);
        }
        self.objects.semaphore(object).waiters = waiters;
        0
    }

    /// Begins a wait, whose end is the instruction's next step.
    pub(super) fn wait(&mut self, thread: ThreadIndex, what: Waiting) -> Option<i32> {
        self.threads[thread].waiting = what;
        self.threads[thread].progress = Progress::Waited;
        self.changed.push(thread);
        None
    }

    /// Takes the waiter of the greatest priority that waits longest.
    fn take_best(&self, waiters: &mut Vec<ThreadIndex>) -> Option<ThreadIndex> {
        let places = 0..waiters.len();
        let best = places.min_by_key(|place| Reverse(self.threads[waiters[*place]].priority))?;
        Some(waiters.remove(best))
    }

    /// Gives a mutex away, to the best waiter if there is one. The close of the ownership is owed then.
    pub(super) fn release(&mut self, thread: ThreadIndex, object: ObjectNumber) {
        let giver = self.object_of(thread);
        self.threads[thread].mutexes.retain(|held| *held != object);
        self.tell(Effect::Give(giver, Lock::Mutex(object)));
        let mut mutex = std::mem::take(self.objects.mutex(object));
        let best = self.take_best(&mut mutex.waiters);
        self.objects.mutex(object).waiters = mutex.waiters;
        if let Some(waiter) = best {
            self.take_mutex(waiter, object);
            self.wake(waiter);
        }
        self.owe(thread, Duty::Close(Holder::Owner(giver), object));
    }

    fn take_mutex(&mut self, thread: ThreadIndex, object: ObjectNumber) {
        let taker = self.object_of(thread);
        let mutex = self.objects.mutex(object);
        mutex.owner = Some(thread);
        mutex.level = 1;
        self.threads[thread].mutexes.push(object);
        self.tell(Effect::Take(taker, Lock::Mutex(object)));
        self.plus(Holder::Owner(taker), object);
    }
}
