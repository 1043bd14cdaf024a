//! The threads that are ready, by priority and in order of arrival.

use super::thread::ThreadIndex;
use std::collections::VecDeque;

/// A queue for each of the 64 priorities.
pub struct ReadyQueues {
    queues: Vec<VecDeque<ThreadIndex>>,
    /// The bit of each priority whose queue isn't empty.
    used: u64,
}

impl ReadyQueues {
    pub fn new() -> ReadyQueues {
        ReadyQueues { queues: (0..64).map(|_| VecDeque::new()).collect(), used: 0 }
    }

    /// Adds a thread behind those of its priority.
    pub fn add(&mut self, thread: ThreadIndex, priority: u8) {
        self.queues[usize::from(priority)].push_back(thread);
        self.used |= 1 << priority;
    }

    pub fn remove(&mut self, thread: ThreadIndex, priority: u8) {
        let queue = &mut self.queues[usize::from(priority)];
        queue.retain(|other| *other != thread);
        if queue.is_empty() {
            self.used &= !(1 << priority);
        }
    }

    /// The thread of the greatest priority that is there longest.
    pub fn first(&self) -> Option<ThreadIndex> {
        let priority = self.used.checked_ilog2()?;
        self.queues[priority as usize].front().copied()
    }

    /// Puts the first thread behind those of its priority.
    pub fn turn(&mut self) {
        if let Some(priority) = self.used.checked_ilog2() {
            self.queues[priority as usize].rotate_left(1);
        }
    }
}
