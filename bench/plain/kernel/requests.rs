//! Requests at devices, and the statuses of threads.

use super::codes::{CANCEL, IN_USE, NOT_FOUND, PENDING};
use super::thread::{ThreadIndex, Waiting};
use super::Kernel;
use crate::entry::{Effect, Signalled};

/// An outstanding request at a device.
#[derive(Clone, Copy)]
pub struct Request {
    pub thread: ThreadIndex,
    pub status: u8,
}

/// A thread that wants to be told by a status of the death of another, `on`.
#[derive(Clone, Copy)]
pub struct Logon {
    pub on: ThreadIndex,
    pub thread: ThreadIndex,
    pub status: u8,
}

impl Kernel<'_> {
    pub(super) fn status(&self, thread: ThreadIndex, status: u8) -> i32 {
        self.threads[thread].statuses[usize::from(status)]
    }

    pub(super) fn set_pending(&mut self, thread: ThreadIndex, status: u8) {
        self.threads[thread].statuses[usize::from(status)] = PENDING;
    }

    /// Completes a status of a thread, which has one signal more.
    pub(super) fn signal(&mut self, thread: ThreadIndex, status: u8, code: i32) {
        let row = &mut self.threads[thread];
        row.statuses[usize::from(status)] = code;
        row.signals += 1;
        let is_over = match row.waiting {
            Waiting::AnySignal => true,
            Waiting::Status(waited) => row.statuses[usize::from(waited)] != PENDING,
            _ => false,
        };
        let object = row.object;
        self.tell(Effect::Signal(object, Signalled::Status(status), code));
        if is_over {
            self.wake(thread);
        }
    }

    pub(super) fn request(&mut self, thread: ThreadIndex, device: u8, status: u8) -> i32 {
        let place = &mut self.devices[usize::from(device)];
        if place.is_some() {
            return IN_USE;
        }
        *place = Some(Request { thread, status });
        self.set_pending(thread, status);
        0
    }

    pub(super) fn cancel(&mut self, thread: ThreadIndex, device: u8) -> i32 {
        let place = &mut self.devices[usize::from(device)];
        match place.take_if(|request| request.thread == thread) {
            Some(request) => {
                self.signal(thread, request.status, CANCEL);
                0
            }
            None => NOT_FOUND,
        }
    }

    pub(super) fn wait_any(&mut self, thread: ThreadIndex) -> Option<i32> {
        if self.threads[thread].signals == 0 {
            return self.wait(thread, Waiting::AnySignal);
        }
        self.threads[thread].signals -= 1;
        Some(0)
    }

    pub(super) fn wait_for(&mut self, thread: ThreadIndex, status: u8) -> Option<i32> {
        let value = self.status(thread, status);
        if value == PENDING || self.threads[thread].signals == 0 {
            return self.wait(thread, Waiting::Status(status));
        }
        self.threads[thread].signals -= 1;
        Some(value)
    }
}
