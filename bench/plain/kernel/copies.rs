//! Copies between a client's memory and the server's, in pieces.

use super::codes::{ARGUMENT, BAD_DESCRIPTOR, BAD_HANDLE, DIED, OVERFLOW};
use super::thread::{Progress, ThreadIndex};
use super::Kernel;
use crate::entry::ObjectNumber;
use crate::script::instruction::{Argument, Copying};

/// The bytes of a piece.
const PIECE: u16 = 64;
/// The bytes of a process's memory.
const MEMORY: u16 = 1024;

/// A copy that may be made: whose message it is of, and the client's descriptor.
struct Allowed {
    server: ObjectNumber,
    place: usize,
    client: ThreadIndex,
    offset: u16,
    length: u16,
    max: u16,
}

impl Kernel<'_> {
    /// Copies the next piece from the client's memory.
    pub(super) fn read(&mut self, thread: ThreadIndex, copying: &Copying, done: u16) -> Result<Option<i32>, i32> {
        let allowed = self.allowed(thread, copying)?;
        let whole = copying.length.min(allowed.length - copying.offset);
        let piece = PIECE.min(whole - done);
        let from = allowed.offset + copying.offset + done;
        self.copy((allowed.client, from), (thread, copying.at + done), piece);
        Ok(self.end_piece(thread, done + piece, whole).then_some(i32::from(whole)))
    }

    /// Copies the next piece to the client's memory. The last one sets the descriptor's length.
    pub(super) fn write(&mut self, thread: ThreadIndex, copying: &Copying, done: u16) -> Result<Option<i32>, i32> {
        let Allowed { server, place, client, offset, max, .. } = self.allowed(thread, copying)?;
        if copying.offset + copying.length > max {
            return Err(OVERFLOW);
        }
        let piece = PIECE.min(copying.length - done);
        let to = offset + copying.offset + done;
        self.copy((thread, copying.at + done), (client, to), piece);
        if !self.end_piece(thread, done + piece, copying.length) {
            return Ok(None);
        }
        let message = &mut self.objects.server(server).messages[place];
        let length = copying.offset + copying.length;
        message.arguments[usize::from(copying.argument)] = Argument::Descriptor { offset, length, max };
        Ok(Some(0))
    }

    /// Whether the copy may be made; a server's thread may have lost its client since the last piece.
    fn allowed(&mut self, thread: ThreadIndex, copying: &Copying) -> Result<Allowed, i32> {
        let (server, place) = self.taken_message(thread, copying.message).ok_or(BAD_HANDLE)?;
        let message = &self.objects.server(server).messages[place];
        let client = message.client;
        let argument = message.arguments[usize::from(copying.argument)];
        if !self.threads[client].is_live() {
            return Err(DIED);
        }
        let Argument::Descriptor { offset, length, max } = argument else { return Err(BAD_DESCRIPTOR) };
        if length > max || offset + max > MEMORY {
            return Err(BAD_DESCRIPTOR);
        }
        if copying.offset > length || copying.at + copying.length > MEMORY {
            return Err(ARGUMENT);
        }
        Ok(Allowed { server, place, client, offset, length, max })
    }

    /// Copies bytes from a place of one thread's memory to one of another's. All are read before one is written.
    fn copy(&mut self, from: (ThreadIndex, u16), to: (ThreadIndex, u16), count: u16) {
        let (from_place, to_place, count) = (usize::from(from.1), usize::from(to.1), usize::from(count));
        let mut bytes = [0; PIECE as usize];
        bytes[..count].copy_from_slice(&self.memory(from.0)[from_place..from_place + count]);
        self.memory(to.0)[to_place..to_place + count].copy_from_slice(&bytes[..count]);
    }

    /// Notes what is copied by now, and tells whether that is all.
    fn end_piece(&mut self, thread: ThreadIndex, done: u16, whole: u16) -> bool {
        self.threads[thread].progress = Progress::Copied(done);
        done == whole
    }
}
