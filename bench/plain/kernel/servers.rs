//! Servers, sessions and messages, and how a server ends.

use super::codes::SERVER_TERMINATED;
use super::thread::{Duty, ThreadIndex, Waiting};
use super::Kernel;
use crate::entry::{Effect, Holder, ObjectNumber, Signalled, Step};
use crate::script::instruction::{Argument, Slots};
use std::collections::VecDeque;

/// A server.
pub struct Server {
    pub owner: ThreadIndex,
    pub is_closing: bool,
    /// Its outstanding messages in order of acceptance.
    pub messages: VecDeque<Message>,
    /// The sessions that are linked to it, in order of making.
    pub sessions: Vec<ObjectNumber>,
}

/// A session.
pub struct Session {
    /// The server that it is linked to.
    pub server: Option<ObjectNumber>,
    pub client: ThreadIndex,
    pub slots: Slots,
    /// How many slots of its own are taken.
    pub used: u32,
    pub is_open: bool,
}

/// An outstanding message.
pub struct Message {
    pub number: u32,
    pub session: ObjectNumber,
    pub client: ThreadIndex,
    pub function: i32,
    pub arguments: [Argument; 4],
    pub way: Way,
    pub is_taken: bool,
}

/// How a message was sent, and so what is told of its end.
#[derive(Clone, Copy, PartialEq, Eq)]
pub enum Way {
    /// With a status of the client.
    Asynchronous(u8),
    /// The client waits.
    Synchronous,
    /// It tells of the close of a session.
    Disconnect,
}

/// The function of a message that connects, and of one that tells of a close.
pub const CONNECT: i32 = -1;
const DISCONNECT: i32 = -2;
/// The arguments of these.
pub const NO_ARGUMENTS: [Argument; 4] = [Argument::Number; 4];

impl Server {
    pub fn new(owner: ThreadIndex) -> Server {
        Server { owner, is_closing: false, messages: VecDeque::new(), sessions: Vec::new() }
    }
}

impl Session {
    pub fn new(server: ObjectNumber, client: ThreadIndex, slots: Slots) -> Session {
        Session { server: Some(server), client, slots, used: 0, is_open: false }
    }
}

impl Kernel<'_> {
    /// The server of a session, if it accepts messages.
    pub(super) fn accepting_server(&mut self, session: ObjectNumber) -> Option<ObjectNumber> {
        let server = self.objects.session(session).server?;
        if self.objects.server(server).is_closing {
            None
        } else {
            Some(server)
        }
    }

    /// A server accepts a message. The message refers to its session and its client.
    pub(super) fn accept(&mut self, server: ObjectNumber, message: Message) {
        let Message { number, session, client, .. } = message;
        let client = self.object_of(client);
        let row = self.objects.server(server);
        row.messages.push_back(message);
        let owner = row.owner;
        self.tell(Effect::Accept(number));
        self.plus(Holder::Message(number), session);
        self.plus(Holder::Message(number), client);
        if self.threads[owner].waiting == Waiting::Message(server) {
            self.wake(owner);
        }
    }

    /// A message of a session, with the next number.
    pub(super) fn message(
        &mut self,
        session: ObjectNumber,
        client: ThreadIndex,
        function: i32,
        arguments: [Argument; 4],
        way: Way,
    ) -> Message {
        self.accepted += 1;
        Message { number: self.accepted, session, client, function, arguments, way, is_taken: false }
    }

    /// Finishes a message of a server, by its place there. The thread owes the closes of what the message refers to.
    pub(super) fn finish(&mut self, thread: ThreadIndex, server: ObjectNumber, place: usize, code: i32) {
        let Some(message) = self.objects.server(server).messages.remove(place) else { return };
        let Message { number, session, client, .. } = message;
        self.tell(Effect::Finish(number, code));
        if message.function == CONNECT && code != 0 {
            self.objects.session(session).is_open = false;
        }
        if let Way::Asynchronous(_) = message.way {
            self.free_slot(session);
        }
        let client_object = self.object_of(client);
        if self.threads[client].is_live() {
            match message.way {
                Way::Asynchronous(status) => self.signal(client, status, code),
                Way::Synchronous => {
                    self.threads[client].reply = code;
                    self.tell(Effect::Signal(client_object, Signalled::Reply, code));
                    self.wake(client);
                }
                Way::Disconnect => (),
            }
        }
        self.owe(thread, Duty::Close(Holder::Message(number), session));
        self.owe(thread, Duty::Close(Holder::Message(number), client_object));
    }

    /// Takes a slot for a message of a session, if one is free.
    pub(super) fn take_slot(&mut self, session: ObjectNumber) -> bool {
        let row = self.objects.session(session);
        let (used, slots) = match row.slots {
            Slots::Own(slots) => (&mut row.used, u32::from(slots)),
            Slots::Pool => (&mut self.pool_used, self.script.pool),
        };
        let is_free = *used < slots;
        *used += u32::from(is_free);
        is_free
    }

    fn free_slot(&mut self, session: ObjectNumber) {
        let row = self.objects.session(session);
        match row.slots {
            Slots::Own(_) => row.used -= 1,
            Slots::Pool => self.pool_used -= 1,
        }
    }

    /// The session's handle is closed: if it is open, a message tells its server.
    pub(super) fn disconnect(&mut self, session: ObjectNumber) {
        let row = self.objects.session(session);
        let client = row.client;
        if std::mem::take(&mut row.is_open) {
            if let Some(server) = row.server {
                let message = self.message(session, client, DISCONNECT, NO_ARGUMENTS, Way::Disconnect);
                self.accept(server, message);
            }
        }
    }

    /// A server accepts no message any more, and its sessions aren't open.
    pub(super) fn begin_closing(&mut self, server: ObjectNumber) {
        let row = self.objects.server(server);
        if !std::mem::replace(&mut row.is_closing, true) {
            self.threads[row.owner].closing += 1;
        }
        for session in row.sessions.clone() {
            self.objects.session(session).is_open = false;
        }
    }

    /// The first closing server of a thread.
    pub(super) fn closing_server(&mut self, thread: ThreadIndex) -> Option<ObjectNumber> {
        let row = &self.threads[thread];
        if row.closing == 0 {
            return None;
        }
        row.servers.iter().copied().find(|server| self.objects.server(*server).is_closing)
    }

    /// The owner of a closing server takes it apart.
    pub(super) fn work_at(&mut self, thread: ThreadIndex, server: ObjectNumber) {
        let row = self.objects.server(server);
        if !row.messages.is_empty() {
            self.entry.step = Step::Finish;
            self.finish(thread, server, 0, SERVER_TERMINATED);
        } else if let Some(session) = row.sessions.first().copied() {
            self.entry.step = Step::Detach;
            self.unlink(session);
            self.minus(thread, Holder::Link(session), server);
        } else {
            self.entry.step = Step::Stop;
            self.threads[thread].servers.retain(|owned| *owned != server);
            self.threads[thread].closing -= 1;
            self.tell(Effect::Ended(server));
            let holder = Holder::Owner(self.object_of(thread));
            self.minus(thread, holder, server);
        }
    }

    /// Takes a session from its server, and tells which that was.
    pub(super) fn unlink(&mut self, session: ObjectNumber) -> Option<ObjectNumber> {
        let server = self.objects.session(session).server.take()?;
        self.objects.server(server).sessions.retain(|linked| *linked != session);
        Some(server)
    }
}
