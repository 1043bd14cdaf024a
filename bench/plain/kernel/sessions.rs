//! The instructions of servers and their clients.

use super::codes::{ALREADY_EXISTS, BAD_HANDLE, OVERFLOW, SERVER_BUSY, SERVER_TERMINATED};
use super::handles::place_of;
use super::names::TableOf;
use super::objects::Body;
use super::servers::{Server, Session, Way, CONNECT, NO_ARGUMENTS};
use super::thread::{Duty, Progress, ThreadIndex, Waiting};
use super::Kernel;
use crate::entry::{Holder, ObjectNumber};
use crate::name::{Kind, Name};
use crate::script::instruction::{Argument, Slots};

impl Kernel<'_> {
    pub(super) fn make_server(&mut self, thread: ThreadIndex, name: Name, to: u8) -> i32 {
        if self.objects.find(Kind::Server, name).is_some() {
            return ALREADY_EXISTS;
        }
        if self.objects.is_full() || self.threads[thread].handles.is_full() {
            return OVERFLOW;
        }
        let server = self.objects.make(name, Body::Server(Server::new(thread)));
        self.threads[thread].servers.push(server);
        let holder = Holder::Owner(self.object_of(thread));
        self.plus(holder, server);
        self.answer_handle(thread, TableOf::Thread(thread), server, to)
    }

    /// Makes the session of a connect to the server that was opened.
    pub(super) fn make_session(&mut self, thread: ThreadIndex, server: ObjectNumber, slots: Slots) -> Option<i32> {
        if self.objects.server(server).is_closing {
            return Some(SERVER_TERMINATED);
        }
        if self.objects.is_full() || self.threads[thread].handles.is_full() {
            return Some(OVERFLOW);
        }
        let session = self.objects.make(Name::default(), Body::Session(Session::new(server, thread, slots)));
        self.objects.server(server).sessions.push(session);
        let handle = self.new_handle(TableOf::Thread(thread), session);
        self.plus(Holder::Link(session), server);
        let holder = Holder::Temporary(self.object_of(thread));
        self.owe(thread, Duty::Close(holder, server));
        self.threads[thread].uses = None;
        self.threads[thread].progress = Progress::Send { session, handle };
        None
    }

    /// Sends the message that connects, and waits.
    pub(super) fn send_connect(&mut self, thread: ThreadIndex, session: ObjectNumber, handle: u32) -> Option<i32> {
        let Some(server) = self.accepting_server(session) else {
            self.close_place(thread, TableOf::Thread(thread), place_of(handle));
            return Some(SERVER_TERMINATED);
        };
        self.objects.session(session).is_open = true;
        let message = self.message(session, thread, CONNECT, NO_ARGUMENTS, Way::Synchronous);
        self.accept(server, message);
        self.wait(thread, Waiting::Reply);
        self.threads[thread].progress = Progress::Connecting { handle };
        None
    }

    /// Answers the handle of the session, or the code with which the server refused.
    pub(super) fn end_connect(&mut self, thread: ThreadIndex, handle: u32, to: u8) -> i32 {
        let code = self.threads[thread].reply;
        if code != 0 {
            self.close_place(thread, TableOf::Thread(thread), place_of(handle));
            return code;
        }
        self.set_register(thread, to, handle)
    }

    pub(super) fn send(
        &mut self,
        thread: ThreadIndex,
        session: ObjectNumber,
        function: i32,
        status: u8,
        arguments: [Argument; 4],
    ) -> i32 {
        let Some(server) = self.accepting_server(session) else { return SERVER_TERMINATED };
        if !self.take_slot(session) {
            return SERVER_BUSY;
        }
        self.set_pending(thread, status);
        let message = self.message(session, thread, function, arguments, Way::Asynchronous(status));
        self.accept(server, message);
        0
    }

    pub(super) fn call(
        &mut self,
        thread: ThreadIndex,
        session: ObjectNumber,
        function: i32,
        arguments: [Argument; 4],
    ) -> Option<i32> {
        let Some(server) = self.accepting_server(session) else { return Some(SERVER_TERMINATED) };
        let message = self.message(session, thread, function, arguments, Way::Synchronous);
        self.accept(server, message);
        self.wait(thread, Waiting::Reply)
    }

    pub(super) fn receive(&mut self, thread: ThreadIndex, server: ObjectNumber, to: u8) -> Option<i32> {
        let mut messages = self.objects.server(server).messages.iter_mut();
        match messages.find(|message| !message.is_taken) {
            Some(message) => {
                message.is_taken = true;
                self.threads[thread].messages[usize::from(to)] = message.number;
                Some(message.number as i32)
            }
            None => self.wait(thread, Waiting::Message(server)),
        }
    }

    /// The taken message that a register names, of a server that the thread owns: the server, and the place there.
    pub(super) fn taken_message(&mut self, thread: ThreadIndex, register: u8) -> Option<(ObjectNumber, usize)> {
        let row = &self.threads[thread];
        let number = row.messages[usize::from(register)];
        let objects = &mut self.objects;
        row.servers.iter().find_map(|server| {
            let messages = &objects.server(*server).messages;
            let place = messages.binary_search_by_key(&number, |message| message.number).ok()?;
            messages[place].is_taken.then_some((*server, place))
        })
    }

    pub(super) fn complete(&mut self, thread: ThreadIndex, register: u8, code: i32) -> i32 {
        match self.taken_message(thread, register) {
            Some((server, place)) => {
                self.finish(thread, server, place, code);
                0
            }
            None => BAD_HANDLE,
        }
    }

    pub(super) fn function(&mut self, thread: ThreadIndex, register: u8) -> i32 {
        match self.taken_message(thread, register) {
            Some((server, place)) => self.objects.server(server).messages[place].function,
            None => BAD_HANDLE,
        }
    }
}
