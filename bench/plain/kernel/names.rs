//! Objects that have names, their handles, and the memory of processes.

use super::codes::{ALREADY_EXISTS, ARGUMENT, BAD_HANDLE, NOT_FOUND, OVERFLOW, PERMISSION_DENIED};
use super::handles::{is_of_thread, place_of, HandleTable};
use super::locks::{Mutex, Semaphore};
use super::objects::{Body, Object};
use super::thread::{ProcessIndex, Progress, ThreadIndex};
use super::Kernel;
use crate::entry::{Effect, Holder, ObjectNumber, Part, Step};
use crate::name::{Kind, Name};

/// Whose handle table it is.
#[derive(Clone, Copy)]
pub enum TableOf {
    Process(ProcessIndex),
    Thread(ThreadIndex),
}

impl Kernel<'_> {
    /// The process's table, in which most handles of a thread stand.
    pub(super) fn shared_table(&self, thread: ThreadIndex) -> TableOf {
        TableOf::Process(self.threads[thread].process)
    }

    /// The table in which a thread's handle is looked up.
    fn table_of(&self, thread: ThreadIndex, handle: u32) -> TableOf {
        if is_of_thread(handle) {
            TableOf::Thread(thread)
        } else {
            self.shared_table(thread)
        }
    }

    pub(super) fn table(&mut self, of: TableOf) -> &mut HandleTable {
        match of {
            TableOf::Process(process) => &mut self.processes[process].handles,
            TableOf::Thread(thread) => &mut self.threads[thread].handles,
        }
    }

    fn holder(&self, of: TableOf, place: u8) -> Holder {
        match of {
            TableOf::Process(process) => Holder::ProcessHandle(self.processes[process].object, place),
            TableOf::Thread(thread) => Holder::ThreadHandle(self.object_of(thread), place),
        }
    }

    /// The object that a register names, of this kind if one is wanted.
    pub(super) fn look(&mut self, thread: ThreadIndex, register: u8, kind: Option<Kind>) -> Option<i32> {
        let handle = self.threads[thread].registers[usize::from(register)];
        let table = self.table_of(thread, handle);
        let found = self.table(table).look(handle);
        match found.filter(|object| kind.is_none_or(|kind| self.objects.at(*object).kind() == kind)) {
            Some(object) => {
                self.use_object(thread, object);
                self.threads[thread].progress = Progress::Found;
                None
            }
            None => Some(BAD_HANDLE),
        }
    }

    /// A thread's call uses an object from now on.
    fn use_object(&mut self, thread: ThreadIndex, object: ObjectNumber) {
        self.threads[thread].uses = Some(object);
        let holder = Holder::Temporary(self.object_of(thread));
        self.plus(holder, object);
    }

    /// A new handle, in a table that isn't full.
    pub(super) fn new_handle(&mut self, of: TableOf, object: ObjectNumber) -> u32 {
        let handle = self.table(of).add(object);
        let holder = self.holder(of, place_of(handle));
        self.plus(holder, object);
        handle
    }

    /// A new handle that goes to a register, if the table isn't full.
    pub(super) fn answer_handle(&mut self, thread: ThreadIndex, of: TableOf, object: ObjectNumber, to: u8) -> i32 {
        if self.table(of).is_full() {
            return OVERFLOW;
        }
        let handle = self.new_handle(of, object);
        self.set_register(thread, to, handle)
    }

    /// Puts a handle into a register, and answers it.
    pub(super) fn set_register(&mut self, thread: ThreadIndex, register: u8, handle: u32) -> i32 {
        self.threads[thread].registers[usize::from(register)] = handle;
        handle as i32
    }

    pub(super) fn create_mutex(&mut self, thread: ThreadIndex, name: Name, to: u8) -> i32 {
        self.create(thread, name, Body::Mutex(Mutex::default()), to)
    }

    pub(super) fn create_semaphore(&mut self, thread: ThreadIndex, name: Name, count: i32, to: u8) -> i32 {
        self.create(thread, name, Body::Semaphore(Semaphore { count, waiters: Vec::new() }), to)
    }

    fn create(&mut self, thread: ThreadIndex, name: Name, body: Body, to: u8) -> i32 {
        if self.objects.find(body.kind(), name).is_some() {
            return ALREADY_EXISTS;
        }
        let table = self.shared_table(thread);
        if self.objects.is_full() || self.table(table).is_full() {
            return OVERFLOW;
        }
        let object = self.objects.make(name, body);
        self.answer_handle(thread, table, object, to)
    }

    /// Finds an object by its name, and doesn't open it yet.
    pub(super) fn seek(&mut self, thread: ThreadIndex, kind: Kind, name: Name) -> Option<i32> {
        match self.objects.find(kind, name) {
            Some(object) => {
                let serial = self.objects.at(object).serial;
                self.threads[thread].progress = Progress::Sought { object, serial };
                self.tell(Effect::Seek(object));
                None
            }
            None => Some(NOT_FOUND),
        }
    }

    /// Opens the object that was found, if it isn't dead or swept by now. A doomed thread isn't answered.
    pub(super) fn come_back(&mut self, thread: ThreadIndex, object: ObjectNumber, serial: u32) {
        let instruction = self.instruction_of(thread);
        self.entry.step = Step::Instruction(instruction.word(), Part::Return);
        let is_there = |found: &Object| found.serial == serial && !found.is_dead();
        if self.objects.get(object).is_some_and(is_there) {
            self.use_object(thread, object);
            self.threads[thread].progress = Progress::Found;
            return;
        }
        self.tell(Effect::Missed(object));
        if self.threads[thread].is_live() {
            self.answer(thread, NOT_FOUND);
        } else {
            self.threads[thread].progress = Progress::Begin;
        }
    }

    /// A second handle of an object, which may be no server and no session.
    pub(super) fn duplicate(&mut self, thread: ThreadIndex, of: TableOf, object: ObjectNumber, to: u8) -> i32 {
        match self.objects.at(object).kind() {
            Kind::Server | Kind::Session => PERMISSION_DENIED,
            _ => self.answer_handle(thread, of, object, to),
        }
    }

    pub(super) fn close(&mut self, thread: ThreadIndex, register: u8) -> i32 {
        let handle = self.threads[thread].registers[usize::from(register)];
        let table = self.table_of(thread, handle);
        if self.table(table).look(handle).is_none() {
            return BAD_HANDLE;
        }
        self.close_place(thread, table, place_of(handle));
        0
    }

    /// Closes the handle at a place of a table. A server begins to close, and the server of an open session is told.
    pub(super) fn close_place(&mut self, actor: ThreadIndex, of: TableOf, place: u8) {
        let Some(object) = self.table(of).remove(place) else { return };
        match self.objects.at(object).kind() {
            Kind::Server => self.begin_closing(object),
            Kind::Session => self.disconnect(object),
            _ => (),
        }
        let holder = self.holder(of, place);
        self.minus(actor, holder, object);
    }

    /// The memory of a thread's process.
    pub(super) fn memory(&mut self, thread: ThreadIndex) -> &mut [u8] {
        &mut self.processes[self.threads[thread].process].memory
    }

    pub(super) fn fill(&mut self, thread: ThreadIndex, at: u16, length: u16, byte: u8) -> i32 {
        let places = usize::from(at)..usize::from(at) + usize::from(length);
        match self.memory(thread).get_mut(places) {
            Some(bytes) => {
                bytes.fill(byte);
                0
            }
            None => ARGUMENT,
        }
    }

    pub(super) fn peek(&mut self, thread: ThreadIndex, at: u16) -> i32 {
        i32::from(self.memory(thread)[usize::from(at)])
    }
}
