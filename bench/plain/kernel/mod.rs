//! The kernel: all its rows, and what happens in a slot.

mod boot;
mod codes;
mod copies;
mod death;
mod deferred;
mod handles;
mod instructions;
mod locks;
mod names;
mod nano;
mod objects;
mod ready;
mod references;
mod requests;
mod servers;
mod sessions;
mod thread;
mod threads;

use crate::entry::{Actor, Effect, Entry, ObjectNumber, Step};
use crate::name::Name;
use crate::script::instruction::Exit;
use crate::script::{Script, Slots};
use deferred::CallQueues;
use objects::{Body, Object, Objects};
use ready::ReadyQueues;
use requests::{Logon, Request};
use std::collections::HashMap;
use thread::{Process, Progress, Stage, Thread, ThreadIndex};

/// The devices that threads may ask.
const DEVICES: usize = 16;

/// A kernel that runs a script.
pub struct Kernel<'s> {
    script: &'s Script,
    objects: Objects,
    processes: Vec<Process>,
    threads: Vec<Thread<'s>>,
    threads_by_name: HashMap<Name, ThreadIndex>,
    ready: ReadyQueues,
    calls: CallQueues,
    /// The holder of each fast mutex.
    fast_mutexes: Vec<Option<ThreadIndex>>,
    devices: [Option<Request>; DEVICES],
    logons: Vec<Logon>,
    /// How many messages were accepted, and how many of the pool's slots are taken.
    accepted: u32,
    pool_used: u32,
    /// The threads of which this entry changed something that decides whether they are ready.
    changed: Vec<ThreadIndex>,
    entry: Entry,
}

/// An object that is left, as it is printed.
pub struct FinalRow {
    pub number: usize,
    pub kind: &'static str,
    pub name: Name,
    pub references: u32,
    pub thread: Option<Ending>,
}

/// How a thread stands at the end.
pub enum Ending {
    Live,
    Ended(Exit),
}

impl<'s> Kernel<'s> {
    /// Lets the actor of a slot act, once: of a line of several slots this is one.
    pub fn slot(&mut self, slots: Slots) -> &Entry {
        self.entry.effects.clear();
        self.entry.answer = None;
        match slots {
            Slots::Go(_) => self.go(),
            Slots::Tick => self.tick(),
            Slots::Interrupt(number) => self.interrupt(number),
        }
        if !self.changed.is_empty() {
            self.settle();
        }
        &self.entry
    }

    /// The objects that are left, in order of number.
    pub fn final_rows(&self) -> impl Iterator<Item = FinalRow> + '_ {
        self.objects.all().map(|(number, object)| FinalRow {
            number,
            kind: object.kind().word(),
            name: object.name,
            references: object.references,
            thread: self.ending(object),
        })
    }

    fn ending(&self, object: &Object) -> Option<Ending> {
        match object.body {
            Body::Thread(thread) => Some(self.threads[thread].exit.map_or(Ending::Live, Ending::Ended)),
            _ => None,
        }
    }

    fn go(&mut self) {
        if let Some(item) = self.calls.take_immediate() {
            self.entry.actor = Actor::Immediate;
            self.immediate(item);
            return;
        }
        match self.chosen() {
            Some(thread) => {
                self.entry.actor = Actor::Thread(self.threads[thread].object);
                self.act(thread);
            }
            None => {
                self.entry.actor = Actor::Idle;
                self.entry.step = Step::Wait;
            }
        }
    }

    /// The thread that acts: the first one that is ready, or whoever holds the fast mutex that this one wants.
    fn chosen(&self) -> Option<ThreadIndex> {
        let first = self.ready.first()?;
        let wanted = self.threads[first].wanted;
        let holder = wanted.and_then(|mutex| self.fast_mutexes[usize::from(mutex)]);
        Some(holder.unwrap_or(first))
    }

    fn tick(&mut self) {
        self.entry.actor = Actor::Tick;
        self.entry.step = Step::Turn;
        if let Some(first) = self.ready.first() {
            if self.threads[first].fast_mutex.is_none() {
                self.ready.turn();
            }
        }
    }

    /// What a thread does first of all that it has to do.
    fn act(&mut self, thread: ThreadIndex) {
        let row = &mut self.threads[thread];
        if let Progress::Sought { object, serial } = row.progress {
            self.come_back(thread, object, serial);
        } else if let Some(duty) = row.duties.pop_front() {
            self.do_duty(thread, duty);
        } else if row.stage == Stage::Doomed {
            self.reap(thread);
        } else if let Some(server) = self.closing_server(thread) {
            self.work_at(thread, server);
        } else if let Some(queue) = self.threads[thread].serves {
            self.run_call(thread, queue);
        } else if self.threads[thread].next < self.threads[thread].instructions.len() {
            self.step(thread);
        } else {
            self.end_of_list(thread);
        }
    }

    /// Lets those of the changed threads join the ready ones that are ready now, and leave them that aren't.
    fn settle(&mut self) {
        for place in 0..self.changed.len() {
            self.settle_thread(self.changed[place]);
        }
        self.changed.clear();
    }

    fn settle_thread(&mut self, thread: ThreadIndex) {
        let is_ready = self.is_ready(thread);
        let row = &mut self.threads[thread];
        if is_ready != row.is_listed {
            row.is_listed = is_ready;
            if is_ready {
                self.ready.add(thread, row.priority);
            } else {
                self.ready.remove(thread, row.priority);
            }
        }
    }

    fn is_ready(&self, thread: ThreadIndex) -> bool {
        let row = &self.threads[thread];
        row.may_act() && row.serves.map_or(true, |queue| !row.duties.is_empty() || self.calls.has_call(queue))
    }

    /// Ends a thread's wait.
    fn wake(&mut self, thread: ThreadIndex) {
        self.threads[thread].waiting = thread::Waiting::Nothing;
        self.changed.push(thread);
    }

    fn tell(&mut self, effect: Effect) {
        self.entry.effects.push(effect);
    }

    fn object_of(&self, thread: ThreadIndex) -> ObjectNumber {
        self.threads[thread].object
    }
}
