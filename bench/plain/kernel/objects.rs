//! The objects: their numbers, names and references.

use super::locks::{Mutex, Semaphore};
use super::servers::{Server, Session};
use super::thread::ThreadIndex;
use crate::entry::ObjectNumber;
use crate::name::{Kind, Name};
use std::collections::BTreeMap;

/// The most objects that are made, and in version 2 the most that aren't swept.
const OBJECTS: usize = 4096;

/// The table of objects.
pub struct Objects {
    rows: Vec<Option<Object>>,
    /// By kind. Sessions have none.
    names: [BTreeMap<Name, ObjectNumber>; 6],
    /// Whether numbers of swept objects are used again.
    reuses: bool,
    /// In version 2, no number below it is free.
    first_free: usize,
    made: u32,
}

/// An object that isn't swept. It is dead if it has no references.
pub struct Object {
    pub name: Name,
    pub references: u32,
    /// How many objects were made before it.
    pub serial: u32,
    pub body: Body,
}

/// What an object is.
pub enum Body {
    Process,
    Thread(ThreadIndex),
    Mutex(Mutex),
    Semaphore(Semaphore),
    Server(Server),
    Session(Session),
}

impl Body {
    pub fn kind(&self) -> Kind {
        match self {
            Body::Process => Kind::Process,
            Body::Thread(_) => Kind::Thread,
            Body::Mutex(_) => Kind::Mutex,
            Body::Semaphore(_) => Kind::Semaphore,
            Body::Server(_) => Kind::Server,
            Body::Session(_) => Kind::Session,
        }
    }
}

impl Object {
    pub fn kind(&self) -> Kind {
        self.body.kind()
    }

    pub fn is_dead(&self) -> bool {
        self.references == 0
    }
}

impl Objects {
    pub fn new(reuses: bool) -> Objects {
        Objects { rows: Vec::new(), names: Default::default(), reuses, first_free: 0, made: 0 }
    }

    /// Whether no number is left.
    pub fn is_full(&self) -> bool {
        if self.reuses {
            self.first_free == OBJECTS
        } else {
            self.rows.len() == OBJECTS
        }
    }

    /// Makes an object without references. There must be a number left.
    pub fn make(&mut self, name: Name, body: Body) -> ObjectNumber {
        let number = if self.reuses { self.first_free } else { self.rows.len() };
        if body.kind() != Kind::Session {
            self.names[body.kind() as usize].insert(name, number as ObjectNumber);
        }
        if number == self.rows.len() {
            self.rows.push(None);
        }
        self.rows[number] = Some(Object { name, references: 0, serial: self.made, body });
        self.made += 1;
        while self.rows.get(self.first_free).is_some_and(Option::is_some) {
            self.first_free += 1;
        }
        number as ObjectNumber
    }

    /// The object of this kind and name.
    pub fn find(&self, kind: Kind, name: Name) -> Option<ObjectNumber> {
        self.names[kind as usize].get(&name).copied()
    }

    /// Removes a dead object.
    pub fn sweep(&mut self, number: ObjectNumber) {
        self.first_free = self.first_free.min(usize::from(number));
        if let Some(object) = self.rows[usize::from(number)].take() {
            if object.kind() != Kind::Session {
                self.names[object.kind() as usize].remove(&object.name);
            }
        }
    }

    /// The object of a number, if it isn't swept.
    pub fn get(&self, number: ObjectNumber) -> Option<&Object> {
        self.rows.get(usize::from(number))?.as_ref()
    }

    /// The object of a number that something refers to.
    pub fn at(&self, number: ObjectNumber) -> &Object {
        self.rows[usize::from(number)].as_ref().expect("an object that isn't swept")
    }

    /// The same, to be changed.
    pub fn at_mut(&mut self, number: ObjectNumber) -> &mut Object {
        self.rows[usize::from(number)].as_mut().expect("an object that isn't swept")
    }

    /// All objects that aren't swept, in order of number.
    pub fn all(&self) -> impl Iterator<Item = (usize, &Object)> {
        self.rows.iter().enumerate().filter_map(|(number, row)| Some((number, row.as_ref()?)))
    }

    pub fn mutex(&mut self, number: ObjectNumber) -> &mut Mutex {
        match &mut self.at_mut(number).body {
            Body::Mutex(mutex) => mutex,
            _ => unreachable!("a mutex"),
        }
    }

    pub fn semaphore(&mut self, number: ObjectNumber) -> &mut Semaphore {
        match &mut self.at_mut(number).body {
            Body::Semaphore(semaphore) => semaphore,
            _ => unreachable!("a semaphore"),
        }
    }

    pub fn server(&mut self, number: ObjectNumber) -> &mut Server {
        match &mut self.at_mut(number).body {
            Body::Server(server) => server,
            _ => unreachable!("a server"),
        }
    }

    pub fn session(&mut self, number: ObjectNumber) -> &mut Session {
        match &mut self.at_mut(number).body {
            Body::Session(session) => session,
            _ => unreachable!("a session"),
        }
    }
}
