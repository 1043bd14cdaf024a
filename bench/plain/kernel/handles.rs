//! Handle tables.

use crate::entry::ObjectNumber;

/// The places of a table.
const PLACES: usize = 256;
/// The greatest instance of a place, behind which it begins anew.
const LAST_INSTANCE: u32 = 16_383;
/// What the handles of a thread's own table have besides.
const OF_THREAD: u32 = 1 << 30;

/// The handles of a process or of a thread. It grows as places are used.
pub struct HandleTable {
    places: Vec<Place>,
    /// No place below it is free.
    first_free: usize,
    of_thread: bool,
}

/// A place: how often it was taken, and by what it is now.
struct Place {
    instance: u32,
    object: Option<ObjectNumber>,
}

/// Whether a handle is of a thread's own table.
pub fn is_of_thread(handle: u32) -> bool {
    handle & OF_THREAD != 0
}

/// The place that a handle names.
pub fn place_of(handle: u32) -> u8 {
    handle as u8
}

impl HandleTable {
    pub fn new(of_thread: bool) -> HandleTable {
        HandleTable { places: Vec::new(), first_free: 0, of_thread }
    }

    pub fn is_full(&self) -> bool {
        self.first_free == PLACES
    }

    /// Puts an object into the least free place and gives its handle. The table may not be full.
    pub fn add(&mut self, object: ObjectNumber) -> u32 {
        let index = self.first_free;
        if index == self.places.len() {
            self.places.push(Place { instance: 0, object: None });
        }
        let place = &mut self.places[index];
        place.instance = place.instance % LAST_INSTANCE + 1;
        place.object = Some(object);
        let instance = place.instance;
        while self.places.get(self.first_free).is_some_and(|place| place.object.is_some()) {
            self.first_free += 1;
        }
        self.handle(index, instance)
    }

    fn handle(&self, index: usize, instance: u32) -> u32 {
        index as u32 + (instance << 16) + if self.of_thread { OF_THREAD } else { 0 }
    }

    /// The object that a handle names.
    pub fn look(&self, handle: u32) -> Option<ObjectNumber> {
        let index = (handle & 0xffff) as usize;
        let place = self.places.get(index)?;
        if self.handle(index, place.instance) == handle {
            place.object
        } else {
            None
        }
    }

    /// Frees a place, and tells what stood there.
    pub fn remove(&mut self, place: u8) -> Option<ObjectNumber> {
        let index = usize::from(place);
        self.first_free = self.first_free.min(index);
        self.places.get_mut(index)?.object.take()
    }

    /// The least place that is used.
    pub fn first_used(&self) -> Option<u8> {
        self.places.iter().position(|place| place.object.is_some()).map(|index| index as u8)
    }
}
