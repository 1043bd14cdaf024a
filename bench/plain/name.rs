//! Names, and the kinds of object that have them.

/// A name, or the category of a panic: 1 to 16 characters, and zeros behind them. What has no name has the empty one.
#[derive(Clone, Copy, PartialEq, Eq, PartialOrd, Ord, Hash, Default)]
pub struct Name([u8; 16]);

impl Name {
    /// The word as the name of a declaration or an object: lower-case letters, digits and `_`, a letter first.
    pub fn read(word: &[u8]) -> Option<Name> {
        let fits = word.first().is_some_and(u8::is_ascii_lowercase)
            && word.iter().all(|c| c.is_ascii_lowercase() || c.is_ascii_digit() || *c == b'_');
        if fits {
            Name::of(word)
        } else {
            None
        }
    }

    /// The word as the category of a panic: letters, digits, `_` and `-`.
    pub fn read_category(word: &[u8]) -> Option<Name> {
        let fits = !word.is_empty() && word.iter().all(|c| c.is_ascii_alphanumeric() || *c == b'_' || *c == b'-');
        if fits {
            Name::of(word)
        } else {
            None
        }
    }

    /// The bytes as they stand, if there are at most 16.
    pub fn of(word: &[u8]) -> Option<Name> {
        let mut bytes = [0; 16];
        bytes.get_mut(..word.len())?.copy_from_slice(word);
        Some(Name(bytes))
    }

    /// The characters.
    pub fn characters(&self) -> &[u8] {
        let length = self.0.iter().position(|c| *c == 0).unwrap_or(16);
        &self.0[..length]
    }
}

/// The kinds of object.
#[derive(Clone, Copy, PartialEq, Eq, PartialOrd, Ord, Hash)]
pub enum Kind {
    Process,
    Thread,
    Mutex,
    Semaphore,
    Server,
    Session,
}

impl Kind {
    /// The kind as it is printed.
    pub fn word(self) -> &'static str {
        match self {
            Kind::Process => "process",
            Kind::Thread => "thread",
            Kind::Mutex => "mutex",
            Kind::Semaphore => "semaphore",
            Kind::Server => "server",
            Kind::Session => "session",
        }
    }
}
