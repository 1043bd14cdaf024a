//! The words of a line, taken one after the other as what the line wants there.

use super::instruction::{Argument, Slots};
use super::refusal::Reason;
use crate::name::{Kind, Name};

/// The words that a line has behind its first. What isn't as wanted is noted, and a value of no meaning is given for
/// it.
pub struct Operands<'w, 'l> {
    words: &'w [&'l [u8]],
    fault: Option<Reason>,
}

impl<'w, 'l> Operands<'w, 'l> {
    pub fn new(words: &'w [&'l [u8]]) -> Self {
        Operands { words, fault: None }
    }

    /// The gravest fault of the words, if all were to be taken by now.
    pub fn fault(&self) -> Option<Reason> {
        if self.words.is_empty() {
            self.fault
        } else {
            Some(Reason::Count)
        }
    }

    /// Notes a fault. Of several the one that is tried first counts.
    pub fn note(&mut self, reason: Reason) {
        self.fault = Some(self.fault.map_or(reason, |fault| fault.min(reason)));
    }

    /// How many words are left.
    pub fn left(&self) -> usize {
        self.words.len()
    }

    /// The next word, and the empty one if none is left.
    pub fn word(&mut self) -> &'l [u8] {
        match self.words.split_first() {
            Some((word, rest)) => {
                self.words = rest;
                word
            }
            None => {
                self.note(Reason::Count);
                b""
            }
        }
    }

    /// All words that are left; at least one must be.
    pub fn rest(&mut self) -> &'w [&'l [u8]] {
        if self.words.is_empty() {
            self.note(Reason::Count);
        }
        std::mem::take(&mut self.words)
    }

    fn or_form<T: Default>(&mut self, value: Option<T>) -> T {
        value.unwrap_or_else(|| {
            self.note(Reason::Form);
            T::default()
        })
    }

    fn within(&mut self, value: Option<i64>, least: i64, most: i64) -> i64 {
        let value = self.or_form(value);
        if value < least || value > most {
            self.note(Reason::Range);
            return 0;
        }
        value
    }

    /// A number from `least` to `most`.
    pub fn number(&mut self, least: i64, most: i64) -> i64 {
        let value = number(self.word());
        self.within(value, least, most)
    }

    /// A number from 0 to `most`, of 8 bits.
    pub fn byte(&mut self, most: u8) -> u8 {
        self.number(0, i64::from(most)) as u8
    }

    /// A place or a length of memory, or another number up to `most`.
    pub fn length(&mut self, most: u16) -> u16 {
        self.number(0, i64::from(most)) as u16
    }

    /// The code of an exit, a completion or a device.
    pub fn code(&mut self) -> i32 {
        self.number(-2147483646, 2147483647) as i32
    }

    /// A number of 31 bits.
    pub fn count(&mut self) -> i32 {
        self.number(0, 2147483647) as i32
    }

    /// A letter and a number from 0 to `most`, as `r7`.
    pub fn lettered(&mut self, letter: u8, most: u8) -> u8 {
        let value = match self.word() {
            [first, digits @ ..] if *first == letter && digits.first() != Some(&b'-') => number(digits),
            _ => None,
        };
        self.within(value, 0, i64::from(most)) as u8
    }

    pub fn register(&mut self) -> u8 {
        self.lettered(b'r', 7)
    }

    pub fn message(&mut self) -> u8 {
        self.lettered(b'm', 7)
    }

    pub fn status(&mut self) -> u8 {
        self.lettered(b's', 15)
    }

    pub fn device(&mut self) -> u8 {
        self.lettered(b'd', 15)
    }

    pub fn fast_mutex(&mut self) -> u8 {
        self.lettered(b'f', 15)
    }

    pub fn priority(&mut self) -> u8 {
        self.byte(63)
    }

    pub fn name(&mut self) -> Name {
        let name = Name::read(self.word());
        self.or_form(name)
    }

    pub fn category(&mut self) -> Name {
        let category = Name::read_category(self.word());
        self.or_form(category)
    }

    /// A word that stands there as it is.
    pub fn exactly(&mut self, wanted: &[u8]) {
        if self.word() != wanted {
            self.note(Reason::Form);
        }
    }

    /// The kind of an object that is opened by its name.
    pub fn kind(&mut self) -> Kind {
        match self.word() {
            b"process" => Kind::Process,
            b"thread" => Kind::Thread,
            b"mutex" => Kind::Mutex,
            b"semaphore" => Kind::Semaphore,
            _ => {
                self.note(Reason::Form);
                Kind::Mutex
            }
        }
    }

    /// The slots of a session.
    pub fn slots(&mut self) -> Slots {
        match self.word() {
            b"pool" => Slots::Pool,
            word => Slots::Own(self.within(number(word), 1, 255) as u8),
        }
    }

    /// The four arguments of a message.
    pub fn arguments(&mut self) -> [Argument; 4] {
        [self.argument(), self.argument(), self.argument(), self.argument()]
    }

    fn argument(&mut self) -> Argument {
        match self.word() {
            [b'd', b':', parts @ ..] => self.descriptor(parts),
            word => {
                self.within(number(word), i64::from(i32::MIN), i64::from(i32::MAX));
                Argument::Number
            }
        }
    }

    fn descriptor(&mut self, parts: &[u8]) -> Argument {
        let mut parts = parts.split(|c| *c == b':');
        let mut part = || self.within(parts.next().and_then(number), 0, 1024) as u16;
        let (offset, length, max) = (part(), part(), part());
        if parts.next().is_some() {
            self.note(Reason::Form);
        }
        Argument::Descriptor { offset, length, max }
    }
}

/// The word as a number, if it is `0`, or digits without a zero before them and perhaps a `-` in front. One that is
/// beyond every range is as great as can be.
pub fn number(word: &[u8]) -> Option<i64> {
    let (sign, digits) = match word {
        [digit @ b'0'..=b'9'] => return Some(i64::from(digit - b'0')),
        [b'-', digits @ ..] => (-1, digits),
        digits => (1, digits),
    };
    if !matches!(digits.first(), Some(b'1'..=b'9')) {
        return None;
    }
    let mut value: i64 = 0;
    for digit in digits {
        if !digit.is_ascii_digit() {
            return None;
        }
        value = value.saturating_mul(10).saturating_add(i64::from(digit - b'0'));
    }
    Some(sign * value)
}
