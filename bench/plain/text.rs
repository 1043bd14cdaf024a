//! The printed text, which goes out in large pieces.

use crate::entry::{Actor, Effect, Entry, Holder, Lock, ObjectNumber, Part, Signalled, Step};
use crate::place::Place;
use std::io::{self, Write};

/// How many bytes are gathered before they go out.
const GATHERED: usize = 1 << 16;

/// The digits of the numbers from 0 to 99.
const PAIRS: [[u8; 2]; 100] = {
    let mut pairs = [[b'0'; 2]; 100];
    let mut number = 0;
    while number < 100 {
        pairs[number] = [b'0' + number as u8 / 10, b'0' + number as u8 % 10];
        number += 1;
    }
    pairs
};

/// Text on its way to standard output.
pub struct Text {
    bytes: Box<[u8; GATHERED + 512]>,
    length: usize,
}

impl Text {
    pub fn new() -> Text {
        Text { bytes: Box::new([0; GATHERED + 512]), length: 0 }
    }

    /// Adds these characters.
    pub fn add(&mut self, characters: &str) -> &mut Text {
        self.add_bytes(characters.as_bytes())
    }

    /// Adds one ASCII character.
    pub fn add_character(&mut self, character: u8) -> &mut Text {
        self.bytes[self.length] = character;
        self.length += 1;
        self
    }

    /// Adds the bytes of a name.
    pub fn add_bytes(&mut self, bytes: &[u8]) -> &mut Text {
        let end = self.length + bytes.len();
        self.bytes[self.length..end].copy_from_slice(bytes);
        self.length = end;
        self
    }

    /// Adds a number in decimal.
    pub fn add_number(&mut self, number: impl Into<i64>) -> &mut Text {
        let number = number.into();
        if (0..10).contains(&number) {
            return self.add_character(b'0' + number as u8);
        }
        if number < 0 {
            self.add_character(b'-');
        }
        self.add_digits(number.unsigned_abs())
    }

    /// Adds the digits of a number, which are found two by two from the last.
    fn add_digits(&mut self, mut number: u64) -> &mut Text {
        let mut digits = [[b'0'; 2]; 10];
        let mut first = digits.len();
        loop {
            first -= 1;
            digits[first] = PAIRS[(number % 100) as usize];
            number /= 100;
            if number == 0 {
                break;
            }
        }
        let digits = digits[first..].as_flattened();
        self.add_bytes(digits.strip_prefix(b"0").unwrap_or(digits))
    }

    /// Ends a line.
    pub fn end_line(&mut self) -> io::Result<()> {
        self.add_character(b'\n');
        if self.length >= GATHERED {
            self.flush()
        } else {
            Ok(())
        }
    }

    /// Writes what was gathered.
    pub fn flush(&mut self) -> io::Result<()> {
        let mut output = io::stdout().lock();
        output.write_all(&self.bytes[..self.length])?;
        self.length = 0;
        output.flush()
    }

    /// Adds the line of an entry.
    pub fn entry(&mut self, place: &Place, entry: &Entry) -> io::Result<()> {
        self.add_bytes(place.digits());
        self.actor(entry.actor);
        self.step(entry.step);
        for effect in &entry.effects {
            self.effect(*effect);
        }
        if let Some(answer) = entry.answer {
            self.add(" = ").add_number(answer);
        }
        self.end_line()
    }

    fn actor(&mut self, actor: Actor) -> &mut Text {
        match actor {
            Actor::Thread(number) => self.add(" t").add_number(number).add_character(b' '),
            Actor::Interrupt(number) => self.add(" irq").add_number(number).add_character(b' '),
            Actor::Immediate => self.add(" idfc "),
            Actor::Tick => self.add(" tick "),
            Actor::Idle => self.add(" idle "),
        }
    }

    fn step(&mut self, step: Step) -> &mut Text {
        match step {
            Step::Instruction(word, part) => self.add(word).part(part),
            Step::Run(name) => self.add_bytes(name.characters()).add(".run"),
            Step::Move(name) => self.add_bytes(name.characters()).add(".move"),
            Step::Interrupt => self.add("run"),
            Step::Turn => self.add("turn"),
            Step::Wait => self.add("wait"),
            Step::Drop => self.add("drop"),
            Step::Sweep => self.add("sweep"),
            Step::Finish => self.add("finish"),
            Step::Detach => self.add("detach"),
            Step::Stop => self.add("stop"),
            Step::Free => self.add("free"),
            Step::Shut => self.add("shut"),
            Step::Tell => self.add("tell"),
            Step::Clean => self.add("clean"),
            Step::Bury => self.add("bury"),
            Step::Flush => self.add("flush"),
            Step::End => self.add("end"),
        }
    }

    fn part(&mut self, part: Part) -> &mut Text {
        match part {
            Part::Look => self.add(".look"),
            Part::Seek => self.add(".seek"),
            Part::Return => self.add(".return"),
            Part::Make => self.add(".make"),
            Part::Send => self.add(".send"),
            Part::Piece => self.add(".piece"),
            Part::Do => self.add(".do"),
            Part::Done => self.add(".done"),
        }
    }

    fn effect(&mut self, effect: Effect) -> &mut Text {
        match effect {
            Effect::Plus(holder, object) => self.add(" +").holder(holder, object),
            Effect::Minus(holder, object) => self.add(" -").holder(holder, object),
            Effect::Dead(object) => self.add(" dead:").add_number(object),
            Effect::Swept(object) => self.add(" swept:").add_number(object),
            Effect::Seek(object) => self.add(" seek:").add_number(object),
            Effect::Missed(object) => self.add(" missed:").add_number(object),
            Effect::Accept(message) => self.add(" accept:").add_number(message),
            Effect::Finish(message, code) => {
                self.add(" finish:").add_number(message).add_character(b':').add_number(code)
            }
            Effect::Signal(thread, what, code) => {
                self.add(" signal:").add_number(thread).signalled(what).add_number(code)
            }
            Effect::Take(thread, lock) => self.add(" take:").add_number(thread).lock(lock),
            Effect::Give(thread, lock) => self.add(" give:").add_number(thread).lock(lock),
            Effect::Ended(object) => self.add(" ended:").add_number(object),
            Effect::Doom(thread) => self.add(" doom:").add_number(thread),
            Effect::Bury(thread) => self.add(" bury:").add_number(thread),
        }
    }

    fn holder(&mut self, holder: Holder, object: ObjectNumber) -> &mut Text {
        match holder {
            Holder::ProcessHandle(process, place) => {
                self.add_character(b'p').add_number(process).add_character(b'.').add_number(place)
            }
            Holder::ThreadHandle(thread, place) => {
                self.add_character(b't').add_number(thread).add_character(b'.').add_number(place)
            }
            Holder::Temporary(thread) => self.add("tmp").add_number(thread),
            Holder::Owner(thread) => self.add("own").add_number(thread),
            Holder::Link(from) => self.add("lnk").add_number(from),
            Holder::Message(message) => self.add("msg").add_number(message),
            Holder::Kernel => self.add("krn"),
        };
        self.add_character(b':').add_number(object)
    }

    fn signalled(&mut self, what: Signalled) -> &mut Text {
        match what {
            Signalled::Status(status) => self.add_character(b':').add_number(status).add_character(b':'),
            Signalled::Reply => self.add(":w:"),
        }
    }

    fn lock(&mut self, lock: Lock) -> &mut Text {
        match lock {
            Lock::Mutex(mutex) => self.add_character(b':').add_number(mutex),
            Lock::Fast(mutex) => self.add(":f").add_number(mutex),
        }
    }
}
