//! What the lines of a file declare, before and behind the line that uses a name.

use super::lines::Lines;
use super::operands::number;
use crate::name::Name;
use std::collections::HashSet;

/// The names and interrupts of all lines, told by their first two words; also of lines that are bad.
#[derive(Default)]
pub struct Declared {
    /// Threads, with those of queues.
    pub threads: HashSet<Name>,
    pub queues: HashSet<Name>,
    pub deferred: HashSet<Name>,
    pub immediate: HashSet<Name>,
    pub interrupts: HashSet<i64>,
}

impl Declared {
    /// Looks through a whole file.
    pub fn by(text: &[u8]) -> Declared {
        let mut declared = Declared::default();
        let mut in_schedule = false;
        let mut lines = Lines::new(text);
        let mut words = Vec::new();
        while lines.take(&mut words).is_some() {
            in_schedule |= words.first().is_some_and(|first| *first == b"schedule");
            if let [first, second, ..] = words[..] {
                declared.add(first, second, in_schedule);
            }
        }
        declared
    }

    fn add(&mut self, first: &[u8], second: &[u8], in_schedule: bool) {
        if first == b"irq" && !in_schedule {
            self.interrupts.extend(number(second));
        }
        let Some(name) = Name::read(second) else { return };
        match first {
            b"thread" | b"kthread" => self.threads.insert(name),
            b"dfcq" => self.queues.insert(name) | self.threads.insert(name),
            b"dfc" => self.deferred.insert(name),
            b"idfc" => self.immediate.insert(name),
            _ => false,
        };
    }
}
