//! The commands, and how each ends.

use crate::entry::{Effect, Entry};
use crate::kernel::{Ending, FinalRow, Kernel};
use crate::made::Made;
use crate::place::Place;
use crate::script::instruction::{Exit, ExitKind};
use crate::script::refusal::Refusal;
use crate::script::{reader, Script};
use crate::text::Text;
use std::io::{self, Read};

/// The most bytes of a script.
const INPUT_BYTES: usize = 1_048_576;
/// The most rounds of a made script's clients.
const ROUNDS: u32 = 500;

/// What the words of the command line ask for.
pub enum Command {
    Run,
    Brief,
    Make(u64, u32),
    Load(u64, u32),
}

/// Why a command doesn't end well.
pub enum Fault {
    Usage,
    Refused,
    Read,
    Write,
    TooLarge,
}

impl Fault {
    /// The status of the process, and what is said on standard error.
    pub fn status(&self) -> (u8, &'static str) {
        match self {
            Fault::Usage => (2, "usage"),
            Fault::Refused => (3, "refused"),
            Fault::Read => (4, "read fault"),
            Fault::Write => (5, "write fault"),
            Fault::TooLarge => (7, "too large"),
        }
    }
}

impl Command {
    /// The command of these words.
    pub fn of(words: &[&str]) -> Option<Command> {
        match words {
            ["run"] => Some(Command::Run),
            ["brief"] => Some(Command::Brief),
            ["make", seed, size] => Some(Command::Make(canonical(seed)?, rounds(size)?)),
            ["load", seed, size] => Some(Command::Load(canonical(seed)?, rounds(size)?)),
            _ => None,
        }
    }

    pub fn perform(self) -> Result<(), Fault> {
        match self {
            Command::Run => run(|_| true),
            Command::Brief => run(|entry| entry.answer.is_some()),
            Command::Make(seed, size) => make(seed, size).map_err(|_| Fault::Write),
            Command::Load(seed, size) => load(seed, size).map_err(|_| Fault::Write),
        }
    }
}

/// A number of digits alone, without a zero before others.
fn canonical(word: &str) -> Option<u64> {
    let fits = word.bytes().all(|c| c.is_ascii_digit()) && (word == "0" || !word.starts_with('0'));
    if fits {
        word.parse().ok()
    } else {
        None
    }
}

fn rounds(word: &str) -> Option<u32> {
    let rounds = u32::try_from(canonical(word)?).ok()?;
    (1..=ROUNDS).contains(&rounds).then_some(rounds)
}

/// Runs the script of standard input, and prints the entries that are wanted.
fn run(is_wanted: fn(&Entry) -> bool) -> Result<(), Fault> {
    let input = read_input()?;
    let mut text = Text::new();
    match reader::read(&input) {
        Ok(script) => print_run(&script, is_wanted, &mut text).map_err(|_| Fault::Write),
        Err(refusal) => {
            print_refusal(&refusal, &mut text).map_err(|_| Fault::Write)?;
            Err(Fault::Refused)
        }
    }
}

fn read_input() -> Result<Vec<u8>, Fault> {
    let mut input = Vec::new();
    let most = INPUT_BYTES as u64 + 1;
    io::stdin().lock().take(most).read_to_end(&mut input).map_err(|_| Fault::Read)?;
    if input.len() > INPUT_BYTES {
        Err(Fault::TooLarge)
    } else {
        Ok(input)
    }
}

fn print_refusal(refusal: &Refusal, text: &mut Text) -> io::Result<()> {
    text.add("refused line ").add_number(refusal.line as u32).add(" ").add(refusal.reason.word()).end_line()?;
    text.flush()
}

fn print_run(script: &Script, is_wanted: fn(&Entry) -> bool, text: &mut Text) -> io::Result<()> {
    let mut kernel = Kernel::new(script);
    let mut place = Place::default();
    for slots in &script.schedule {
        for _ in 0..slots.count() {
            let entry = kernel.slot(*slots);
            place.count_up();
            if is_wanted(entry) {
                text.entry(&place, entry)?;
            }
        }
    }
    text.add("objects").end_line()?;
    for row in kernel.final_rows() {
        print_row(&row, text)?;
    }
    text.add("end").end_line()?;
    text.flush()
}

fn print_row(row: &FinalRow, text: &mut Text) -> io::Result<()> {
    text.add_number(row.number as u32).add(" ").add(row.kind).add(" ");
    match row.name.characters() {
        b"" => text.add("-"),
        name => text.add_bytes(name),
    };
    text.add(" ").add_number(row.references);
    match &row.thread {
        Some(Ending::Live) => {
            text.add(" live");
        }
        Some(Ending::Ended(exit)) => print_exit(exit, text),
        None => (),
    }
    text.end_line()
}

fn print_exit(exit: &Exit, text: &mut Text) {
    text.add(" ").add(exit.kind.word());
    if exit.kind == ExitKind::Panic {
        text.add(" ").add_bytes(exit.category.characters());
    }
    text.add(" ").add_number(exit.reason);
}

/// Prints a made script.
fn make(seed: u64, size: u32) -> io::Result<()> {
    let mut text = Text::new();
    Made::new(seed, size).text(&mut text)?;
    text.flush()
}

/// Runs a made script, and prints what its run comes to.
fn load(seed: u64, size: u32) -> io::Result<()> {
    let script = Made::new(seed, size).script();
    let mut kernel = Kernel::new(&script);
    let (mut entries, mut accepted, mut finished) = (0, 0, 0);
    for slots in &script.schedule {
        for _ in 0..slots.count() {
            entries += 1;
            for effect in &kernel.slot(*slots).effects {
                match effect {
                    Effect::Accept(_) => accepted += 1,
                    Effect::Finish(..) => finished += 1,
                    _ => (),
                }
            }
        }
    }
    let slots: u32 = script.schedule.iter().map(|slots| slots.count()).sum();
    let mut text = Text::new();
    text.add("slots ").add_number(slots).add(" entries ").add_number(entries);
    text.add(" accepted ").add_number(accepted).add(" finished ").add_number(finished);
    text.add(" objects ").add_number(kernel.final_rows().count() as u32).end_line()?;
    text.flush()
}
