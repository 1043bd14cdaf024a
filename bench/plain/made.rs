//! Scripts that are made from a number: a server with one thread, and four clients of it.

use crate::name::Name;
use crate::script::instruction::{Argument, Instruction, Slots as SessionSlots};
use crate::script::{Script, Slots, Thread};
use crate::text::Text;
use std::io;

const CLIENTS: usize = 4;
const SERVER_PRIORITY: u8 = 30;
/// The priority of the first client; that of each other is one more.
const CLIENT_PRIORITY: u8 = 10;
const NO_ARGUMENTS: [Argument; 4] = [Argument::Number; 4];

/// What is drawn of a script.
pub struct Made {
    clients: Vec<Client>,
    size: u32,
}

/// The slots of a client's session, and its rounds.
struct Client {
    slots: u8,
    rounds: Vec<Round>,
}

/// What a client does in a round.
#[derive(Clone, Copy)]
enum Round {
    Call,
    SendAndWait,
    CreateAndClose,
    Fill,
}

/// A linear congruential generator.
struct Generator(u64);

impl Generator {
    fn draw(&mut self) -> u64 {
        self.0 = self.0.wrapping_mul(6364136223846793005).wrapping_add(1442695040888963407);
        self.0 >> 33
    }

    fn client(&mut self, size: u32) -> Client {
        let slots = 1 + (self.draw() % 3) as u8;
        Client { slots, rounds: (0..size).map(|_| self.round()).collect() }
    }

    fn round(&mut self) -> Round {
        match self.draw() % 4 {
            0 => Round::Call,
            1 => Round::SendAndWait,
            2 => Round::CreateAndClose,
            _ => Round::Fill,
        }
    }
}

impl Made {
    /// Draws a script whose clients have so many rounds.
    pub fn new(seed: u64, size: u32) -> Made {
        let mut generator = Generator(seed);
        Made { clients: (0..CLIENTS).map(|_| generator.client(size)).collect(), size }
    }

    /// How many messages come: those of the rounds, and two for each client's connection and its end.
    fn messages(&self) -> usize {
        let rounds = self.clients.iter().flat_map(|client| &client.rounds);
        2 * CLIENTS + rounds.filter(|round| matches!(round, Round::Call | Round::SendAndWait)).count()
    }

    fn slots(&self) -> u32 {
        200 + 60 * self.size
    }

    /// The script.
    pub fn script(&self) -> Script {
        let mut server = vec![Instruction::Server { name: named("files", None), to: 0 }];
        for _ in 0..self.messages() {
            server.push(Instruction::Receive { server: 0, to: 0 });
            server.push(Instruction::Complete { message: 0, code: 0 });
        }
        let mut script = Script { version: 1, schedule: vec![Slots::Go(self.slots())], ..Script::default() };
        add_process(&mut script, named("fs", None), named("sv", None), SERVER_PRIORITY, server);
        for (place, client) in self.clients.iter().enumerate() {
            let (process, thread) = (named("p", Some(place)), named("c", Some(place)));
            let priority = CLIENT_PRIORITY + place as u8;
            add_process(&mut script, process, thread, priority, client.instructions(place));
        }
        script
    }

    /// Adds the canonical text of the script.
    pub fn text(&self, text: &mut Text) -> io::Result<()> {
        text.add("eka2 1\nprocess fs\nthread sv 30\nserver files r0").end_line()?;
        for _ in 0..self.messages() {
            text.add("receive r0 m0\ncomplete m0 0").end_line()?;
        }
        for (place, client) in self.clients.iter().enumerate() {
            client.text(place as u32, text)?;
        }
        text.add("schedule\ngo ").add_number(self.slots()).end_line()?;
        text.add("end").end_line()
    }
}

impl Client {
    fn instructions(&self, place: usize) -> Vec<Instruction> {
        let slots = SessionSlots::Own(self.slots);
        let mut instructions = vec![Instruction::Connect { name: named("files", None), slots, to: 0 }];
        let mutex = named("x", Some(place));
        for (number, round) in self.rounds.iter().enumerate() {
            match round {
                Round::Call => {
                    instructions.push(Instruction::Call { session: 0, function: 1, arguments: NO_ARGUMENTS });
                }
                Round::SendAndWait => {
                    let arguments = NO_ARGUMENTS;
                    instructions.push(Instruction::Send { session: 0, function: 2, status: 0, arguments });
                    instructions.push(Instruction::WaitFor { status: 0 });
                }
                Round::CreateAndClose => {
                    instructions.push(Instruction::CreateMutex { name: mutex, to: 1 });
                    instructions.push(Instruction::Close { handle: 1 });
                }
                Round::Fill => instructions.push(Instruction::Fill { at: 0, length: 64, byte: number as u8 }),
            }
        }
        instructions
    }

    fn text(&self, place: u32, text: &mut Text) -> io::Result<()> {
        text.add("process p").add_number(place).end_line()?;
        text.add("thread c").add_number(place).add(" ").add_number(u32::from(CLIENT_PRIORITY) + place).end_line()?;
        text.add("connect files ").add_number(self.slots).add(" r0").end_line()?;
        for (number, round) in self.rounds.iter().enumerate() {
            match round {
                Round::Call => text.add("call r0 1 0 0 0 0"),
                Round::SendAndWait => text.add("send r0 2 s0 0 0 0 0\nwaitfor s0"),
                Round::CreateAndClose => text.add("create mutex x").add_number(place).add(" r1\nclose r1"),
                Round::Fill => text.add("fill 0 64 ").add_number(number as u8),
            }
            .end_line()?;
        }
        Ok(())
    }
}

/// The word as a name, with a number behind it if there is one.
fn named(word: &str, number: Option<usize>) -> Name {
    let word = number.map_or(word.to_string(), |number| format!("{word}{number}"));
    Name::of(word.as_bytes()).unwrap_or_default()
}

fn add_process(script: &mut Script, process: Name, name: Name, priority: u8, instructions: Vec<Instruction>) {
    let place = script.processes.len();
    script.processes.push(process);
    script.threads.push(Thread { name, priority, held: false, process: Some(place), instructions });
}
