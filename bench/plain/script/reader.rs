//! Reading a script: its lines, their words, and the order in which lines may stand.

use super::builder::Builder;
use super::forms::{line, Line};
use super::lines::Lines;
use super::operands::Operands;
use super::refusal::{Reason, Refusal};
use super::Script;

/// Reads a script, or tells its first bad line.
pub fn read(text: &[u8]) -> Result<Script, Refusal> {
    let mut reader = Reader { rank: None, after_process: false, builder: Builder::new(text) };
    let mut lines = Lines::new(text);
    let mut words = Vec::new();
    let mut number = 1;
    while let Some(checked) = lines.take(&mut words) {
        checked.and_then(|()| reader.take(&words)).map_err(|reason| Refusal { line: number, reason })?;
        number += 1;
    }
    if reader.rank != Some(Rank::End) {
        return Err(Refusal { line: number, reason: Reason::End });
    }
    Ok(reader.builder.script())
}

/// The ranks of lines, which never fall from one line to the next. An instruction has its thread's.
#[derive(Clone, Copy, PartialEq, Eq, PartialOrd, Ord)]
enum Rank {
    Header,
    Pool,
    Fast,
    Queue,
    Deferred,
    Immediate,
    Interrupt,
    KernelThread,
    Process,
    Schedule,
    Slots,
    End,
}

struct Reader<'t> {
    /// The rank of the last line that wasn't skipped.
    rank: Option<Rank>,
    /// Whether that was the line of a process.
    after_process: bool,
    builder: Builder<'t>,
}

impl Reader<'_> {
    fn take(&mut self, words: &[&[u8]]) -> Result<(), Reason> {
        let (first, rest) = match words.split_first() {
            Some((first, rest)) if first[0] != b'#' => (*first, rest),
            _ => return Ok(()),
        };
        let mut operands = Operands::new(rest);
        let line = line(first, &mut operands, self.rank >= Some(Rank::Schedule)).ok_or(Reason::Word)?;
        let rank = self.rank_of(&line).ok_or(Reason::Order)?;
        if let Some(reason) = operands.fault() {
            return Err(reason);
        }
        self.after_process = matches!(line, Line::Process(_));
        self.rank = Some(rank);
        self.builder.add(line, rank == Rank::Process)
    }

    /// The rank of a line, if it may stand here.
    fn rank_of(&self, line: &Line) -> Option<Rank> {
        let before = self.rank;
        if before == Some(Rank::End) || self.after_process && !matches!(line, Line::Thread(_)) {
            return None;
        }
        let rank = match line {
            Line::Header(_) => Rank::Header,
            Line::Pool(_) => Rank::Pool,
            Line::Fast(_) => Rank::Fast,
            Line::Queue(_) => Rank::Queue,
            Line::Deferred(_) => Rank::Deferred,
            Line::Immediate(_) => Rank::Immediate,
            Line::Interrupt(_) => Rank::Interrupt,
            Line::KernelThread(_) => Rank::KernelThread,
            Line::Process(_) | Line::Thread(_) => Rank::Process,
            Line::Instruction(_) if before == Some(Rank::KernelThread) => Rank::KernelThread,
            Line::Instruction(_) => Rank::Process,
            Line::Schedule => Rank::Schedule,
            Line::Slots(_) => Rank::Slots,
            Line::End => Rank::End,
        };
        let fits = match line {
            Line::Header(_) => before.is_none(),
            Line::Thread(_) | Line::Instruction(_) => before == Some(rank),
            Line::Schedule => before.is_some() && before < Some(rank),
            Line::Slots(_) => before >= Some(Rank::Schedule),
            _ => before.is_some() && before <= Some(rank),
        };
        fits.then_some(rank)
    }
}
