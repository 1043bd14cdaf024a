//! Why a script is refused.

/// Why a line is bad, in the order in which reasons are tried.
#[derive(Clone, Copy, PartialEq, Eq, PartialOrd, Ord)]
pub enum Reason {
    Byte,
    Long,
    Word,
    Order,
    Count,
    Form,
    Range,
    Kind,
    Twice,
    Unknown,
    Limit,
    End,
}

impl Reason {
    /// The reason as it is printed.
    pub fn word(self) -> &'static str {
        match self {
            Reason::Byte => "byte",
            Reason::Long => "long",
            Reason::Word => "word",
            Reason::Order => "order",
            Reason::Count => "count",
            Reason::Form => "form",
            Reason::Range => "range",
            Reason::Kind => "kind",
            Reason::Twice => "twice",
            Reason::Unknown => "unknown",
            Reason::Limit => "limit",
            Reason::End => "end",
        }
    }
}

/// The first bad line of a script, from 1, and why it is bad.
pub struct Refusal {
    pub line: usize,
    pub reason: Reason,
}
