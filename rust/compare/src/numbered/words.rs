//! The words of the numbered gate, and what its calls answer.

/// The greatest value of a counter: "18,446,744,073,709,551,615".
pub const GREATEST: u64 = u64::MAX;

/// N, k and the two counters.
#[derive(Clone, Copy, Debug, PartialEq, Eq)]
pub struct Words {
    pub n: u16,
    pub k: u8,
    pub issue: u64,
    pub valid: u64,
}

impl Words {
    /// The words before the first open, and those that a refused open returns.
    pub const ZERO: Words = Words {
        n: 0,
        k: 0,
        issue: 0,
        valid: 0,
    };
}

/// What a call answers. A look answers a plain yes or no: there are no slots and no rules.
#[derive(Clone, Copy, Debug, PartialEq, Eq)]
pub enum Answer {
    Ticket(u64),
    YesNo(bool),
    Place(u64),
    Done,
    Refused(u8),
}

impl Answer {
    /// "An accepted one has number 0."
    pub fn number(self) -> u8 {
        match self {
            Answer::Refused(number) => number,
            _ => 0,
        }
    }

    /// A refused call shows ticket 0.
    pub fn ticket(self) -> u64 {
        match self {
            Answer::Ticket(ticket) => ticket,
            _ => 0,
        }
    }

    /// "a yes is no".
    pub fn yes(self) -> bool {
        self == Answer::YesNo(true)
    }

    /// "a place is 0".
    pub fn place(self) -> u64 {
        match self {
            Answer::Place(place) => place,
            _ => 0,
        }
    }
}

/// As `gaterun` prints an answer.
impl std::fmt::Display for Answer {
    fn fmt(&self, out: &mut std::fmt::Formatter<'_>) -> std::fmt::Result {
        match self {
            Answer::Ticket(number) | Answer::Place(number) => write!(out, "{number}"),
            Answer::YesNo(yes) => write!(out, "{}", u8::from(*yes)),
            Answer::Done | Answer::Refused(_) => write!(out, "-"),
        }
    }
}

/// What a call gives back beside the lent list. A refused call gives back the words that it
/// was given.
#[derive(Clone, Copy, Debug, PartialEq, Eq)]
pub struct Reply {
    pub answer: Answer,
    pub words: Words,
}

impl Reply {
    pub fn new(answer: Answer, words: Words) -> Reply {
        Reply { answer, words }
    }
}
