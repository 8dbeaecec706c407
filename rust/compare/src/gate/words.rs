//! "Words and records": the gate words, tickets, and what a call answers.

use super::rules::Rule;

/// The most plugins: "N is 1 to 1,024".
pub const MOST_PLUGINS: u64 = 1024;
/// The most slots: "k is 1 to 64".
pub const MOST_SLOTS: u64 = 64;
/// Document 02, A.8: "the year, 1979 or 1989".
pub const YEARS: [u16; 2] = [1979, 1989];
/// "a count for each of the colours 0 to 64".
pub const COLOURS: usize = 65;
/// Document 02, A.4: "64 places for the free slots".
pub const FREE_PLACES: usize = 64;

/// "A value counts places inside a block."
#[derive(Clone, Copy, Debug, Default, PartialEq, Eq, PartialOrd, Ord, Hash)]
pub struct Value(pub u16);

/// "A colour names the block."
#[derive(Clone, Copy, Debug, Default, PartialEq, Eq, PartialOrd, Ord, Hash)]
pub struct Colour(pub u8);

/// "A ticket is a value and a colour."
#[derive(Clone, Copy, Debug, Default, PartialEq, Eq, PartialOrd, Ord, Hash)]
pub struct Ticket {
    pub value: Value,
    pub colour: Colour,
}

impl Ticket {
    pub const fn new(value: u16, colour: u8) -> Ticket {
        Ticket {
            value: Value(value),
            colour: Colour(colour),
        }
    }
}

/// "a ticket as value/colour".
impl std::fmt::Display for Ticket {
    fn fmt(&self, out: &mut std::fmt::Formatter<'_>) -> std::fmt::Result {
        write!(out, "{}/{}", self.value.0, self.colour.0)
    }
}

/// Document 02, A.4: "Slots are numbered 1 to k." 0 is none.
#[derive(Clone, Copy, Debug, Default, PartialEq, Eq, Hash)]
pub struct Slot(pub u8);

/// "The gate words are N, k, ISSUE, VALID and a count for each of the colours." A.4:
/// "The words gain 64 places for the free slots in order, 0 after the last." A.8:
/// "Opening names the year, 1979 or 1989, and the gate words keep it".
#[derive(Clone, Copy, Debug, PartialEq, Eq, Hash)]
pub struct Words {
    pub year: u16,
    pub n: u16,
    pub k: u8,
    pub issue: Ticket,
    pub valid: Ticket,
    pub counts: [u8; COLOURS],
    pub free: [u8; FREE_PLACES],
}

impl Words {
    /// The words before the first open, and those that a refused open returns.
    pub const ZERO: Words = Words {
        year: 0,
        n: 0,
        k: 0,
        issue: Ticket::new(0, 0),
        valid: Ticket::new(0, 0),
        counts: [0; COLOURS],
        free: [0; FREE_PLACES],
    };

    /// The count of a colour; 0 for a colour that has no count.
    pub fn count(&self, colour: Colour) -> u8 {
        self.counts.get(usize::from(colour.0)).copied().unwrap_or(0)
    }

    /// Adds 1 or takes it away. In a sound gate no count passes its bounds.
    pub fn add_to_count(&mut self, colour: Colour, by: i8) {
        if let Some(count) = self.counts.get_mut(usize::from(colour.0)) {
            *count = count.saturating_add_signed(by);
        }
    }
}

/// "The answer to a call is one of: ticket, yes or no, place, done, or refused."
/// Document 02, A.4: "A look that answers yes gives the slot." A.5: "Each yes or no with
/// its rule."
#[derive(Clone, Copy, Debug, PartialEq, Eq)]
pub enum Answer {
    Ticket(Ticket),
    Yes(Slot, Rule),
    No(Rule),
    Place(u16),
    Done,
    Refused(u8),
}

impl Answer {
    /// "An accepted one has number 0."
    pub fn number(self) -> u8 {
        match self {
            Answer::Refused(number) => number,
            _ => 0,
        }
    }

    /// "a ticket shown by it is 0/0".
    pub fn ticket(self) -> Ticket {
        match self {
            Answer::Ticket(ticket) => ticket,
            _ => Ticket::default(),
        }
    }

    /// "a yes is no".
    pub fn yes(self) -> bool {
        matches!(self, Answer::Yes(..))
    }

    /// The slot that a yes gives, else none.
    pub fn slot(self) -> Slot {
        match self {
            Answer::Yes(slot, _) => slot,
            _ => Slot::default(),
        }
    }

    /// The rule that decided a look; none for any other answer.
    pub fn rule(self) -> Option<Rule> {
        match self {
            Answer::Yes(_, rule) | Answer::No(rule) => Some(rule),
            _ => None,
        }
    }

    /// "a place is 0".
    pub fn place(self) -> u16 {
        match self {
            Answer::Place(place) => place,
            _ => 0,
        }
    }
}

/// What a call gives back beside the lent list: its answer (with its number)
/// and the words. A refused call gives back the words that it was given.
#[derive(Clone, Copy, Debug, PartialEq, Eq)]
pub struct Reply {
    pub answer: Answer,
    pub words: Words,
}

impl Reply {
    pub fn number(&self) -> u8 {
        self.answer.number()
    }
}
