//! "Steps of the 1989 algorithm", and those of document 02's A.8: "Under 1979 ... every
//! other step is document 01's."

use super::slots;
use super::words::{Colour, Ticket, Value, Words};

/// "The block size is M = 1 + the larger of k and N − k (so 1 + k when N is
/// below k)."
pub fn block_size(n: u16, k: u8) -> u32 {
    1 + u32::from(u16::from(k).max(n.saturating_sub(u16::from(k))))
}

/// The values of one colour.
#[derive(Clone, Copy, Debug, PartialEq, Eq)]
pub struct Block {
    pub first: u16,
    /// M: how many there are.
    pub size: u32,
}

impl Block {
    /// "Values run 0 to M − 1". Document 02, A.8: "Under 1979 the block size is N,
    /// values run 1 to N". No other year has a block of its own; words of one are
    /// not sound.
    pub fn of(words: &Words) -> Block {
        match words.year {
            1979 => Block {
                first: 1,
                size: words.n.into(),
            },
            _ => Block {
                first: 0,
                size: block_size(words.n, words.k),
            },
        }
    }

    pub fn last(self) -> u32 {
        u32::from(self.first) + self.size - 1
    }

    pub fn has(self, value: Value) -> bool {
        value.0 >= self.first && u32::from(value.0) <= self.last()
    }
}

/// "Opening: ISSUE is 0/0, VALID is k/0, the count of colour 0 is k, all others
/// 0." Under 1979 "ISSUE 1/0 and VALID (k + 1)/0". All slots are free.
pub fn opening(year: u16, n: u16, k: u8) -> Words {
    let first = u16::from(year == 1979);
    let mut words = Words {
        year,
        n,
        k,
        issue: Ticket::new(first, 0),
        valid: Ticket::new(first + u16::from(k), 0),
        free: slots::opening(k),
        ..Words::ZERO
    };
    words.counts[0] = k;
    words
}

/// "A leads B: with equal colours, when A's value is at least B's; with
/// different colours, when A's value is below B's."
pub fn leads(a: Ticket, b: Ticket) -> bool {
    if a.colour == b.colour {
        a.value >= b.value
    } else {
        a.value < b.value
    }
}

/// "New colour: go upward from the colour of the word that moves, from k on to
/// 0. Take the first colour with count 0 that is neither ISSUE's nor VALID's."
///
/// A sound gate that needs a new colour has one; should there be none, the
/// colour given is kept, so that the function is total.
pub fn new_colour(words: &Words, from: Colour) -> Colour {
    upward(from, words.k)
        .find(|&colour| {
            words.count(colour) == 0 && colour != words.issue.colour && colour != words.valid.colour
        })
        .unwrap_or(from)
}

/// The colours upward from one of them, from k on to 0, that one left out.
pub fn upward(from: Colour, k: u8) -> impl Iterator<Item = Colour> {
    let colours = u16::from(k) + 1;
    (1..colours).map(move |step| Colour(((u16::from(from.0) + step) % colours) as u8))
}

/// The rule by which ISSUE moves in take, and VALID in leave: "if ISSUE's value
/// is below M − 1, add 1. Otherwise ISSUE gets a new colour if ISSUE leads
/// VALID, else VALID's colour; its value becomes 0." Under 1979 "a new block's 1
/// follows N".
pub fn moved(words: &Words, mover: Ticket, other: Ticket) -> Ticket {
    let block = Block::of(words);
    if u32::from(mover.value.0) < block.last() {
        return Ticket {
            value: Value(mover.value.0 + 1),
            colour: mover.colour,
        };
    }
    let colour = if leads(mover, other) {
        new_colour(words, mover.colour)
    } else {
        other.colour
    };
    Ticket {
        value: Value(block.first),
        colour,
    }
}

/// Take: ISSUE moves. "The result is the plugin's ticket."
pub fn take(words: &Words) -> Words {
    Words {
        issue: moved(words, words.issue, words.valid),
        ..*words
    }
}

/// "Valid: if the ticket has VALID's colour, its value is not above VALID's.
/// Otherwise its colour's count is above 0."
pub fn valid(words: &Words, ticket: Ticket) -> bool {
    if ticket.colour == words.valid.colour {
        ticket.value <= words.valid.value
    } else {
        words.count(ticket.colour) > 0
    }
}

/// "Leave: VALID moves by the same rule with ISSUE and VALID exchanged. Then 1
/// is added to the count of VALID's colour, and 1 taken from the count of the
/// ticket's colour, in that order."
pub fn leave(words: &Words, ticket: Ticket) -> Words {
    let mut left = Words {
        valid: moved(words, words.valid, words.issue),
        ..*words
    };
    left.add_to_count(left.valid.colour, 1);
    left.add_to_count(ticket.colour, -1);
    left
}

/// Document 02, A.1: "A place is now the number of returns until the ticket is
/// valid: 0 for a valid ticket, the distance for another."
pub fn place(words: &Words, ticket: Ticket) -> u16 {
    if valid(words, ticket) {
        0
    } else {
        distance(Block::of(words).size, ticket.value, words.valid.value)
    }
}

/// "The distance is the remainder of its value + M − VALID's value by M."
pub fn distance(m: u32, value: Value, valid: Value) -> u16 {
    ((u32::from(value.0) + m).saturating_sub(u32::from(valid.0)) % m) as u16
}
