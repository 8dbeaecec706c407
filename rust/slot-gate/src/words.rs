//! The gate words and a plugin's record, as a host keeps them that lends them to
//! the calls itself.
//!
//! Neither struct is `#[non_exhaustive]`: a host that stores them must hear of a
//! field that is new.

use std::mem::{align_of, offset_of, size_of};

use crate::slot::Slot;
use crate::ticket::{Colour, Ticket, Value};
use crate::MOST_SLOTS;

/// The number of counts: one for each of the colours 0 to 64.
pub const COLOURS: usize = 65;

/// The number of places for free slots: a gate has at most so many slots.
pub const FREE_PLACES: usize = MOST_SLOTS as usize;

/// The gate words.
#[repr(C)]
#[derive(Clone, Copy, Debug, PartialEq, Eq, Hash)]
pub struct Words {
    /// The year, 1979 or 1989: a number here, as a host may lend any. Words of another
    /// year are refused with [`Refusal::NotSound`](crate::Refusal::NotSound).
    pub year: u16,
    /// N, the number of plugins.
    pub n: u16,
    /// k, the number of slots.
    pub k: u8,
    /// ISSUE, the ticket last handed out.
    pub issue: Ticket,
    /// VALID, the ticket last made valid.
    pub valid: Ticket,
    /// A count for each colour.
    pub counts: [u8; COLOURS],
    /// The free slots in the order in which they go out, 0 after the last.
    pub free: [u8; FREE_PLACES],
}

impl Words {
    /// All words 0: no gate. Every call on them is refused.
    pub const ZERO: Words = Words {
        year: 0,
        n: 0,
        k: 0,
        issue: Ticket::new(0, 0),
        valid: Ticket::new(0, 0),
        counts: [0; COLOURS],
        free: [0; FREE_PLACES],
    };
}

/// A plugin's record. The region is a number here, and the mark too: a host may
/// lend any, and a record that no gate has is refused with
/// [`Refusal::NotSound`](crate::Refusal::NotSound).
#[repr(C)]
#[derive(Clone, Copy, Debug, Default, PartialEq, Eq, Hash)]
pub struct Record {
    /// 0 idle, 1 waiting, 2 inside.
    pub region: u8,
    /// 1 for a stopped plugin, else 0.
    pub mark: u8,
    /// The value of the ticket held, 0 for an idle plugin.
    pub value: Value,
    /// The colour of the ticket held, 0 for an idle plugin.
    pub colour: Colour,
    /// The slot of a plugin that is inside, else 0.
    pub slot: Slot,
}

impl Record {
    /// The record of an idle plugin that is not stopped.
    pub const IDLE: Record = Record::new(0, 0, Ticket::new(0, 0), Slot(0));

    /// The record of a region, a stop mark, a ticket and a slot.
    pub const fn new(region: u8, mark: u8, ticket: Ticket, slot: Slot) -> Record {
        Record {
            region,
            mark,
            value: ticket.value,
            colour: ticket.colour,
            slot,
        }
    }
}

// The layouts that the libraries have.
const _: () = {
    assert!(size_of::<Words>() == 144 && align_of::<Words>() == 2);
    assert!(offset_of!(Words, year) == 0 && offset_of!(Words, n) == 2);
    assert!(offset_of!(Words, k) == 4 && offset_of!(Words, issue) == 6);
    assert!(offset_of!(Words, valid) == 10 && offset_of!(Words, counts) == 14);
    assert!(offset_of!(Words, free) == 79);
    assert!(size_of::<Record>() == 6 && align_of::<Record>() == 2);
    assert!(offset_of!(Record, region) == 0 && offset_of!(Record, mark) == 1);
    assert!(offset_of!(Record, value) == 2 && offset_of!(Record, colour) == 4);
    assert!(offset_of!(Record, slot) == 5);
};
