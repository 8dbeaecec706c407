//! Tickets: a value and a colour, each of its own type, so that neither is taken
//! for the other.

use std::fmt;
use std::mem::{align_of, offset_of, size_of};

/// A place inside a block.
#[repr(C)]
#[derive(Clone, Copy, Debug, Default, PartialEq, Eq, Hash)]
pub struct Value(pub u16);

/// The name of a block.
#[repr(C)]
#[derive(Clone, Copy, Debug, Default, PartialEq, Eq, Hash)]
pub struct Colour(pub u8);

/// A plugin's ticket, or one of the words ISSUE and VALID.
///
/// Tickets have no order of their own: which of two was taken first is known to
/// the gate alone.
#[repr(C)]
#[derive(Clone, Copy, Debug, Default, PartialEq, Eq, Hash)]
pub struct Ticket {
    /// The place inside the block.
    pub value: Value,
    /// The block.
    pub colour: Colour,
}

// The layout that the libraries have.
const _: () = {
    assert!(size_of::<Value>() == 2 && size_of::<Colour>() == 1);
    assert!(size_of::<Ticket>() == 4 && align_of::<Ticket>() == 2);
    assert!(offset_of!(Ticket, value) == 0 && offset_of!(Ticket, colour) == 2);
};

impl Ticket {
    /// The ticket of a value and a colour.
    pub const fn new(value: u16, colour: u8) -> Ticket {
        Ticket {
            value: Value(value),
            colour: Colour(colour),
        }
    }
}

/// Value and colour, parted by a stroke: `2/0`.
impl fmt::Display for Ticket {
    fn fmt(&self, out: &mut fmt::Formatter<'_>) -> fmt::Result {
        write!(out, "{}/{}", self.value.0, self.colour.0)
    }
}
