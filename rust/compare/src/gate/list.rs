//! The plugin list: "one record for each plugin. A record has a region, a stop
//! mark, a value and a colour." Document 02, A.4: "a record gains its slot, 0 unless
//! inside."

use super::words::{Colour, Slot, Ticket, Value};

/// "a region (0 idle, 1 waiting, 2 inside)".
pub const IDLE: u8 = 0;
pub const WAITING: u8 = 1;
pub const INSIDE: u8 = 2;

/// The list as the host lends it: five slices that a call changes in place.
pub struct Lent<'a> {
    pub regions: &'a mut [u8],
    pub marks: &'a mut [u8],
    pub values: &'a mut [u16],
    pub colours: &'a mut [u8],
    pub slots: &'a mut [u8],
}

impl Lent<'_> {
    /// The list's length, or none when the five slices differ in length: such a
    /// list has no length that a word N could equal.
    pub fn length(&self) -> Option<usize> {
        let length = self.regions.len();
        let equal = self.marks.len() == length
            && self.values.len() == length
            && self.colours.len() == length
            && self.slots.len() == length;
        equal.then_some(length)
    }

    pub fn ticket(&self, i: usize) -> Ticket {
        Ticket {
            value: Value(self.values[i]),
            colour: Colour(self.colours[i]),
        }
    }

    /// All of a record but its stop mark.
    pub fn set(&mut self, i: usize, region: u8, ticket: Ticket, slot: Slot) {
        self.regions[i] = region;
        self.values[i] = ticket.value.0;
        self.colours[i] = ticket.colour.0;
        self.slots[i] = slot.0;
    }
}

/// A list that is owned here, to be lent.
#[derive(Clone, Debug, PartialEq, Eq, Hash)]
pub struct PluginList {
    pub regions: Vec<u8>,
    pub marks: Vec<u8>,
    pub values: Vec<u16>,
    pub colours: Vec<u8>,
    pub slots: Vec<u8>,
}

impl PluginList {
    pub fn idle(length: usize) -> PluginList {
        PluginList {
            regions: vec![IDLE; length],
            marks: vec![0; length],
            values: vec![0; length],
            colours: vec![0; length],
            slots: vec![0; length],
        }
    }

    pub fn lend(&mut self) -> Lent<'_> {
        Lent {
            regions: &mut self.regions,
            marks: &mut self.marks,
            values: &mut self.values,
            colours: &mut self.colours,
            slots: &mut self.slots,
        }
    }

    pub fn ticket(&self, i: usize) -> Ticket {
        Ticket::new(self.values[i], self.colours[i])
    }
}
