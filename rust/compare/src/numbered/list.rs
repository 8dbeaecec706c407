//! The plugin list of the numbered gate: a record has a region, a stop mark and a ticket.

use crate::gate::IDLE;

/// The list as the host lends it: three slices that a call changes in place.
pub struct Lent<'a> {
    pub regions: &'a mut [u8],
    pub marks: &'a mut [u8],
    pub tickets: &'a mut [u64],
}

impl Lent<'_> {
    /// The list's length, or none when the slices differ in length.
    pub fn length(&self) -> Option<usize> {
        let length = self.regions.len();
        let equal = self.marks.len() == length && self.tickets.len() == length;
        equal.then_some(length)
    }

    /// All of a record but its stop mark.
    pub fn set(&mut self, i: usize, region: u8, ticket: u64) {
        self.regions[i] = region;
        self.tickets[i] = ticket;
    }

    /// The tickets that are held: those of the plugins that are not idle.
    pub fn held(&self) -> impl Iterator<Item = u64> + '_ {
        let records = self.regions.iter().zip(self.tickets.iter());
        records
            .filter(|(&region, _)| region != IDLE)
            .map(|(_, &t)| t)
    }

    /// The tickets that plugins in a region hold.
    pub fn held_in(&self, wanted: u8) -> impl Iterator<Item = u64> + '_ {
        let records = self.regions.iter().zip(self.tickets.iter());
        let there = move |(&region, _): &(&u8, &u64)| region == wanted;
        records.filter(there).map(|(_, &ticket)| ticket)
    }
}

/// A list that is owned here, to be lent.
#[derive(Clone, Debug, PartialEq, Eq)]
pub struct PluginList {
    pub regions: Vec<u8>,
    pub marks: Vec<u8>,
    pub tickets: Vec<u64>,
}

impl PluginList {
    pub fn idle(length: usize) -> PluginList {
        PluginList {
            regions: vec![IDLE; length],
            marks: vec![0; length],
            tickets: vec![0; length],
        }
    }

    pub fn lend(&mut self) -> Lent<'_> {
        Lent {
            regions: &mut self.regions,
            marks: &mut self.marks,
            tickets: &mut self.tickets,
        }
    }
}
