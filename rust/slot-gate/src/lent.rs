//! The calls on words and a list that a host keeps itself, the list as five number
//! slices. [`crate::records`] has the same calls on a list of records.
//!
//! The calls ask nothing of their caller: words that are not sound, slices of any
//! lengths and any plugin number are answered, and a refused call changes nothing.
//!
//! ```
//! use slot_gate::lent::{self, ListMut};
//! use slot_gate::{Answer, Call, Refusal, Ticket, Year};
//!
//! let (mut regions, mut marks) = ([0; 3], [0; 3]);
//! let (mut values, mut colours, mut slots) = ([0; 3], [0; 3], [0; 3]);
//! let mut list = ListMut {
//!     regions: &mut regions,
//!     marks: &mut marks,
//!     values: &mut values,
//!     colours: &mut colours,
//!     slots: &mut slots,
//! };
//! let mut words = lent::open(Year::Y1989, 3, 1, list.lend())?;
//! let answer = lent::call(Call::Take, &mut words, list.lend(), 2)?;
//! assert_eq!(answer, Answer::Ticket(Ticket::new(1, 0)));
//! assert_eq!(lent::place(&words, list.show(), 2)?, 0);
//! assert_eq!(regions, [0, 1, 0]);
//! # Ok::<(), Refusal>(())
//! ```

use crate::call::{Answer, Call};
use crate::exports;
use crate::refusal::Refusal;
use crate::words::Words;
use crate::year::Year;

/// The plugin list, lent to be changed: the record of plugin p is at p - 1 in
/// each slice.
#[derive(Debug)]
pub struct ListMut<'a> {
    /// 0 idle, 1 waiting, 2 inside.
    pub regions: &'a mut [u8],
    /// 1 for a stopped plugin, else 0.
    pub marks: &'a mut [u8],
    /// The values of the tickets held, 0 for an idle plugin.
    pub values: &'a mut [u16],
    /// The colours of the tickets held, 0 for an idle plugin.
    pub colours: &'a mut [u8],
    /// The slots of the plugins inside, 0 for all others.
    pub slots: &'a mut [u8],
}

impl ListMut<'_> {
    /// The list lent on, for one call.
    pub fn lend(&mut self) -> ListMut<'_> {
        ListMut {
            regions: self.regions,
            marks: self.marks,
            values: self.values,
            colours: self.colours,
            slots: self.slots,
        }
    }

    /// The list lent on to be read.
    pub fn show(&self) -> ListRef<'_> {
        ListRef {
            regions: self.regions,
            marks: self.marks,
            values: self.values,
            colours: self.colours,
            slots: self.slots,
        }
    }
}

/// The plugin list, lent to be read: as [`ListMut`].
#[derive(Clone, Copy, Debug)]
pub struct ListRef<'a> {
    /// 0 idle, 1 waiting, 2 inside.
    pub regions: &'a [u8],
    /// 1 for a stopped plugin, else 0.
    pub marks: &'a [u8],
    /// The values of the tickets held, 0 for an idle plugin.
    pub values: &'a [u16],
    /// The colours of the tickets held, 0 for an idle plugin.
    pub colours: &'a [u8],
    /// The slots of the plugins inside, 0 for all others.
    pub slots: &'a [u8],
}

/// Opens a gate of a year: its words, with all slots free, and all records idle and
/// unmarked.
///
/// # Errors
///
/// [`Refusal::OutOfRange`], [`Refusal::TooManySlots`], and [`Refusal::WrongLength`] when
/// the slices are not all as long as there are plugins. The list is then as it was.
pub fn open(year: Year, plugins: u64, slots: u64, list: ListMut<'_>) -> Result<Words, Refusal> {
    exports::open(year.number().into(), plugins, slots, list).opened()
}

/// A call of plugin p. An accepted one changes words and list as the call says.
///
/// # Errors
///
/// [`Refusal::WrongLength`], [`Refusal::NotSound`], [`Refusal::NoSuchPlugin`], and
/// those of the call. Words and list are then as they were.
pub fn call(call: Call, words: &mut Words, list: ListMut<'_>, p: u64) -> Result<Answer, Refusal> {
    let told = exports::call(call.letter(), *words, list, p);
    *words = told.gate;
    told.shown.answer()
}

/// How many returns plugin p, which waits, still waits for: [`Call::Place`] on
/// words and list that are only read.
///
/// # Errors
///
/// As [`call`].
pub fn place(words: &Words, list: ListRef<'_>, p: u64) -> Result<u16, Refusal> {
    exports::place(*words, list, p).place()
}

/// Whether two gates will answer alike: N and k are the same, each plugin has the
/// same region and stop mark in both, each that holds a ticket the same validity,
/// and the tickets not yet valid have the same order. [`Gate::alike`](crate::Gate::alike)
/// says what it is worth.
///
/// # Errors
///
/// [`Refusal::WrongLength`] and [`Refusal::NotSound`], of either gate.
pub fn alike(first: (&Words, ListRef<'_>), second: (&Words, ListRef<'_>)) -> Result<bool, Refusal> {
    exports::alike(*first.0, first.1, *second.0, second.1).yes()
}
