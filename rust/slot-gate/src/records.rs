//! The calls on words and a list that a host keeps itself, the list as records.
//! [`crate::lent`] has the same calls on five number slices.
//!
//! The calls ask nothing of their caller: words that are not sound, a list of any
//! length and any plugin number are answered, and a refused call changes nothing.
//!
//! ```
//! use slot_gate::{records, Answer, Call, Record, Refusal, Rule, Slot, Value, Verdict, Year};
//!
//! let mut list = [Record::IDLE; 3];
//! let mut words = records::open(Year::Y1989, 3, 1, &mut list)?;
//! records::call(Call::Take, &mut words, &mut list, 2)?;
//! let answer = records::call(Call::Look, &mut words, &mut list, 2)?;
//! let rule = Rule::NotAbove { value: Value(1), valid: Value(1) };
//! assert_eq!(answer, Answer::Verdict(Verdict::Yes(Slot(1), rule)));
//! assert_eq!(list.map(|record| record.region), [0, 2, 0]);
//! assert_eq!(list.map(|record| record.slot.0), [0, 1, 0]);
//! # Ok::<(), Refusal>(())
//! ```

use crate::call::{Answer, Call};
use crate::exports;
use crate::refusal::Refusal;
use crate::words::{Record, Words};
use crate::year::Year;

/// Opens a gate of a year: its words, with all slots free, and all records idle and
/// unmarked.
///
/// # Errors
///
/// [`Refusal::OutOfRange`], [`Refusal::TooManySlots`], and [`Refusal::WrongLength`] when
/// there are not as many records as plugins. The list is then as it was.
pub fn open(year: Year, plugins: u64, slots: u64, list: &mut [Record]) -> Result<Words, Refusal> {
    exports::records_open(year.number().into(), plugins, slots, list).opened()
}

/// A call of plugin p, whose record is at p - 1. An accepted one changes words and
/// list as the call says.
///
/// # Errors
///
/// [`Refusal::WrongLength`], [`Refusal::NotSound`], [`Refusal::NoSuchPlugin`], and
/// those of the call. Words and list are then as they were.
pub fn call(call: Call, words: &mut Words, list: &mut [Record], p: u64) -> Result<Answer, Refusal> {
    let told = exports::records_call(call.letter(), *words, list, p);
    *words = told.gate;
    told.shown.answer()
}

/// Whether two gates will answer alike: N and k are the same, each plugin has the
/// same region and stop mark in both, each that holds a ticket the same validity,
/// and the tickets not yet valid have the same order. [`Gate::alike`](crate::Gate::alike)
/// says what it is worth.
///
/// # Errors
///
/// [`Refusal::WrongLength`] and [`Refusal::NotSound`], of either gate.
pub fn alike(first: (&Words, &[Record]), second: (&Words, &[Record])) -> Result<bool, Refusal> {
    exports::records_alike(*first.0, first.1, *second.0, second.1).yes()
}
