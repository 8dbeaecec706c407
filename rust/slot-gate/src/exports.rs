//! The exported functions of libgate_c.a and librecords_c.a, safe to call.
//!
//! They ask nothing of their caller: words that are not sound, lists of any length,
//! any plugin number and any letter are answered, and a refused call changes
//! nothing. Here, in `numbered::exports`, and in `forms` with the feature `compare`, is
//! the crate's only unsafe code.
#![allow(unsafe_code)]

use crate::lent::{ListMut, ListRef};
use crate::shown::{Shown, Told};
use crate::words::{Record, Words};

// As in crates/gate_c/src and crates/records_c/src: nothing but the tests checks one
// against the other. A slice there is a pointer and a length here.
extern "C" {
    fn slot_gate_open(
        year: u64,
        n: u64,
        k: u64,
        regions: *mut u8,
        regions_length: usize,
        marks: *mut u8,
        marks_length: usize,
        values: *mut u16,
        values_length: usize,
        colours: *mut u8,
        colours_length: usize,
        slots: *mut u8,
        slots_length: usize,
    ) -> Told;

    fn slot_gate_call(
        letter: u8,
        gate: Words,
        regions: *mut u8,
        regions_length: usize,
        marks: *mut u8,
        marks_length: usize,
        values: *mut u16,
        values_length: usize,
        colours: *mut u8,
        colours_length: usize,
        slots: *mut u8,
        slots_length: usize,
        p: u64,
    ) -> Told;

    fn slot_gate_place(
        gate: Words,
        regions: *const u8,
        regions_length: usize,
        marks: *const u8,
        marks_length: usize,
        values: *const u16,
        values_length: usize,
        colours: *const u8,
        colours_length: usize,
        slots: *const u8,
        slots_length: usize,
        p: u64,
    ) -> Shown;

    fn slot_gate_alike(
        first: Words,
        regions: *const u8,
        regions_length: usize,
        marks: *const u8,
        marks_length: usize,
        values: *const u16,
        values_length: usize,
        colours: *const u8,
        colours_length: usize,
        slots: *const u8,
        slots_length: usize,
        second: Words,
        regions2: *const u8,
        regions_length2: usize,
        marks2: *const u8,
        marks_length2: usize,
        values2: *const u16,
        values_length2: usize,
        colours2: *const u8,
        colours_length2: usize,
        slots2: *const u8,
        slots_length2: usize,
    ) -> Shown;

    fn slot_gate_records_open(year: u64, n: u64, k: u64, list: *mut Record, length: usize) -> Told;

    fn slot_gate_records_call(
        letter: u8,
        gate: Words,
        list: *mut Record,
        length: usize,
        p: u64,
    ) -> Told;

    fn slot_gate_records_alike(
        first: Words,
        list: *const Record,
        length: usize,
        second: Words,
        list2: *const Record,
        length2: usize,
    ) -> Shown;
}

// SAFETY, of every call below: each pointer and length is a slice's own; slices lent
// to be changed are borrowed mutably, so they are apart from all else that is lent,
// and the others are only read. Words, `Told` and `Shown` are numbers, passed by
// value, and laid out as C has them on both sides. The functions ask nothing else,
// and keep nothing that they are lent.

/// Open, over number slices. The year may be any number.
pub fn open(year: u64, n: u64, k: u64, list: ListMut<'_>) -> Told {
    // SAFETY: as above.
    unsafe {
        slot_gate_open(
            year,
            n,
            k,
            list.regions.as_mut_ptr(),
            list.regions.len(),
            list.marks.as_mut_ptr(),
            list.marks.len(),
            list.values.as_mut_ptr(),
            list.values.len(),
            list.colours.as_mut_ptr(),
            list.colours.len(),
            list.slots.as_mut_ptr(),
            list.slots.len(),
        )
    }
}

/// The call that a letter names, over number slices; number 8 when it names none.
pub fn call(letter: u8, words: Words, list: ListMut<'_>, p: u64) -> Told {
    // SAFETY: as above.
    unsafe {
        slot_gate_call(
            letter,
            words,
            list.regions.as_mut_ptr(),
            list.regions.len(),
            list.marks.as_mut_ptr(),
            list.marks.len(),
            list.values.as_mut_ptr(),
            list.values.len(),
            list.colours.as_mut_ptr(),
            list.colours.len(),
            list.slots.as_mut_ptr(),
            list.slots.len(),
            p,
        )
    }
}

/// Place, over number slices that are only read.
pub fn place(words: Words, list: ListRef<'_>, p: u64) -> Shown {
    // SAFETY: as above.
    unsafe {
        slot_gate_place(
            words,
            list.regions.as_ptr(),
            list.regions.len(),
            list.marks.as_ptr(),
            list.marks.len(),
            list.values.as_ptr(),
            list.values.len(),
            list.colours.as_ptr(),
            list.colours.len(),
            list.slots.as_ptr(),
            list.slots.len(),
            p,
        )
    }
}

/// Alike, over number slices.
pub fn alike(first: Words, list: ListRef<'_>, second: Words, list2: ListRef<'_>) -> Shown {
    // SAFETY: as above.
    unsafe {
        slot_gate_alike(
            first,
            list.regions.as_ptr(),
            list.regions.len(),
            list.marks.as_ptr(),
            list.marks.len(),
            list.values.as_ptr(),
            list.values.len(),
            list.colours.as_ptr(),
            list.colours.len(),
            list.slots.as_ptr(),
            list.slots.len(),
            second,
            list2.regions.as_ptr(),
            list2.regions.len(),
            list2.marks.as_ptr(),
            list2.marks.len(),
            list2.values.as_ptr(),
            list2.values.len(),
            list2.colours.as_ptr(),
            list2.colours.len(),
            list2.slots.as_ptr(),
            list2.slots.len(),
        )
    }
}

/// Open, over records. The year may be any number.
pub fn records_open(year: u64, n: u64, k: u64, list: &mut [Record]) -> Told {
    // SAFETY: as above.
    unsafe { slot_gate_records_open(year, n, k, list.as_mut_ptr(), list.len()) }
}

/// The call that a letter names, over records; number 8 when it names none.
pub fn records_call(letter: u8, words: Words, list: &mut [Record], p: u64) -> Told {
    // SAFETY: as above.
    unsafe { slot_gate_records_call(letter, words, list.as_mut_ptr(), list.len(), p) }
}

/// Alike, over records.
pub fn records_alike(first: Words, list: &[Record], second: Words, list2: &[Record]) -> Shown {
    // SAFETY: as above.
    unsafe {
        slot_gate_records_alike(
            first,
            list.as_ptr(),
            list.len(),
            second,
            list2.as_ptr(),
            list2.len(),
        )
    }
}
