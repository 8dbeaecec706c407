//! The exported functions of the numbered gate's archive, safe to call, and what they are
//! given and return.
//!
//! They ask nothing of their caller: words that are not sound, lists of any length, any
//! plugin number and any letter are answered, and a refused call changes nothing.
#![allow(unsafe_code)]

use std::mem::{align_of, offset_of, size_of};

use super::{ListMut, ListRef, Words};

/// What an answer shows. What its kind does not have is 0.
#[repr(C)]
#[derive(Clone, Copy, Debug, PartialEq, Eq)]
pub struct NumberedShown {
    /// 0 for an accepted call, else why it was refused.
    pub number: u8,
    /// Which of the following there is, as the slot gate has it: one of `kind`.
    pub kind: u8,
    /// 1 for a look's yes.
    pub yes: u8,
    /// A take's ticket.
    pub ticket: u64,
    /// A place.
    pub place: u64,
}

/// What a call returns: the words to keep, and what it shows.
#[repr(C)]
#[derive(Clone, Copy, Debug, PartialEq, Eq)]
pub struct NumberedTold {
    /// The words that the call leaves: those that it was given when it is refused, and all 0
    /// when an open is.
    pub gate: Words,
    /// Number and answer.
    pub shown: NumberedShown,
}

// The layouts that the library has.
const _: () = {
    assert!(size_of::<Words>() == 24 && align_of::<Words>() == 8);
    assert!(offset_of!(Words, n) == 0 && offset_of!(Words, k) == 2);
    assert!(offset_of!(Words, issue) == 8 && offset_of!(Words, valid) == 16);
    assert!(size_of::<NumberedShown>() == 24 && align_of::<NumberedShown>() == 8);
    assert!(offset_of!(NumberedShown, number) == 0 && offset_of!(NumberedShown, kind) == 1);
    assert!(offset_of!(NumberedShown, yes) == 2 && offset_of!(NumberedShown, ticket) == 8);
    assert!(offset_of!(NumberedShown, place) == 16);
    assert!(size_of::<NumberedTold>() == 48 && align_of::<NumberedTold>() == 8);
    assert!(offset_of!(NumberedTold, gate) == 0 && offset_of!(NumberedTold, shown) == 24);
};

// As in crates/numbered_gate_c/src: nothing but the tests checks one against the other. A slice
// there is a pointer and a length here.
extern "C" {
    fn numbered_gate_open(
        n: u64,
        k: u64,
        regions: *mut u8,
        regions_length: usize,
        marks: *mut u8,
        marks_length: usize,
        tickets: *mut u64,
        tickets_length: usize,
    ) -> NumberedTold;

    fn numbered_gate_call(
        letter: u8,
        gate: Words,
        regions: *mut u8,
        regions_length: usize,
        marks: *mut u8,
        marks_length: usize,
        tickets: *mut u64,
        tickets_length: usize,
        p: u64,
    ) -> NumberedTold;

    fn numbered_gate_place(
        gate: Words,
        regions: *const u8,
        regions_length: usize,
        marks: *const u8,
        marks_length: usize,
        tickets: *const u64,
        tickets_length: usize,
        p: u64,
    ) -> NumberedShown;
}

// SAFETY, of every call below: each pointer and length is a slice's own; slices lent to be
// changed are borrowed mutably, so they are apart from all else that is lent, and the others
// are only read. Words, `NumberedTold` and `NumberedShown` are numbers, passed by value, and
// laid out as C has them on both sides. The functions ask nothing else, and keep nothing that
// they are lent.

/// Open.
pub fn open(n: u64, k: u64, list: ListMut<'_>) -> NumberedTold {
    // SAFETY: as above.
    unsafe {
        numbered_gate_open(
            n,
            k,
            list.regions.as_mut_ptr(),
            list.regions.len(),
            list.marks.as_mut_ptr(),
            list.marks.len(),
            list.tickets.as_mut_ptr(),
            list.tickets.len(),
        )
    }
}

/// The call that a letter names; number 8 when it names none.
pub fn call(letter: u8, words: Words, list: ListMut<'_>, p: u64) -> NumberedTold {
    // SAFETY: as above.
    unsafe {
        numbered_gate_call(
            letter,
            words,
            list.regions.as_mut_ptr(),
            list.regions.len(),
            list.marks.as_mut_ptr(),
            list.marks.len(),
            list.tickets.as_mut_ptr(),
            list.tickets.len(),
            p,
        )
    }
}

/// Place, over slices that are only read.
pub fn place(words: Words, list: ListRef<'_>, p: u64) -> NumberedShown {
    // SAFETY: as above.
    unsafe {
        numbered_gate_place(
            words,
            list.regions.as_ptr(),
            list.regions.len(),
            list.marks.as_ptr(),
            list.marks.len(),
            list.tickets.as_ptr(),
            list.tickets.len(),
            p,
        )
    }
}
