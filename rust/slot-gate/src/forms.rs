//! What only comparisons need, with the feature `compare`: the exported functions
//! as they are, with answers as numbers and calls by any letter; and the forms of
//! libforms_c.a: take and leave on a lent gate, look, stop and wake on words that are
//! passed, next call, the replay of a list of calls, and the numbered gate's take, look,
//! leave, stop and wake.
//!
//! As elsewhere, each call answers whatever it is lent, and a refused one changes
//! nothing.
#![allow(unsafe_code)]

use std::mem::{align_of, offset_of, size_of};

use crate::lent::ListMut;
use crate::numbered;
use crate::words::Words;

pub use crate::exports::{alike, call, open, place, records_alike, records_call, records_open};
pub use crate::numbered::exports::place as numbered_place;
pub use crate::numbered::exports::{call as numbered_call, open as numbered_open};
pub use crate::numbered::exports::{NumberedShown, NumberedTold};
pub use crate::shown::{kind, rule, RuleShown, Shown, Told};

/// What a part of a schedule begins with: its kind (0 end, 1 an open, 2 a call, 3
/// no line of the grammar), the call's letter, and an open's N and k or a call's
/// plugin. What the kind does not have is 0.
pub type Line = [u64; 4];

/// How a replay ended.
pub mod ended {
    /// The calls were run.
    pub const RAN: u8 = 0;
    /// The open was refused.
    pub const NOT_OPENED: u8 = 1;
    /// A call has no plugin number, or no room for its result.
    pub const TOO_SHORT: u8 = 2;
    /// A letter names no call.
    pub const NO_SUCH_CALL: u8 = 3;
}

/// What a replay returns.
#[repr(C)]
#[derive(Clone, Copy, Debug, PartialEq, Eq)]
pub struct Replay {
    /// The words that the last call left; all 0 unless the calls were run.
    pub gate: Words,
    /// One of [`ended`].
    pub ended: u8,
    /// The number of a refused open, else 0.
    pub number: u8,
}

// The layout that the library has.
const _: () = {
    assert!(size_of::<Replay>() == 146 && align_of::<Replay>() == 2);
    assert!(offset_of!(Replay, gate) == 0);
    assert!(offset_of!(Replay, ended) == 144 && offset_of!(Replay, number) == 145);
};

// The same of what a numbered call returns: there the numbers of what is shown follow
// the words in one struct.
const _: () = {
    let shown = offset_of!(NumberedTold, shown);
    assert!(size_of::<NumberedTold>() == 48 && align_of::<NumberedTold>() == 8);
    assert!(offset_of!(NumberedTold, gate) == 0);
    assert!(shown + offset_of!(NumberedShown, number) == 24);
    assert!(shown + offset_of!(NumberedShown, kind) == 25);
    assert!(shown + offset_of!(NumberedShown, yes) == 26);
    assert!(shown + offset_of!(NumberedShown, ticket) == 32);
    assert!(shown + offset_of!(NumberedShown, place) == 40);
};

/// Where a replay writes the results of its calls, an element for each call.
#[derive(Debug)]
pub struct Results<'a> {
    /// 0 for an accepted call, else why it was refused.
    pub numbers: &'a mut [u8],
    /// 1 for yes, else 0.
    pub verdicts: &'a mut [u8],
    /// The place, else 0.
    pub places: &'a mut [u16],
    /// The value of a take's ticket, else 0.
    pub tickets: &'a mut [u16],
    /// The colour of a take's ticket, else 0.
    pub shades: &'a mut [u8],
    /// The slot that a yes gave, else 0.
    pub given: &'a mut [u8],
    /// The rule that decided a look, else 0: one of [`rule`].
    pub rules: &'a mut [u8],
    /// The ticket's value or colour, as the rule has it, else 0.
    pub of_tickets: &'a mut [u16],
    /// VALID's value or the count, as the rule has it, else 0.
    pub against: &'a mut [u16],
}

// As in crates/forms_c/src: nothing but the tests checks one against the other. A
// slice there is a pointer and a length here.
extern "C" {
    fn slot_gate_in_place_take(
        gate: &mut Words,
        regions: *mut u8,
        regions_length: usize,
        marks: *const u8,
        marks_length: usize,
        values: *mut u16,
        values_length: usize,
        colours: *mut u8,
        colours_length: usize,
        slots: *const u8,
        slots_length: usize,
        p: u64,
    ) -> Shown;

    fn slot_gate_in_place_leave(
        gate: &mut Words,
        regions: *mut u8,
        regions_length: usize,
        marks: *const u8,
        marks_length: usize,
        values: *mut u16,
        values_length: usize,
        colours: *mut u8,
        colours_length: usize,
        slots: *mut u8,
        slots_length: usize,
        p: u64,
    ) -> Shown;

    fn slot_gate_passed_look(
        gate: Words,
        regions: *mut u8,
        regions_length: usize,
        marks: *const u8,
        marks_length: usize,
        values: *const u16,
        values_length: usize,
        colours: *const u8,
        colours_length: usize,
        slots: *mut u8,
        slots_length: usize,
        p: u64,
    ) -> Told;

    fn slot_gate_passed_stop(
        gate: Words,
        regions: *const u8,
        regions_length: usize,
        marks: *mut u8,
        marks_length: usize,
        values: *const u16,
        values_length: usize,
        colours: *const u8,
        colours_length: usize,
        slots: *const u8,
        slots_length: usize,
        p: u64,
    ) -> Told;

    fn slot_gate_passed_wake(
        gate: Words,
        regions: *const u8,
        regions_length: usize,
        marks: *mut u8,
        marks_length: usize,
        values: *const u16,
        values_length: usize,
        colours: *const u8,
        colours_length: usize,
        slots: *const u8,
        slots_length: usize,
        p: u64,
    ) -> Told;

    fn slot_gate_next_line(part: *const u8, length: usize, line: &mut Line) -> usize;

    fn slot_gate_replay(
        year: u64,
        n: u64,
        k: u64,
        calls: *const u8,
        calls_length: usize,
        plugins: *const u64,
        plugins_length: usize,
        regions: *mut u8,
        regions_length: usize,
        marks: *mut u8,
        marks_length: usize,
        values: *mut u16,
        values_length: usize,
        colours: *mut u8,
        colours_length: usize,
        slots: *mut u8,
        slots_length: usize,
        numbers: *mut u8,
        numbers_length: usize,
        verdicts: *mut u8,
        verdicts_length: usize,
        places: *mut u16,
        places_length: usize,
        tickets: *mut u16,
        tickets_length: usize,
        shades: *mut u8,
        shades_length: usize,
        given: *mut u8,
        given_length: usize,
        rules: *mut u8,
        rules_length: usize,
        of_tickets: *mut u16,
        of_tickets_length: usize,
        against: *mut u16,
        against_length: usize,
    ) -> Replay;

    fn numbered_gate_passed_take(
        gate: numbered::Words,
        regions: *mut u8,
        regions_length: usize,
        marks: *const u8,
        marks_length: usize,
        tickets: *mut u64,
        tickets_length: usize,
        p: u64,
    ) -> NumberedTold;

    fn numbered_gate_passed_look(
        gate: numbered::Words,
        regions: *mut u8,
        regions_length: usize,
        marks: *const u8,
        marks_length: usize,
        tickets: *const u64,
        tickets_length: usize,
        p: u64,
    ) -> NumberedTold;

    fn numbered_gate_passed_leave(
        gate: numbered::Words,
        regions: *mut u8,
        regions_length: usize,
        marks: *const u8,
        marks_length: usize,
        tickets: *mut u64,
        tickets_length: usize,
        p: u64,
    ) -> NumberedTold;

    fn numbered_gate_passed_stop(
        gate: numbered::Words,
        regions: *const u8,
        regions_length: usize,
        marks: *mut u8,
        marks_length: usize,
        tickets: *const u64,
        tickets_length: usize,
        p: u64,
    ) -> NumberedTold;

    fn numbered_gate_passed_wake(
        gate: numbered::Words,
        regions: *const u8,
        regions_length: usize,
        marks: *mut u8,
        marks_length: usize,
        tickets: *const u64,
        tickets_length: usize,
        p: u64,
    ) -> NumberedTold;
}

// SAFETY, of every call below: each pointer and length is a slice's own, and the rest
// are numbers and references; what is lent to be changed is borrowed mutably, so it
// is apart from all else that is lent, and the others are only read. The structs are
// laid out as C has them on both sides. The functions ask nothing else, and keep
// nothing that they are lent.

/// Take, with the words changed where they lie.
pub fn in_place_take(words: &mut Words, list: ListMut<'_>, p: u64) -> Shown {
    // SAFETY: as above.
    unsafe {
        slot_gate_in_place_take(
            words,
            list.regions.as_mut_ptr(),
            list.regions.len(),
            list.marks.as_ptr(),
            list.marks.len(),
            list.values.as_mut_ptr(),
            list.values.len(),
            list.colours.as_mut_ptr(),
            list.colours.len(),
            list.slots.as_ptr(),
            list.slots.len(),
            p,
        )
    }
}

/// Leave, with the words changed where they lie.
pub fn in_place_leave(words: &mut Words, list: ListMut<'_>, p: u64) -> Shown {
    // SAFETY: as above.
    unsafe {
        slot_gate_in_place_leave(
            words,
            list.regions.as_mut_ptr(),
            list.regions.len(),
            list.marks.as_ptr(),
            list.marks.len(),
            list.values.as_mut_ptr(),
            list.values.len(),
            list.colours.as_mut_ptr(),
            list.colours.len(),
            list.slots.as_mut_ptr(),
            list.slots.len(),
            p,
        )
    }
}

/// Look, with no slice lent for writing but the regions and the slots.
pub fn passed_look(words: Words, list: ListMut<'_>, p: u64) -> Told {
    // SAFETY: as above.
    unsafe {
        slot_gate_passed_look(
            words,
            list.regions.as_mut_ptr(),
            list.regions.len(),
            list.marks.as_ptr(),
            list.marks.len(),
            list.values.as_ptr(),
            list.values.len(),
            list.colours.as_ptr(),
            list.colours.len(),
            list.slots.as_mut_ptr(),
            list.slots.len(),
            p,
        )
    }
}

/// Stop, with no slice lent for writing but the marks.
pub fn passed_stop(words: Words, list: ListMut<'_>, p: u64) -> Told {
    // SAFETY: as above.
    unsafe {
        slot_gate_passed_stop(
            words,
            list.regions.as_ptr(),
            list.regions.len(),
            list.marks.as_mut_ptr(),
            list.marks.len(),
            list.values.as_ptr(),
            list.values.len(),
            list.colours.as_ptr(),
            list.colours.len(),
            list.slots.as_ptr(),
            list.slots.len(),
            p,
        )
    }
}

/// Wake, with no slice lent for writing but the marks.
pub fn passed_wake(words: Words, list: ListMut<'_>, p: u64) -> Told {
    // SAFETY: as above.
    unsafe {
        slot_gate_passed_wake(
            words,
            list.regions.as_ptr(),
            list.regions.len(),
            list.marks.as_mut_ptr(),
            list.marks.len(),
            list.values.as_ptr(),
            list.values.len(),
            list.colours.as_ptr(),
            list.colours.len(),
            list.slots.as_ptr(),
            list.slots.len(),
            p,
        )
    }
}

/// Next call: what a part of a schedule begins with, and the rest of the part.
///
/// ```
/// let (line, rest) = slot_gate::forms::next_line(b"T 12\nL 3\n");
/// assert_eq!(line, [2, b'T'.into(), 12, 0]);
/// assert_eq!(rest, b"L 3\n");
/// ```
pub fn next_line(part: &[u8]) -> (Line, &[u8]) {
    let mut line = [0; 4];
    // SAFETY: as above.
    let rest = unsafe { slot_gate_next_line(part.as_ptr(), part.len(), &mut line) };
    (line, &part[part.len() - rest..])
}

/// Replay: opens a gate of a year over the list and runs the calls on it, each a
/// letter with the plugin number at the same index, and writes what each answers.
///
/// ```
/// use slot_gate::forms::{ended, replay, rule, Results};
/// use slot_gate::lent::ListMut;
///
/// let list = ListMut {
///     regions: &mut [0; 2],
///     marks: &mut [0; 2],
///     values: &mut [0; 2],
///     colours: &mut [0; 2],
///     slots: &mut [0; 2],
/// };
/// let (mut numbers, mut verdicts) = ([9; 3], [9; 3]);
/// let (mut given, mut rules) = ([9; 3], [9; 3]);
/// let results = Results {
///     numbers: &mut numbers,
///     verdicts: &mut verdicts,
///     places: &mut [9; 3],
///     tickets: &mut [9; 3],
///     shades: &mut [9; 3],
///     given: &mut given,
///     rules: &mut rules,
///     of_tickets: &mut [9; 3],
///     against: &mut [9; 3],
/// };
/// let replay = replay(1989, 2, 1, b"TLB", &[1, 1, 2], list, results);
/// assert_eq!(replay.ended, ended::RAN);
/// assert_eq!((numbers, verdicts), ([0, 0, 6], [0, 1, 0]));
/// assert_eq!((given, rules), ([0, 1, 0], [0, rule::NOT_ABOVE, 0]));
/// ```
pub fn replay(
    year: u64,
    n: u64,
    k: u64,
    calls: &[u8],
    plugins: &[u64],
    list: ListMut<'_>,
    results: Results<'_>,
) -> Replay {
    // SAFETY: as above.
    unsafe {
        slot_gate_replay(
            year,
            n,
            k,
            calls.as_ptr(),
            calls.len(),
            plugins.as_ptr(),
            plugins.len(),
            list.regions.as_mut_ptr(),
            list.regions.len(),
            list.marks.as_mut_ptr(),
            list.marks.len(),
            list.values.as_mut_ptr(),
            list.values.len(),
            list.colours.as_mut_ptr(),
            list.colours.len(),
            list.slots.as_mut_ptr(),
            list.slots.len(),
            results.numbers.as_mut_ptr(),
            results.numbers.len(),
            results.verdicts.as_mut_ptr(),
            results.verdicts.len(),
            results.places.as_mut_ptr(),
            results.places.len(),
            results.tickets.as_mut_ptr(),
            results.tickets.len(),
            results.shades.as_mut_ptr(),
            results.shades.len(),
            results.given.as_mut_ptr(),
            results.given.len(),
            results.rules.as_mut_ptr(),
            results.rules.len(),
            results.of_tickets.as_mut_ptr(),
            results.of_tickets.len(),
            results.against.as_mut_ptr(),
            results.against.len(),
        )
    }
}

/// The numbered gate's take, with no slice lent for writing but the regions and the tickets.
pub fn numbered_passed_take(
    words: numbered::Words,
    list: numbered::ListMut<'_>,
    p: u64,
) -> NumberedTold {
    // SAFETY: as above.
    unsafe {
        numbered_gate_passed_take(
            words,
            list.regions.as_mut_ptr(),
            list.regions.len(),
            list.marks.as_ptr(),
            list.marks.len(),
            list.tickets.as_mut_ptr(),
            list.tickets.len(),
            p,
        )
    }
}

/// The numbered gate's look, with no slice lent for writing but the regions.
pub fn numbered_passed_look(
    words: numbered::Words,
    list: numbered::ListMut<'_>,
    p: u64,
) -> NumberedTold {
    // SAFETY: as above.
    unsafe {
        numbered_gate_passed_look(
            words,
            list.regions.as_mut_ptr(),
            list.regions.len(),
            list.marks.as_ptr(),
            list.marks.len(),
            list.tickets.as_ptr(),
            list.tickets.len(),
            p,
        )
    }
}

/// The numbered gate's leave, with no slice lent for writing but the regions and the tickets.
pub fn numbered_passed_leave(
    words: numbered::Words,
    list: numbered::ListMut<'_>,
    p: u64,
) -> NumberedTold {
    // SAFETY: as above.
    unsafe {
        numbered_gate_passed_leave(
            words,
            list.regions.as_mut_ptr(),
            list.regions.len(),
            list.marks.as_ptr(),
            list.marks.len(),
            list.tickets.as_mut_ptr(),
            list.tickets.len(),
            p,
        )
    }
}

/// The numbered gate's stop, with no slice lent for writing but the marks.
pub fn numbered_passed_stop(
    words: numbered::Words,
    list: numbered::ListMut<'_>,
    p: u64,
) -> NumberedTold {
    // SAFETY: as above.
    unsafe {
        numbered_gate_passed_stop(
            words,
            list.regions.as_ptr(),
            list.regions.len(),
            list.marks.as_mut_ptr(),
            list.marks.len(),
            list.tickets.as_ptr(),
            list.tickets.len(),
            p,
        )
    }
}

/// The numbered gate's wake, with no slice lent for writing but the marks.
pub fn numbered_passed_wake(
    words: numbered::Words,
    list: numbered::ListMut<'_>,
    p: u64,
) -> NumberedTold {
    // SAFETY: as above.
    unsafe {
        numbered_gate_passed_wake(
            words,
            list.regions.as_ptr(),
            list.regions.len(),
            list.marks.as_mut_ptr(),
            list.marks.len(),
            list.tickets.as_ptr(),
            list.tickets.len(),
            p,
        )
    }
}
