//! The numbers of the slots.

use std::fmt;
use std::mem::size_of;

/// A slot by its number, 1 to k: the session number that a receipt shows. In words
/// and records 0 stands for none; no answer has it.
///
/// ```
/// use slot_gate::{Gate, Refusal, Slot};
///
/// let mut gate = Gate::open(2, 3)?;
/// gate.take(2)?;
/// assert_eq!(gate.look(2)?.slot(), Some(Slot(1)));
/// let slot = gate.slot(2).expect("the plugin is inside");
/// assert_eq!((slot.0, slot.to_string().as_str()), (1, "1"));
/// # Ok::<(), Refusal>(())
/// ```
#[repr(C)]
#[derive(Clone, Copy, Debug, Default, PartialEq, Eq, Hash)]
pub struct Slot(pub u8);

// The layout that the libraries have.
const _: () = assert!(size_of::<Slot>() == 1);

/// The number.
impl fmt::Display for Slot {
    fn fmt(&self, out: &mut fmt::Formatter<'_>) -> fmt::Result {
        self.0.fmt(out)
    }
}
