//! The proved slot gate for hosts: k identical slots shared among N plugins,
//! first come, first served.
//!
//! A host opens a [`Gate`] and makes its plugins' calls on it: a plugin takes a
//! ticket, looks until the answer is yes, works inside, and leaves. The yes gives it
//! a slot, numbered 1 to k: the one that was returned longest ago, at first slot 1.
//!
//! ```
//! use slot_gate::{Gate, Slot};
//!
//! let mut gate = Gate::open(3, 2)?;
//! for p in [2, 3, 1] {
//!     gate.take(p)?;
//! }
//! assert_eq!(gate.look(1)?.slot(), None);
//! assert_eq!(gate.look(2)?.slot(), Some(Slot(1)));
//! assert_eq!(gate.look(3)?.slot(), Some(Slot(2)));
//! gate.leave(3)?;
//! assert_eq!(gate.look(1)?.slot(), Some(Slot(2)));
//! # Ok::<(), slot_gate::Refusal>(())
//! ```
//!
//! A [`Verdict`], yes or no, also has the [`Rule`] that decided it.
//!
//! A gate is of 1989 if no other year is named. [`Gate::open_year`] names it: in a gate
//! of [`Year::Y1979`] tickets are numbered otherwise, and all else is the same.
//!
//! # What is proved
//!
//! The calls are written in Rattle, where every function is proved to meet its
//! contract, and are linked from a static library. For both years, every N from 1
//! to 1,024, every k from 1 to 64 (below N, if the year is 1979) and every list of
//! calls in any order, refused ones included, the gate answers as a plain queue: at
//! most k plugins are inside, stopped ones included, and tickets become valid in the
//! order in which they were taken. No two plugins inside have one slot.
//! `docs/AUDIT.md` in the repository says what the theorems are, where they stand,
//! and what is assumed. This crate is not part of the proof: it passes words and
//! slices on and names the answers.
//!
//! # One caller at a time
//!
//! A call that changes the gate takes `&mut self`; place and alike only read it.
//! Plugins that run in threads of their own share a gate through a lock; `examples/till.rs` is such
//! a host. A plugin that halts while it is inside keeps its slot.
//!
//! # The ways to the calls
//!
//! - [`Gate`] owns its words and its list, so they are always sound.
//! - [`lent`] and [`records`] have the same calls on [`Words`] and a list that a host
//!   keeps itself: as five number slices, or as [`Record`]s.
//! - [`NumberedGate`] is the readable gate that a [`Gate`] answers like, for reviews.
//! - `include/slot_gate.h` declares the exported functions for C and C++.
//!
//! # Where the library is
//!
//! `rt lib`, run in the repository's folders `crates/gate_c`, `crates/records_c` and
//! `crates/numbered_gate_c`, proves and writes the archives that this crate links, each
//! into the folder `out` beside its source. They are sought there, or in the folder that
//! the environment variable `SLOT_GATE_LIB` names. The feature `compare`, which no host
//! needs, adds `libforms_c.a` and the module `forms`.

mod call;
mod exports;
#[cfg(feature = "compare")]
pub mod forms;
mod gate;
pub mod lent;
pub mod numbered;
pub mod records;
mod refusal;
mod rule;
mod shown;
mod slot;
mod ticket;
mod words;
mod year;

pub use call::{Answer, Call, Region, Verdict};
pub use gate::Gate;
pub use numbered::NumberedGate;
pub use refusal::Refusal;
pub use rule::Rule;
pub use slot::Slot;
pub use ticket::{Colour, Ticket, Value};
pub use words::{Record, Words, COLOURS, FREE_PLACES};
pub use year::Year;

/// The most plugins that a gate opens for.
pub const MOST_PLUGINS: u64 = 1024;

/// The most slots that a gate opens with.
pub const MOST_SLOTS: u64 = 64;
