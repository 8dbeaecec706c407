//! The numbered gate: the readable gate that the coloured one, [`Gate`](crate::Gate), is
//! proved to answer like.
//!
//! Its tickets are numbers: ISSUE, the ticket last handed out, begins at 0, VALID, the ticket
//! last made valid, at k; a take adds 1 to ISSUE, a leave adds 1 to VALID, and a ticket is
//! valid when it is not above VALID. Whoever believes that at sight has the coloured gate's
//! answers: given the same open and calls, until this gate's first
//! [`Refusal::CounterAtEnd`], both answer the same numbers, yes or no and places, and a
//! ticket's value in the gate of 1989 is the remainder of the number by the block's size. It
//! is for reviews: it knows no slots and no rules.
//!
//! ```
//! use slot_gate::{Gate, NumberedGate, Refusal};
//!
//! let (mut gate, mut readable) = (Gate::open(3, 1)?, NumberedGate::open(3, 1)?);
//! for (p, number) in [(1, 1), (2, 2), (3, 3)] {
//!     assert_eq!(readable.take(p)?, number);
//!     // A block has three tickets here, so the third begins another.
//!     assert_eq!(u64::from(gate.take(p)?.value.0), number % 3);
//! }
//! assert_eq!([readable.place(2)?, readable.place(3)?], [1, 2]);
//! assert!(readable.look(1)? && !readable.look(2)?);
//! readable.leave(1)?;
//! assert!(readable.look(2)?);
//! # Ok::<(), Refusal>(())
//! ```
//!
//! [`open`], [`call`] and [`place`] have the same calls on words and a list that a host keeps
//! itself.

pub(crate) mod exports;

use crate::call::{Call, Region};
use crate::refusal::Refusal;
use crate::shown::{kind, no_answer};
use crate::MOST_PLUGINS;
use exports::NumberedShown;

/// The words of a numbered gate.
#[repr(C)]
#[derive(Clone, Copy, Debug, PartialEq, Eq, Hash)]
pub struct Words {
    /// N, the number of plugins.
    pub n: u16,
    /// k, the number of plugins that may be inside.
    pub k: u8,
    /// ISSUE, the ticket last handed out.
    pub issue: u64,
    /// VALID, the ticket last made valid.
    pub valid: u64,
}

impl Words {
    /// All words 0: no gate. Every call on them is refused.
    pub const ZERO: Words = Words {
        n: 0,
        k: 0,
        issue: 0,
        valid: 0,
    };
}

/// The plugin list, lent to be changed: the record of plugin p is at p - 1 in each slice.
#[derive(Debug)]
pub struct ListMut<'a> {
    /// 0 idle, 1 waiting, 2 inside.
    pub regions: &'a mut [u8],
    /// 1 for a stopped plugin, else 0.
    pub marks: &'a mut [u8],
    /// The tickets held, 0 for an idle plugin.
    pub tickets: &'a mut [u64],
}

impl ListMut<'_> {
    /// The list lent on, for one call.
    pub fn lend(&mut self) -> ListMut<'_> {
        ListMut {
            regions: self.regions,
            marks: self.marks,
            tickets: self.tickets,
        }
    }

    /// The list lent on to be read.
    pub fn show(&self) -> ListRef<'_> {
        ListRef {
            regions: self.regions,
            marks: self.marks,
            tickets: self.tickets,
        }
    }
}

/// The plugin list, lent to be read: as [`ListMut`].
#[derive(Clone, Copy, Debug)]
pub struct ListRef<'a> {
    /// 0 idle, 1 waiting, 2 inside.
    pub regions: &'a [u8],
    /// 1 for a stopped plugin, else 0.
    pub marks: &'a [u8],
    /// The tickets held, 0 for an idle plugin.
    pub tickets: &'a [u64],
}

/// What an accepted call answers.
#[non_exhaustive]
#[derive(Clone, Copy, Debug, PartialEq, Eq, Hash)]
pub enum Answer {
    /// The ticket that a take handed out.
    Ticket(u64),
    /// What a look was told: yes puts the plugin inside.
    YesOrNo(bool),
    /// A place: how many returns it takes until the plugin's ticket is valid.
    Place(u64),
    /// A leave, a stop or a wake is done.
    Done,
}

/// Opens a gate: its words, and all records idle and unmarked.
///
/// # Errors
///
/// [`Refusal::OutOfRange`], and [`Refusal::WrongLength`] when the slices are not all as long
/// as there are plugins. The list is then as it was.
pub fn open(plugins: u64, slots: u64, list: ListMut<'_>) -> Result<Words, Refusal> {
    let told = exports::open(plugins, slots, list);
    match answer(told.shown)? {
        Answer::Done => Ok(told.gate),
        other => no_answer("an open", other),
    }
}

/// A call of plugin p. An accepted one changes words and list as the call says.
///
/// # Errors
///
/// [`Refusal::WrongLength`], [`Refusal::NotSound`], [`Refusal::NoSuchPlugin`], and those of
/// the call. Words and list are then as they were.
///
/// A counter at its end can't be reached by calls, but words can be made so:
///
/// ```
/// use slot_gate::numbered::{self, Answer, ListMut, Words};
/// use slot_gate::{Call, Refusal};
///
/// // One plugin is inside, with the last ticket but one; the other is idle.
/// let last = u64::MAX - 1;
/// let mut words = Words { n: 2, k: 1, issue: last, valid: last };
/// let (mut regions, mut marks, mut tickets) = ([2, 0], [0, 0], [last, 0]);
/// let mut list = ListMut {
///     regions: &mut regions,
///     marks: &mut marks,
///     tickets: &mut tickets,
/// };
/// let answer = numbered::call(Call::Take, &mut words, list.lend(), 2);
/// assert_eq!(answer, Ok(Answer::Ticket(u64::MAX)));
/// let answer = numbered::call(Call::Leave, &mut words, list.lend(), 1);
/// assert_eq!(answer, Ok(Answer::Done));
/// let answer = numbered::call(Call::Take, &mut words, list.lend(), 1);
/// assert_eq!(answer, Err(Refusal::CounterAtEnd));
/// assert_eq!((words.issue, words.valid), (u64::MAX, u64::MAX));
/// ```
pub fn call(call: Call, words: &mut Words, list: ListMut<'_>, p: u64) -> Result<Answer, Refusal> {
    let told = exports::call(call.letter(), *words, list, p);
    *words = told.gate;
    answer(told.shown)
}

/// How many returns plugin p, which waits, still waits for: [`Call::Place`] on words and list
/// that are only read.
///
/// # Errors
///
/// As [`call`].
pub fn place(words: &Words, list: ListRef<'_>, p: u64) -> Result<u64, Refusal> {
    match answer(exports::place(*words, list, p))? {
        Answer::Place(place) => Ok(place),
        other => no_answer("a place", other),
    }
}

/// The answer that shows this, or why there is none. What the kind does not have is 0.
fn answer(shown: NumberedShown) -> Result<Answer, Refusal> {
    let NumberedShown {
        number,
        kind,
        yes,
        ticket,
        place,
    } = shown;
    match (kind, number, yes, ticket, place) {
        (kind::TICKET, 0, 0, _, 0) => Ok(Answer::Ticket(ticket)),
        (kind::YES_OR_NO, 0, 0 | 1, 0, 0) => Ok(Answer::YesOrNo(yes == 1)),
        (kind::PLACE, 0, 0, 0, _) => Ok(Answer::Place(place)),
        (kind::DONE, 0, 0, 0, 0) => Ok(Answer::Done),
        (kind::REFUSED, _, 0, 0, 0) => match Refusal::of_number(number) {
            Some(refusal) => Err(refusal),
            None => no_answer("a refusal", number),
        },
        _ => no_answer("an answer", shown),
    }
}

/// A numbered gate for N plugins, of which k may be inside, that owns its words and its list:
/// see [`numbered`](self).
///
/// Only the proved calls change them, so they are always sound, and no call answers
/// [`Refusal::WrongLength`] or [`Refusal::NotSound`]; nor does a call answer
/// [`Refusal::CounterAtEnd`] before 18,446,744,073,709,551,615 tickets were taken, or so many
/// less k leaves made.
#[derive(Clone, Debug, PartialEq, Eq)]
pub struct NumberedGate {
    words: Words,
    regions: Vec<u8>,
    marks: Vec<u8>,
    tickets: Vec<u64>,
}

impl NumberedGate {
    /// Opens a gate: all plugins are idle and none is stopped.
    ///
    /// # Errors
    ///
    /// [`Refusal::OutOfRange`] when `plugins` is not 1 to 1,024 or `slots` not 1 to 64.
    ///
    /// ```
    /// use slot_gate::{NumberedGate, Refusal};
    ///
    /// let gate = NumberedGate::open(1024, 64)?;
    /// assert_eq!((gate.plugins(), gate.slots()), (1024, 64));
    /// assert_eq!((gate.issue(), gate.valid()), (0, 64));
    /// assert_eq!(NumberedGate::open(1024, 65), Err(Refusal::OutOfRange));
    /// # Ok::<(), Refusal>(())
    /// ```
    pub fn open(plugins: u64, slots: u64) -> Result<NumberedGate, Refusal> {
        // An N that is too large is refused before the list's length is read.
        let length = if plugins > MOST_PLUGINS { 0 } else { plugins } as usize;
        let mut gate = NumberedGate {
            words: Words::ZERO,
            regions: vec![0; length],
            marks: vec![0; length],
            tickets: vec![0; length],
        };
        gate.words = open(plugins, slots, gate.lend().1)?;
        Ok(gate)
    }

    /// Plugin p, idle until now, takes the next number and waits.
    ///
    /// # Errors
    ///
    /// [`Refusal::NoSuchPlugin`], [`Refusal::Stopped`], [`Refusal::WrongRegion`] when p is not
    /// idle, and [`Refusal::CounterAtEnd`] when there is no next number.
    ///
    /// ```
    /// use slot_gate::{NumberedGate, Refusal};
    ///
    /// let mut gate = NumberedGate::open(2, 1)?;
    /// assert_eq!((gate.take(2)?, gate.take(1)?), (1, 2));
    /// assert_eq!(gate.take(2), Err(Refusal::WrongRegion));
    /// assert_eq!(gate.take(3), Err(Refusal::NoSuchPlugin));
    /// # Ok::<(), Refusal>(())
    /// ```
    pub fn take(&mut self, p: u64) -> Result<u64, Refusal> {
        match self.call(Call::Take, p)? {
            Answer::Ticket(ticket) => Ok(ticket),
            other => no_answer("a take", other),
        }
    }

    /// Plugin p, which waits, looks whether its ticket is valid. Yes puts it inside; no
    /// changes nothing.
    ///
    /// # Errors
    ///
    /// [`Refusal::NoSuchPlugin`], [`Refusal::Stopped`], and [`Refusal::WrongRegion`] when p
    /// does not wait.
    ///
    /// ```
    /// use slot_gate::{NumberedGate, Refusal};
    ///
    /// let mut gate = NumberedGate::open(2, 1)?;
    /// gate.take(1)?;
    /// gate.take(2)?;
    /// assert!(!gate.look(2)?);
    /// assert!(gate.look(1)?);
    /// assert_eq!(gate.look(1), Err(Refusal::WrongRegion));
    /// # Ok::<(), Refusal>(())
    /// ```
    pub fn look(&mut self, p: u64) -> Result<bool, Refusal> {
        match self.call(Call::Look, p)? {
            Answer::YesOrNo(yes) => Ok(yes),
            other => no_answer("a look", other),
        }
    }

    /// Plugin p, which is inside or waits with a valid ticket, leaves: it is idle, its ticket
    /// gone, and the next ticket becomes valid.
    ///
    /// # Errors
    ///
    /// [`Refusal::NoSuchPlugin`], [`Refusal::Stopped`], [`Refusal::WrongRegion`] when p is
    /// idle, [`Refusal::NotYetValid`] when it waits and its ticket is not valid, and
    /// [`Refusal::CounterAtEnd`] when there is no next ticket.
    ///
    /// ```
    /// use slot_gate::{NumberedGate, Refusal};
    ///
    /// let mut gate = NumberedGate::open(2, 1)?;
    /// gate.take(1)?;
    /// gate.take(2)?;
    /// assert_eq!(gate.leave(2), Err(Refusal::NotYetValid));
    /// gate.leave(1)?;
    /// assert_eq!((gate.issue(), gate.valid()), (2, 2));
    /// # Ok::<(), Refusal>(())
    /// ```
    pub fn leave(&mut self, p: u64) -> Result<(), Refusal> {
        self.done(Call::Leave, p)
    }

    /// How many returns plugin p, which waits, still waits for: 0 if its ticket is not above
    /// VALID, else the difference.
    ///
    /// # Errors
    ///
    /// [`Refusal::NoSuchPlugin`], [`Refusal::Stopped`], and [`Refusal::WrongRegion`] when p
    /// does not wait.
    ///
    /// ```
    /// use slot_gate::{NumberedGate, Refusal};
    ///
    /// let mut gate = NumberedGate::open(3, 1)?;
    /// for p in [3, 1, 2] {
    ///     gate.take(p)?;
    /// }
    /// assert_eq!([gate.place(3)?, gate.place(1)?, gate.place(2)?], [0, 1, 2]);
    /// # Ok::<(), Refusal>(())
    /// ```
    pub fn place(&self, p: u64) -> Result<u64, Refusal> {
        let list = ListRef {
            regions: &self.regions,
            marks: &self.marks,
            tickets: &self.tickets,
        };
        place(&self.words, list, p)
    }

    /// Stops plugin p. It keeps its region and its ticket.
    ///
    /// # Errors
    ///
    /// [`Refusal::NoSuchPlugin`], and [`Refusal::Stopped`] when p is stopped already.
    ///
    /// ```
    /// use slot_gate::{NumberedGate, Refusal};
    ///
    /// let mut gate = NumberedGate::open(1, 1)?;
    /// gate.stop(1)?;
    /// assert_eq!(gate.take(1), Err(Refusal::Stopped));
    /// gate.wake(1)?;
    /// assert_eq!(gate.wake(1), Err(Refusal::NotStopped));
    /// # Ok::<(), Refusal>(())
    /// ```
    pub fn stop(&mut self, p: u64) -> Result<(), Refusal> {
        self.done(Call::Stop, p)
    }

    /// Wakes plugin p, which is stopped.
    ///
    /// # Errors
    ///
    /// [`Refusal::NoSuchPlugin`], and [`Refusal::NotStopped`].
    pub fn wake(&mut self, p: u64) -> Result<(), Refusal> {
        self.done(Call::Wake, p)
    }

    /// N, the number of plugins.
    pub fn plugins(&self) -> u16 {
        self.words.n
    }

    /// k, the number of plugins that may be inside.
    pub fn slots(&self) -> u8 {
        self.words.k
    }

    /// ISSUE, the ticket last handed out.
    pub fn issue(&self) -> u64 {
        self.words.issue
    }

    /// VALID, the ticket last made valid.
    pub fn valid(&self) -> u64 {
        self.words.valid
    }

    /// Where plugin p is; none when there is no such plugin.
    pub fn region(&self, p: u64) -> Option<Region> {
        Some(match self.regions[self.record(p)?] {
            0 => Region::Idle,
            1 => Region::Waiting,
            2 => Region::Inside,
            other => no_answer("a region", other),
        })
    }

    /// Whether plugin p is stopped; none when there is no such plugin.
    pub fn is_stopped(&self, p: u64) -> Option<bool> {
        Some(self.marks[self.record(p)?] != 0)
    }

    /// The ticket that plugin p holds; none when it is idle or there is no such plugin.
    pub fn ticket(&self, p: u64) -> Option<u64> {
        let held = self.region(p)? != Region::Idle;
        held.then(|| self.tickets[p as usize - 1])
    }

    /// The index of p's record.
    fn record(&self, p: u64) -> Option<usize> {
        let i = usize::try_from(p.checked_sub(1)?).ok()?;
        (i < self.regions.len()).then_some(i)
    }

    fn call(&mut self, name: Call, p: u64) -> Result<Answer, Refusal> {
        let (words, list) = self.lend();
        call(name, words, list, p)
    }

    /// A call whose answer is that it is done.
    fn done(&mut self, name: Call, p: u64) -> Result<(), Refusal> {
        match self.call(name, p)? {
            Answer::Done => Ok(()),
            other => no_answer("a call that is done", other),
        }
    }

    fn lend(&mut self) -> (&mut Words, ListMut<'_>) {
        let list = ListMut {
            regions: &mut self.regions,
            marks: &mut self.marks,
            tickets: &mut self.tickets,
        };
        (&mut self.words, list)
    }
}

#[cfg(test)]
mod tests {
    use super::*;

    fn shown(number: u8, kind: u8, yes: u8, ticket: u64, place: u64) -> NumberedShown {
        NumberedShown {
            number,
            kind,
            yes,
            ticket,
            place,
        }
    }

    #[test]
    fn answers() {
        for (number, wanted) in [(0, 0), (7, 7), (u64::MAX, u64::MAX)] {
            let took = shown(0, kind::TICKET, 0, number, 0);
            assert_eq!(answer(took), Ok(Answer::Ticket(wanted)));
            let placed = shown(0, kind::PLACE, 0, 0, number);
            assert_eq!(answer(placed), Ok(Answer::Place(wanted)));
        }
        for yes in [false, true] {
            let looked = shown(0, kind::YES_OR_NO, yes.into(), 0, 0);
            assert_eq!(answer(looked), Ok(Answer::YesOrNo(yes)));
        }
        assert_eq!(answer(shown(0, kind::DONE, 0, 0, 0)), Ok(Answer::Done));
        for &refusal in Refusal::ALL {
            let refused = shown(refusal.number(), kind::REFUSED, 0, 0, 0);
            assert_eq!(answer(refused), Err(refusal));
        }
    }

    /// What no proved call gives is no answer.
    #[test]
    fn no_answers() {
        for shown in [
            shown(0, kind::TICKET, 1, 1, 0),
            shown(0, kind::TICKET, 0, 1, 1),
            shown(0, kind::YES_OR_NO, 2, 0, 0),
            shown(0, kind::YES_OR_NO, 1, 1, 0),
            shown(0, kind::PLACE, 0, 1, 1),
            shown(0, kind::DONE, 0, 0, 1),
            shown(0, 5, 0, 0, 0),
            shown(4, kind::PLACE, 0, 0, 0),
            shown(0, kind::REFUSED, 0, 0, 0),
            shown(8, kind::REFUSED, 0, 0, 0),
            shown(4, kind::REFUSED, 0, 1, 0),
        ] {
            let ended = std::panic::catch_unwind(|| answer(shown));
            assert!(ended.is_err(), "{shown:?}");
        }
    }
}
