//! A gate that owns its words and its list, with an answer of its own type for
//! each call.

use crate::call::{Answer, Call, Region, Verdict};
use crate::lent::{self, ListMut, ListRef};
use crate::refusal::Refusal;
use crate::shown::no_answer;
use crate::slot::Slot;
use crate::ticket::Ticket;
use crate::words::Words;
use crate::year::Year;
use crate::MOST_PLUGINS;

/// A gate of k slots for N plugins, which are numbered from 1.
///
/// Words and list are the gate's own and only the proved calls change them, so
/// they are always sound, and no call answers [`Refusal::WrongLength`] or
/// [`Refusal::NotSound`].
///
/// ```
/// use slot_gate::{Gate, Refusal, Region, Slot, Ticket};
///
/// let mut gate = Gate::open(3, 1)?;
/// assert_eq!(gate.take(1)?, Ticket::new(1, 0));
/// assert_eq!(gate.take(2)?, Ticket::new(2, 0));
/// assert_eq!(gate.look(2)?.slot(), None);
/// assert_eq!(gate.place(2)?, 1);
///
/// assert_eq!(gate.look(1)?.slot(), Some(Slot(1)));
/// assert_eq!(gate.region(1), Some(Region::Inside));
/// assert_eq!(gate.take(1), Err(Refusal::WrongRegion));
///
/// gate.leave(1)?;
/// assert_eq!(gate.look(2)?.slot(), Some(Slot(1)));
/// # Ok::<(), Refusal>(())
/// ```
#[derive(Clone, Debug, PartialEq, Eq)]
pub struct Gate {
    words: Words,
    regions: Vec<u8>,
    marks: Vec<u8>,
    values: Vec<u16>,
    colours: Vec<u8>,
    slots: Vec<u8>,
}

impl Gate {
    /// Opens a gate of 1989: all plugins are idle and none is stopped, and all slots
    /// are free.
    ///
    /// # Errors
    ///
    /// [`Refusal::OutOfRange`] when `plugins` is not 1 to 1,024 or `slots` not 1
    /// to 64. There may be more slots than plugins.
    ///
    /// ```
    /// use slot_gate::{Gate, Refusal};
    ///
    /// let gate = Gate::open(1024, 64)?;
    /// assert_eq!((gate.plugins(), gate.slots()), (1024, 64));
    /// assert_eq!(Gate::open(1024, 65), Err(Refusal::OutOfRange));
    /// # Ok::<(), Refusal>(())
    /// ```
    pub fn open(plugins: u64, slots: u64) -> Result<Gate, Refusal> {
        Gate::open_year(Year::Y1989, plugins, slots)
    }

    /// Opens a gate of either year: as [`Gate::open`], which is [`Year::Y1989`].
    ///
    /// # Errors
    ///
    /// [`Refusal::OutOfRange`], and [`Refusal::TooManySlots`] when the year is 1979 and
    /// there are not fewer slots than plugins.
    ///
    /// ```
    /// use slot_gate::{Gate, Refusal, Ticket, Year};
    ///
    /// let mut gate = Gate::open_year(Year::Y1979, 4, 2)?;
    /// assert_eq!((gate.issue(), gate.valid()), (Ticket::new(1, 0), Ticket::new(3, 0)));
    /// assert_eq!(gate.take(3)?, Ticket::new(2, 0));
    /// let too_many = Gate::open_year(Year::Y1979, 4, 4);
    /// assert_eq!(too_many, Err(Refusal::TooManySlots));
    /// # Ok::<(), Refusal>(())
    /// ```
    pub fn open_year(year: Year, plugins: u64, slots: u64) -> Result<Gate, Refusal> {
        // An N that is too large is refused before the list's length is read.
        let length = if plugins > MOST_PLUGINS { 0 } else { plugins } as usize;
        let mut gate = Gate {
            words: Words::ZERO,
            regions: vec![0; length],
            marks: vec![0; length],
            values: vec![0; length],
            colours: vec![0; length],
            slots: vec![0; length],
        };
        gate.words = lent::open(year, plugins, slots, gate.lend().1)?;
        Ok(gate)
    }

    /// Plugin p, idle until now, takes a ticket and waits.
    ///
    /// # Errors
    ///
    /// [`Refusal::NoSuchPlugin`], [`Refusal::Stopped`], and
    /// [`Refusal::WrongRegion`] when p is not idle.
    ///
    /// ```
    /// use slot_gate::{Gate, Refusal, Ticket};
    ///
    /// let mut gate = Gate::open(2, 1)?;
    /// assert_eq!(gate.take(2)?, Ticket::new(1, 0));
    /// assert_eq!(gate.take(2), Err(Refusal::WrongRegion));
    /// assert_eq!(gate.take(3), Err(Refusal::NoSuchPlugin));
    /// # Ok::<(), Refusal>(())
    /// ```
    pub fn take(&mut self, p: u64) -> Result<Ticket, Refusal> {
        match self.call(Call::Take, p)? {
            Answer::Ticket(ticket) => Ok(ticket),
            other => no_answer("a take", other),
        }
    }

    /// Plugin p, which waits, looks whether its ticket is valid. Yes puts it
    /// inside and gives it the slot that was returned longest ago, but first those
    /// that were never given, in rising order; no changes nothing. Either has the rule
    /// that decided it.
    ///
    /// # Errors
    ///
    /// [`Refusal::NoSuchPlugin`], [`Refusal::Stopped`], and
    /// [`Refusal::WrongRegion`] when p does not wait.
    ///
    /// ```
    /// use slot_gate::{Colour, Gate, Refusal, Rule, Slot, Value, Verdict};
    ///
    /// let mut gate = Gate::open(2, 1)?;
    /// gate.take(1)?;
    /// gate.take(2)?;
    /// let rule = Rule::NotCounted { colour: Colour(1), count: 0 };
    /// assert_eq!(gate.look(2)?, Verdict::No(rule));
    /// let rule = Rule::NotAbove { value: Value(1), valid: Value(1) };
    /// assert_eq!(gate.look(1)?, Verdict::Yes(Slot(1), rule));
    /// assert_eq!(gate.look(1), Err(Refusal::WrongRegion));
    /// # Ok::<(), Refusal>(())
    /// ```
    pub fn look(&mut self, p: u64) -> Result<Verdict, Refusal> {
        match self.call(Call::Look, p)? {
            Answer::Verdict(verdict) => Ok(verdict),
            other => no_answer("a look", other),
        }
    }

    /// Plugin p, which is inside, leaves and returns its slot; or p, which waits
    /// with a valid ticket, hands back its turn, which returns no slot. It is idle,
    /// its ticket gone, and the next ticket becomes valid.
    ///
    /// # Errors
    ///
    /// [`Refusal::NoSuchPlugin`], [`Refusal::Stopped`], [`Refusal::WrongRegion`]
    /// when p is idle, and [`Refusal::NotYetValid`] when it waits and its ticket
    /// is not valid.
    ///
    /// ```
    /// use slot_gate::{Gate, Refusal, Region, Slot};
    ///
    /// let mut gate = Gate::open(2, 1)?;
    /// gate.take(1)?;
    /// gate.take(2)?;
    /// assert_eq!(gate.leave(2), Err(Refusal::NotYetValid));
    /// gate.leave(1)?; // its turn had come, and it does not use it
    /// assert_eq!(gate.region(1), Some(Region::Idle));
    /// assert_eq!(gate.look(2)?.slot(), Some(Slot(1)));
    /// gate.leave(2)?;
    /// assert_eq!(gate.leave(2), Err(Refusal::WrongRegion));
    /// # Ok::<(), Refusal>(())
    /// ```
    pub fn leave(&mut self, p: u64) -> Result<(), Refusal> {
        self.done(Call::Leave, p)
    }

    /// How many returns plugin p, which waits, still waits for. It is 0 if its
    /// turn has come, and 1 for the first in line.
    ///
    /// # Errors
    ///
    /// [`Refusal::NoSuchPlugin`], [`Refusal::Stopped`], and
    /// [`Refusal::WrongRegion`] when p does not wait.
    ///
    /// ```
    /// use slot_gate::{Gate, Refusal};
    ///
    /// let mut gate = Gate::open(3, 1)?;
    /// for p in [3, 1, 2] {
    ///     gate.take(p)?;
    /// }
    /// assert_eq!([gate.place(3)?, gate.place(1)?, gate.place(2)?], [0, 1, 2]);
    /// # Ok::<(), Refusal>(())
    /// ```
    pub fn place(&self, p: u64) -> Result<u16, Refusal> {
        lent::place(&self.words, self.show(), p)
    }

    /// Stops plugin p. It keeps its region and its ticket, and with it its slot
    /// if it has one; until it wakes, its take, look, leave and place are
    /// refused.
    ///
    /// # Errors
    ///
    /// [`Refusal::NoSuchPlugin`], and [`Refusal::Stopped`] when p is stopped
    /// already.
    ///
    /// ```
    /// use slot_gate::{Gate, Refusal, Slot};
    ///
    /// let mut gate = Gate::open(2, 1)?;
    /// gate.take(1)?;
    /// gate.take(2)?;
    /// assert_eq!(gate.look(1)?.slot(), Some(Slot(1)));
    /// gate.stop(1)?;
    /// assert_eq!(gate.leave(1), Err(Refusal::Stopped));
    /// assert_eq!(gate.look(2)?.slot(), None);
    /// # Ok::<(), Refusal>(())
    /// ```
    pub fn stop(&mut self, p: u64) -> Result<(), Refusal> {
        self.done(Call::Stop, p)
    }

    /// Wakes plugin p, which is stopped.
    ///
    /// # Errors
    ///
    /// [`Refusal::NoSuchPlugin`], and [`Refusal::NotStopped`].
    ///
    /// ```
    /// use slot_gate::{Gate, Refusal};
    ///
    /// let mut gate = Gate::open(1, 1)?;
    /// gate.stop(1)?;
    /// assert_eq!(gate.take(1), Err(Refusal::Stopped));
    /// gate.wake(1)?;
    /// gate.take(1)?;
    /// assert_eq!(gate.wake(1), Err(Refusal::NotStopped));
    /// # Ok::<(), Refusal>(())
    /// ```
    pub fn wake(&mut self, p: u64) -> Result<(), Refusal> {
        self.done(Call::Wake, p)
    }

    /// Whether both gates will answer alike: they have the same N and k, each
    /// plugin the same region and stop mark in both, each that holds a ticket the
    /// same validity, and the tickets not yet valid the same order. Then the same
    /// calls give the same refusals, yes or no and places from both, and leave
    /// them alike. Years, tickets and slots are not compared, nor is the order of
    /// those tickets that are valid, so the tickets, slots and rules that are told
    /// may differ; `==` compares all.
    ///
    /// ```
    /// use slot_gate::{Gate, Refusal};
    ///
    /// let mut gate = Gate::open(3, 1)?;
    /// let mut standby = Gate::open(3, 1)?;
    /// // A turn that was handed back leaves other tickets, and nothing else.
    /// standby.take(1)?;
    /// standby.leave(1)?;
    /// for p in 1..=3 {
    ///     gate.take(p)?;
    ///     standby.take(p)?;
    /// }
    /// assert_ne!(gate, standby);
    /// assert!(gate.alike(&standby));
    ///
    /// // Plugins 2 and 3 wait in another order.
    /// let mut other = Gate::open(3, 1)?;
    /// for p in [1, 3, 2] {
    ///     other.take(p)?;
    /// }
    /// assert!(!gate.alike(&other));
    /// # Ok::<(), Refusal>(())
    /// ```
    pub fn alike(&self, other: &Gate) -> bool {
        let (first, second) = ((&self.words, self.show()), (&other.words, other.show()));
        lent::alike(first, second).unwrap_or_else(|refusal| no_answer("alike", refusal))
    }

    /// The year that the gate was opened for.
    pub fn year(&self) -> Year {
        Year::of_number(self.words.year).unwrap_or_else(|| no_answer("a year", self.words.year))
    }

    /// N, the number of plugins.
    pub fn plugins(&self) -> u16 {
        self.words.n
    }

    /// k, the number of slots.
    pub fn slots(&self) -> u8 {
        self.words.k
    }

    /// ISSUE, the ticket last handed out.
    pub fn issue(&self) -> Ticket {
        self.words.issue
    }

    /// VALID, the ticket last made valid.
    pub fn valid(&self) -> Ticket {
        self.words.valid
    }

    /// The free slots, in the order in which they go out.
    ///
    /// ```
    /// use slot_gate::{Gate, Refusal, Slot};
    ///
    /// let mut gate = Gate::open(2, 3)?;
    /// gate.take(1)?;
    /// gate.look(1)?;
    /// assert!(gate.free_slots().eq([Slot(2), Slot(3)]));
    /// gate.leave(1)?;
    /// assert!(gate.free_slots().eq([Slot(2), Slot(3), Slot(1)]));
    /// # Ok::<(), Refusal>(())
    /// ```
    pub fn free_slots(&self) -> impl Iterator<Item = Slot> + '_ {
        let row = self.words.free.iter().take_while(|&&slot| slot != 0);
        row.map(|&slot| Slot(slot))
    }

    /// Where plugin p is; none when there is no such plugin.
    pub fn region(&self, p: u64) -> Option<Region> {
        Some(match self.regions[self.record(p)?] {
            0 => Region::Idle,
            1 => Region::Waiting,
            2 => Region::Inside,
            other => no_answer("a region", other),
        })
    }

    /// Whether plugin p is stopped; none when there is no such plugin.
    pub fn is_stopped(&self, p: u64) -> Option<bool> {
        Some(self.marks[self.record(p)?] != 0)
    }

    /// The ticket that plugin p holds; none when it is idle or there is no such
    /// plugin.
    pub fn ticket(&self, p: u64) -> Option<Ticket> {
        if self.region(p)? == Region::Idle {
            return None;
        }
        let i = self.record(p)?;
        Some(Ticket::new(self.values[i], self.colours[i]))
    }

    /// The slot that plugin p has; none when it is not inside or there is no such
    /// plugin.
    pub fn slot(&self, p: u64) -> Option<Slot> {
        let slot = self.slots[self.record(p)?];
        (slot != 0).then_some(Slot(slot))
    }

    /// The index of p's record.
    fn record(&self, p: u64) -> Option<usize> {
        let i = usize::try_from(p.checked_sub(1)?).ok()?;
        (i < self.regions.len()).then_some(i)
    }

    fn call(&mut self, call: Call, p: u64) -> Result<Answer, Refusal> {
        let (words, list) = self.lend();
        lent::call(call, words, list, p)
    }

    /// A call whose answer is that it is done.
    fn done(&mut self, call: Call, p: u64) -> Result<(), Refusal> {
        match self.call(call, p)? {
            Answer::Done => Ok(()),
            other => no_answer("a call that is done", other),
        }
    }

    fn lend(&mut self) -> (&mut Words, ListMut<'_>) {
        let list = ListMut {
            regions: &mut self.regions,
            marks: &mut self.marks,
            values: &mut self.values,
            colours: &mut self.colours,
            slots: &mut self.slots,
        };
        (&mut self.words, list)
    }

    fn show(&self) -> ListRef<'_> {
        ListRef {
            regions: &self.regions,
            marks: &self.marks,
            values: &self.values,
            colours: &self.colours,
            slots: &self.slots,
        }
    }
}
