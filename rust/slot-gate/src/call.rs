//! The calls that name a plugin, and what they answer.

use crate::rule::Rule;
use crate::slot::Slot;
use crate::ticket::Ticket;

/// A call that names a plugin.
#[non_exhaustive]
#[derive(Clone, Copy, Debug, PartialEq, Eq, Hash)]
pub enum Call {
    /// An idle plugin takes a ticket and waits.
    Take,
    /// A waiting plugin looks whether its ticket is valid; yes puts it inside and
    /// gives it a slot.
    Look,
    /// A plugin that is inside leaves and returns its slot, or one whose turn has
    /// come hands it back, which returns none; it is idle.
    Leave,
    /// How many returns a waiting plugin still waits for.
    Place,
    /// A plugin is stopped.
    Stop,
    /// A stopped plugin is woken.
    Wake,
}

impl Call {
    /// All of them.
    pub const ALL: &'static [Call] = &[
        Call::Take,
        Call::Look,
        Call::Leave,
        Call::Place,
        Call::Stop,
        Call::Wake,
    ];

    /// The letter that names it in a schedule and to the library: T, L, B, P, S or W.
    pub const fn letter(self) -> u8 {
        match self {
            Call::Take => b'T',
            Call::Look => b'L',
            Call::Leave => b'B',
            Call::Place => b'P',
            Call::Stop => b'S',
            Call::Wake => b'W',
        }
    }
}

/// What an accepted call answers.
#[non_exhaustive]
#[derive(Clone, Copy, Debug, PartialEq, Eq, Hash)]
pub enum Answer {
    /// The ticket that a take handed out.
    Ticket(Ticket),
    /// What a look was told.
    Verdict(Verdict),
    /// A place: how many returns it takes until the plugin's ticket is valid.
    Place(u16),
    /// A leave, a stop or a wake is done.
    Done,
}

/// What a look is told, with the rule that decided it.
#[non_exhaustive]
#[derive(Clone, Copy, Debug, PartialEq, Eq, Hash)]
pub enum Verdict {
    /// The ticket is valid by this rule, and the plugin is now inside, in this slot.
    Yes(Slot, Rule),
    /// By this rule the ticket is not valid, and the plugin waits on.
    No(Rule),
}

impl Verdict {
    /// The slot that a yes gives; none for a no.
    ///
    /// ```
    /// use slot_gate::{Colour, Rule, Slot, Verdict};
    ///
    /// let (colour, count) = (Colour(1), 3);
    /// let yes = Verdict::Yes(Slot(2), Rule::Counted { colour, count });
    /// assert_eq!(yes.slot(), Some(Slot(2)));
    /// let no = Verdict::No(Rule::NotCounted { colour, count: 0 });
    /// assert_eq!(no.slot(), None);
    /// ```
    pub const fn slot(self) -> Option<Slot> {
        match self {
            Verdict::Yes(slot, _) => Some(slot),
            Verdict::No(_) => None,
        }
    }

    /// The rule that decided.
    pub const fn rule(self) -> Rule {
        match self {
            Verdict::Yes(_, rule) | Verdict::No(rule) => rule,
        }
    }
}

/// Where a plugin is.
#[non_exhaustive]
#[derive(Clone, Copy, Debug, PartialEq, Eq, Hash)]
pub enum Region {
    /// It has no ticket.
    Idle,
    /// It has a ticket and no slot.
    Waiting,
    /// It has a ticket and a slot.
    Inside,
}
