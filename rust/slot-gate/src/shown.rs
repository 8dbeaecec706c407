//! What the exported functions return, and the answers that it stands for.

use std::fmt::Debug;
use std::mem::{align_of, offset_of, size_of};

use crate::call::{Answer, Verdict};
use crate::refusal::Refusal;
use crate::rule::Rule;
use crate::slot::Slot;
use crate::ticket::Ticket;
use crate::words::Words;

/// Kinds of what is shown.
pub mod kind {
    /// Take answered a ticket.
    pub const TICKET: u8 = 0;
    /// Look or alike answered yes or no.
    pub const YES_OR_NO: u8 = 1;
    /// Place answered a place.
    pub const PLACE: u8 = 2;
    /// Open, leave, stop or wake is done.
    pub const DONE: u8 = 3;
    /// The call was refused; nothing but its number is shown.
    pub const REFUSED: u8 = 4;
}

/// Numbers of the rules by which a look is answered.
pub mod rule {
    /// No rule: no look was answered.
    pub const NONE: u8 = 0;
    /// Yes: VALID's colour, and not above VALID's value.
    pub const NOT_ABOVE: u8 = 1;
    /// No: VALID's colour, and above VALID's value.
    pub const ABOVE: u8 = 2;
    /// Yes: another colour, which is counted.
    pub const COUNTED: u8 = 3;
    /// No: another colour, which is not counted.
    pub const NOT_COUNTED: u8 = 4;
}

/// What a look's rule shows. Where no look was answered all is 0.
#[repr(C)]
#[derive(Clone, Copy, Debug, PartialEq, Eq)]
pub struct RuleShown {
    /// One of [`rule`].
    pub number: u8,
    /// The ticket's value, for the first two rules; for the others its colour.
    pub of_ticket: u16,
    /// VALID's value, for the first two rules; for the others the colour's count.
    pub against: u16,
}

impl RuleShown {
    /// No rule.
    pub const NONE: RuleShown = RuleShown {
        number: rule::NONE,
        of_ticket: 0,
        against: 0,
    };
}

/// What an answer shows. What its kind does not have is 0.
#[repr(C)]
#[derive(Clone, Copy, Debug, PartialEq, Eq)]
pub struct Shown {
    /// 0 for an accepted call, else why it was refused.
    pub number: u8,
    /// One of [`kind`].
    pub kind: u8,
    /// 1 for yes.
    pub yes: u8,
    /// The slot that a look's yes gave.
    pub slot: u8,
    /// A take's ticket.
    pub ticket: Ticket,
    /// A place.
    pub place: u16,
    /// The rule that decided a look.
    pub rule: RuleShown,
}

/// What a call that may change the words returns: the words to keep, and what it
/// shows.
#[repr(C)]
#[derive(Clone, Copy, Debug, PartialEq, Eq)]
pub struct Told {
    /// The words that the call leaves: those that it was given when it is refused,
    /// and all 0 when an open is.
    pub gate: Words,
    /// Number and answer.
    pub shown: Shown,
}

// The layouts that the libraries have.
const _: () = {
    assert!(size_of::<RuleShown>() == 6 && align_of::<RuleShown>() == 2);
    assert!(offset_of!(RuleShown, number) == 0 && offset_of!(RuleShown, of_ticket) == 2);
    assert!(offset_of!(RuleShown, against) == 4);
    assert!(size_of::<Shown>() == 16 && align_of::<Shown>() == 2);
    assert!(offset_of!(Shown, number) == 0 && offset_of!(Shown, kind) == 1);
    assert!(offset_of!(Shown, yes) == 2 && offset_of!(Shown, slot) == 3);
    assert!(offset_of!(Shown, ticket) == 4 && offset_of!(Shown, place) == 8);
    assert!(offset_of!(Shown, rule) == 10);
    assert!(size_of::<Told>() == 160 && align_of::<Told>() == 2);
    assert!(offset_of!(Told, gate) == 0 && offset_of!(Told, shown) == 144);
};

impl Shown {
    /// The answer to a call that names a plugin or to an open, or why there is none.
    pub(crate) fn answer(self) -> Result<Answer, Refusal> {
        match self.accepted()? {
            kind::TICKET => Ok(Answer::Ticket(self.ticket)),
            kind::YES_OR_NO => Ok(Answer::Verdict(self.verdict())),
            kind::PLACE => Ok(Answer::Place(self.place)),
            kind::DONE => Ok(Answer::Done),
            _ => no_answer("an answer", self),
        }
    }

    /// What a look was told: a yes has a slot, a no has none, and the rule says the
    /// same.
    fn verdict(self) -> Verdict {
        match (self.yes, self.slot, Rule::of(self.rule)) {
            (0, 0, Some(rule)) if !rule.says_yes() => Verdict::No(rule),
            (1, 1.., Some(rule)) if rule.says_yes() => Verdict::Yes(Slot(self.slot), rule),
            _ => no_answer("a look", self),
        }
    }

    /// The kind of an accepted call, or why it is none.
    fn accepted(self) -> Result<u8, Refusal> {
        match (self.number, self.kind) {
            (number, kind::REFUSED) => match Refusal::of_number(number) {
                Some(refusal) => Err(refusal),
                None => no_answer("a refusal", number),
            },
            (0, kind) => Ok(kind),
            _ => no_answer("an answer", self),
        }
    }

    /// A place's answer.
    pub(crate) fn place(self) -> Result<u16, Refusal> {
        match self.answer()? {
            Answer::Place(place) => Ok(place),
            other => no_answer("a place", other),
        }
    }

    /// Alike's answer, which has no slot and no rule.
    pub(crate) fn yes(self) -> Result<bool, Refusal> {
        match (self.accepted()?, self.yes, self.slot, self.rule) {
            (kind::YES_OR_NO, yes @ (0 | 1), 0, RuleShown::NONE) => Ok(yes == 1),
            _ => no_answer("alike", self),
        }
    }
}

impl Told {
    /// The words of a gate just opened.
    pub(crate) fn opened(self) -> Result<Words, Refusal> {
        match self.shown.answer()? {
            Answer::Done => Ok(self.gate),
            other => no_answer("an open", other),
        }
    }
}

/// The proved calls promise that this never comes: if it does, the library that
/// is linked is not the one that was proved.
pub(crate) fn no_answer(what: &str, given: impl Debug) -> ! {
    unreachable!("the linked library gave {given:?} for {what}, which no proved call gives")
}

#[cfg(test)]
mod tests {
    use super::*;
    use crate::ticket::{Colour, Value};

    const NOTHING: Shown = Shown {
        number: 0,
        kind: kind::DONE,
        yes: 0,
        slot: 0,
        ticket: Ticket::new(0, 0),
        place: 0,
        rule: RuleShown::NONE,
    };

    fn of_kind(kind: u8) -> Shown {
        Shown { kind, ..NOTHING }
    }

    fn refused(number: u8) -> Shown {
        let kind = kind::REFUSED;
        Shown {
            number,
            kind,
            ..NOTHING
        }
    }

    #[test]
    fn answers() {
        let ticket = Ticket::new(7, 2);
        let took = Shown {
            ticket,
            ..of_kind(kind::TICKET)
        };
        let placed = Shown {
            place: 5,
            ..of_kind(kind::PLACE)
        };
        let unlike = of_kind(kind::YES_OR_NO);
        let alike = Shown { yes: 1, ..unlike };
        assert_eq!(took.answer(), Ok(Answer::Ticket(ticket)));
        assert_eq!(placed.answer(), Ok(Answer::Place(5)));
        assert_eq!(NOTHING.answer(), Ok(Answer::Done));
        assert_eq!(
            (placed.place(), alike.yes(), unlike.yes()),
            (Ok(5), Ok(true), Ok(false))
        );
    }

    /// A look's answer: its slot, 0 for a no, and what its rule shows.
    fn look(slot: u8, (number, of_ticket, against): (u8, u16, u16)) -> Shown {
        Shown {
            yes: u8::from(slot != 0),
            slot,
            rule: RuleShown {
                number,
                of_ticket,
                against,
            },
            ..of_kind(kind::YES_OR_NO)
        }
    }

    /// Each rule with its numbers; where all values are one, and at their greatest.
    #[test]
    fn verdicts() {
        let told = |slot, rule| match look(slot, rule).answer() {
            Ok(Answer::Verdict(verdict)) => (verdict.slot(), verdict.rule()),
            other => panic!("{other:?} is no verdict"),
        };
        let values = |value, valid| (Value(value), Value(valid));
        for numbers in [(2, 3), (3, 3), (0, u16::MAX), (u16::MAX, u16::MAX)] {
            let (value, valid) = values(numbers.0, numbers.1);
            let rule = Rule::NotAbove { value, valid };
            let given = told(3, (rule::NOT_ABOVE, numbers.0, numbers.1));
            assert_eq!(given, (Some(Slot(3)), rule));
        }
        for numbers in [(3, 2), (1, 0), (u16::MAX, 0)] {
            let (value, valid) = values(numbers.0, numbers.1);
            let rule = Rule::Above { value, valid };
            assert_eq!(told(0, (rule::ABOVE, numbers.0, numbers.1)), (None, rule));
        }
        for (colour, count) in [(0, 1), (1, 64), (255, 255)] {
            let given = told(64, (rule::COUNTED, colour.into(), count.into()));
            let colour = Colour(colour);
            assert_eq!(given, (Some(Slot(64)), Rule::Counted { colour, count }));
        }
        for colour in [0, 7, 255] {
            let given = told(0, (rule::NOT_COUNTED, colour.into(), 0));
            let (colour, count) = (Colour(colour), 0);
            assert_eq!(given, (None, Rule::NotCounted { colour, count }));
        }
    }

    #[test]
    fn rules_in_words() {
        let words = |number, of_ticket, against| {
            let shown = RuleShown {
                number,
                of_ticket,
                against,
            };
            Rule::of(shown).map(|rule| rule.to_string())
        };
        for (shown, wanted) in [
            (
                words(rule::NOT_ABOVE, 2, 3),
                "same colour, value 2 not above VALID's 3",
            ),
            (
                words(rule::ABOVE, 3, 2),
                "same colour, value 3 above VALID's 2",
            ),
            (
                words(rule::COUNTED, 0, 2),
                "other colour, counted: the count of colour 0 is 2",
            ),
            (
                words(rule::NOT_COUNTED, 1, 0),
                "other colour, not counted: the count of colour 1 is 0",
            ),
        ] {
            assert_eq!(shown.as_deref(), Some(wanted));
        }
        assert_eq!(words(rule::NONE, 0, 0), None);
    }

    #[test]
    fn refusals() {
        for &refusal in Refusal::ALL {
            let shown = refused(refusal.number());
            assert_eq!(shown.answer(), Err(refusal));
            assert_eq!(shown.place(), Err(refusal));
            assert_eq!(shown.yes(), Err(refusal));
            let gate = Words::ZERO;
            assert_eq!(Told { gate, shown }.opened(), Err(refusal));
        }
    }

    /// What no proved call gives is no answer.
    #[test]
    fn no_answers() {
        let (no, yes) = (look(0, (rule::ABOVE, 2, 1)), look(1, (rule::COUNTED, 0, 1)));
        let yes_2 = Shown { yes: 2, ..yes };
        let both = Shown {
            number: 4,
            ..of_kind(kind::PLACE)
        };
        // A yes has a slot, and a no never has one.
        let no_slot = Shown { slot: 0, ..yes };
        let slot_of_no = Shown { slot: 1, ..no };
        // Without a rule yes and no are alike's alone; a rule of the other verdict, one
        // whose condition its numbers do not meet, and one that there is not.
        let unlike = of_kind(kind::YES_OR_NO);
        let alike = Shown { yes: 1, ..unlike };
        let no_rule = Shown {
            rule: RuleShown::NONE,
            ..yes
        };
        let wrong_rules = [
            look(1, (rule::ABOVE, 2, 1)),
            look(1, (rule::NOT_COUNTED, 0, 0)),
            look(0, (rule::NOT_ABOVE, 1, 2)),
            look(0, (rule::COUNTED, 0, 1)),
            look(1, (rule::NOT_ABOVE, 2, 1)),
            look(0, (rule::ABOVE, 1, 1)),
            look(1, (rule::COUNTED, 0, 0)),
            look(0, (rule::NOT_COUNTED, 0, 1)),
            look(1, (rule::COUNTED, 256, 1)),
            look(1, (rule::COUNTED, 0, 256)),
            look(0, (rule::NOT_COUNTED, 256, 0)),
            look(0, (rule::NOT_COUNTED, 0, 256)),
            look(1, (5, 1, 1)),
            look(0, (5, 1, 1)),
        ];
        let others = [of_kind(5), yes_2, both, no_slot, slot_of_no, unlike, alike];
        let refusals = [no_rule, refused(0), refused(8)];
        for shown in wrong_rules.into_iter().chain(others).chain(refusals) {
            let ended = std::panic::catch_unwind(|| shown.answer());
            assert!(ended.is_err(), "{shown:?}");
        }
        let slot_of_alike = Shown { slot: 1, ..alike };
        let alike_2 = Shown { yes: 2, ..alike };
        for shown in [
            NOTHING,
            alike_2,
            slot_of_alike,
            yes,
            no,
            no_slot,
            refused(0),
        ] {
            let ended = std::panic::catch_unwind(|| shown.yes());
            assert!(ended.is_err(), "{shown:?}");
        }
        assert!(std::panic::catch_unwind(|| NOTHING.place()).is_err());
    }
}
