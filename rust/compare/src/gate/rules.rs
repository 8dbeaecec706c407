//! Document 02, A.5, "Each yes or no with its rule".

use super::words::{Colour, Ticket, Value, Words};

/// "There are four ... The first two carry both values, the last two the colour and
/// its count."
#[derive(Clone, Copy, Debug, PartialEq, Eq, Hash)]
pub enum Rule {
    /// The ticket's value and VALID's.
    NotAbove(Value, Value),
    Above(Value, Value),
    /// The ticket's colour and its count.
    Counted(Colour, u8),
    NotCounted(Colour, u8),
}

impl Rule {
    /// What they are called, in the order of their numbers, which begin with 1.
    pub const NAMES: [&'static str; 4] = [
        "same colour, not above",
        "same colour, above",
        "other colour, counted",
        "other colour, not counted",
    ];

    pub fn number(self) -> u8 {
        match self {
            Rule::NotAbove(..) => 1,
            Rule::Above(..) => 2,
            Rule::Counted(..) => 3,
            Rule::NotCounted(..) => 4,
        }
    }

    /// What the rule carries: what is the ticket's, and what it is held against.
    pub fn carries(self) -> (u16, u16) {
        match self {
            Rule::NotAbove(value, valid) | Rule::Above(value, valid) => (value.0, valid.0),
            Rule::Counted(colour, count) | Rule::NotCounted(colour, count) => {
                (colour.0.into(), count.into())
            }
        }
    }

    /// The rule of a number that carries this; none where there is no such rule.
    pub fn of(number: u8, (of_ticket, against): (u16, u16)) -> Option<Rule> {
        let values = (Value(of_ticket), Value(against));
        let colour = u8::try_from(of_ticket).map(Colour);
        let count = u8::try_from(against);
        match (number, colour, count) {
            (1, ..) => Some(Rule::NotAbove(values.0, values.1)),
            (2, ..) => Some(Rule::Above(values.0, values.1)),
            (3, Ok(colour), Ok(count)) => Some(Rule::Counted(colour, count)),
            (4, Ok(colour), Ok(count)) => Some(Rule::NotCounted(colour, count)),
            _ => None,
        }
    }
}

/// "There are four: same colour, not above VALID's value; same colour, above it; other
/// colour, counted; other colour, not counted." Each by itself, if its condition is met.
pub fn met(words: &Words, ticket: Ticket) -> [Option<Rule>; 4] {
    let (value, colour) = (ticket.value, ticket.colour);
    let (valid, count) = (words.valid, words.count(colour));
    let same_colour = colour == valid.colour;
    [
        (same_colour && value <= valid.value).then_some(Rule::NotAbove(value, valid.value)),
        (same_colour && value > valid.value).then_some(Rule::Above(value, valid.value)),
        (!same_colour && count > 0).then_some(Rule::Counted(colour, count)),
        (!same_colour && count == 0).then_some(Rule::NotCounted(colour, count)),
    ]
}

/// "The rule shown is the one whose condition is met; show that the four exclude one
/// another."
pub fn rule(words: &Words, ticket: Ticket) -> Rule {
    let mut met = met(words, ticket).into_iter().flatten();
    match (met.next(), met.next()) {
        (Some(rule), None) => rule,
        several_or_none => unreachable!("just one rule is met, not {several_or_none:?}"),
    }
}
