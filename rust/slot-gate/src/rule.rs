//! The rules by which a look is answered yes or no.

use std::fmt;

use crate::shown::{rule, RuleShown};
use crate::ticket::{Colour, Value};

/// The rule that decided a look. The first two carry the ticket's value and VALID's,
/// the last two the ticket's colour and its count. Just one of the four applies to a
/// ticket.
///
/// ```
/// use slot_gate::{Gate, Refusal, Rule, Value};
///
/// let mut gate = Gate::open(3, 1)?;
/// gate.take(1)?;
/// gate.take(2)?;
/// let rule = gate.look(2)?.rule();
/// assert_eq!(rule, Rule::Above { value: Value(2), valid: Value(1) });
/// assert_eq!(rule.to_string(), "same colour, value 2 above VALID's 1");
/// assert!(!rule.says_yes());
/// # Ok::<(), Refusal>(())
/// ```
#[non_exhaustive]
#[derive(Clone, Copy, Debug, PartialEq, Eq, Hash)]
pub enum Rule {
    /// Yes: the ticket has VALID's colour, and its value is not above VALID's.
    NotAbove {
        /// The ticket's value.
        value: Value,
        /// VALID's value.
        valid: Value,
    },
    /// No: the ticket has VALID's colour, and its value is above VALID's.
    Above {
        /// The ticket's value.
        value: Value,
        /// VALID's value.
        valid: Value,
    },
    /// Yes: the ticket has another colour than VALID, and that colour is counted.
    Counted {
        /// The ticket's colour.
        colour: Colour,
        /// The count of that colour, which is above 0.
        count: u8,
    },
    /// No: the ticket has another colour than VALID, and that colour is not counted.
    NotCounted {
        /// The ticket's colour.
        colour: Colour,
        /// The count of that colour, which is 0.
        count: u8,
    },
}

impl Rule {
    /// Whether a look that it decides is answered yes.
    pub const fn says_yes(self) -> bool {
        match self {
            Rule::NotAbove { .. } | Rule::Counted { .. } => true,
            Rule::Above { .. } | Rule::NotCounted { .. } => false,
        }
    }

    /// The rule that shows this; none where no rule does, or not on these numbers.
    pub(crate) fn of(shown: RuleShown) -> Option<Rule> {
        let (value, valid) = (Value(shown.of_ticket), Value(shown.against));
        let colour = u8::try_from(shown.of_ticket).map(Colour);
        let count = u8::try_from(shown.against);
        match (shown.number, colour, count) {
            (rule::NOT_ABOVE, ..) if value.0 <= valid.0 => Some(Rule::NotAbove { value, valid }),
            (rule::ABOVE, ..) if value.0 > valid.0 => Some(Rule::Above { value, valid }),
            (rule::COUNTED, Ok(colour), Ok(count @ 1..)) => Some(Rule::Counted { colour, count }),
            (rule::NOT_COUNTED, Ok(colour), Ok(count @ 0)) => {
                Some(Rule::NotCounted { colour, count })
            }
            _ => None,
        }
    }
}

/// The rule in words.
impl fmt::Display for Rule {
    fn fmt(&self, out: &mut fmt::Formatter<'_>) -> fmt::Result {
        match self {
            Rule::NotAbove { value, valid } => {
                let (value, valid) = (value.0, valid.0);
                write!(out, "same colour, value {value} not above VALID's {valid}")
            }
            Rule::Above { value, valid } => {
                let (value, valid) = (value.0, valid.0);
                write!(out, "same colour, value {value} above VALID's {valid}")
            }
            Rule::Counted { colour, count } => {
                let colour = colour.0;
                write!(
                    out,
                    "other colour, counted: the count of colour {colour} is {count}"
                )
            }
            Rule::NotCounted { colour, count } => {
                let colour = colour.0;
                write!(
                    out,
                    "other colour, not counted: the count of colour {colour} is {count}"
                )
            }
        }
    }
}
