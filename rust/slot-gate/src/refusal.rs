//! Why a call is refused: the numbers, by name.

use std::fmt;

/// Why a call was refused. A refused call has changed nothing.
///
/// A call seeks its refusals in the order of their numbers and answers the first
/// that applies; but an open seeks 10 before 2.
///
/// ```
/// use slot_gate::{Gate, Refusal};
///
/// let refusal = Gate::open(1025, 1).unwrap_err();
/// assert_eq!(refusal, Refusal::OutOfRange);
/// assert_eq!(refusal.number(), 1);
/// let words = "N is not 1 to 1,024, k is not 1 to 64, or the year is neither 1979 nor 1989";
/// assert_eq!(refusal.to_string(), words);
/// ```
#[non_exhaustive]
#[derive(Clone, Copy, Debug, PartialEq, Eq, Hash)]
pub enum Refusal {
    /// 1: N is not 1 to 1,024, k is not 1 to 64, or the year is neither 1979 nor 1989.
    /// A [`Year`](crate::Year) is always one of the two.
    OutOfRange,
    /// 2: the list's length is not N. A [`Gate`](crate::Gate) never meets it.
    WrongLength,
    /// 3: words and list are not sound. A [`Gate`](crate::Gate) never meets it.
    NotSound,
    /// 4: the plugin number is 0 or above N.
    NoSuchPlugin,
    /// 5: the plugin is stopped.
    Stopped,
    /// 6: the plugin is not idle (take), not waiting (look, place) or idle (leave).
    WrongRegion,
    /// 7: the plugin is not stopped.
    NotStopped,
    /// 9: the plugin waits and its ticket is not valid, so it has no turn to hand
    /// back (leave).
    NotYetValid,
    /// 10: the year is 1979, and there are not fewer slots than plugins (open).
    TooManySlots,
    /// 11: the counter that the call would raise is at its greatest value, which is
    /// 18,446,744,073,709,551,615 (take and leave of a [`NumberedGate`](crate::NumberedGate)).
    CounterAtEnd,
}

impl Refusal {
    /// All of them, by their numbers.
    pub const ALL: &'static [Refusal] = &[
        Refusal::OutOfRange,
        Refusal::WrongLength,
        Refusal::NotSound,
        Refusal::NoSuchPlugin,
        Refusal::Stopped,
        Refusal::WrongRegion,
        Refusal::NotStopped,
        Refusal::NotYetValid,
        Refusal::TooManySlots,
        Refusal::CounterAtEnd,
    ];

    /// Its number.
    pub const fn number(self) -> u8 {
        match self {
            Refusal::OutOfRange => 1,
            Refusal::WrongLength => 2,
            Refusal::NotSound => 3,
            Refusal::NoSuchPlugin => 4,
            Refusal::Stopped => 5,
            Refusal::WrongRegion => 6,
            Refusal::NotStopped => 7,
            Refusal::NotYetValid => 9,
            Refusal::TooManySlots => 10,
            Refusal::CounterAtEnd => 11,
        }
    }

    /// The refusal of a number; none for 0, which is an accepted call, and for a
    /// number that no call of this crate gives.
    pub fn of_number(number: u8) -> Option<Refusal> {
        Refusal::ALL
            .iter()
            .copied()
            .find(|refusal| refusal.number() == number)
    }
}

impl fmt::Display for Refusal {
    fn fmt(&self, out: &mut fmt::Formatter<'_>) -> fmt::Result {
        out.write_str(match self {
            Refusal::OutOfRange => {
                "N is not 1 to 1,024, k is not 1 to 64, or the year is neither 1979 nor 1989"
            }
            Refusal::WrongLength => "the list's length is not N",
            Refusal::NotSound => "words and list are not sound",
            Refusal::NoSuchPlugin => "the plugin number is 0 or above N",
            Refusal::Stopped => "the plugin is stopped",
            Refusal::WrongRegion => "the plugin is not in the region that the call asks for",
            Refusal::NotStopped => "the plugin is not stopped",
            Refusal::NotYetValid => "the plugin waits and its ticket is not yet valid",
            Refusal::TooManySlots => "the year is 1979 and k is not below N",
            Refusal::CounterAtEnd => "the counter that the call would raise is at its end",
        })
    }
}

impl std::error::Error for Refusal {}
