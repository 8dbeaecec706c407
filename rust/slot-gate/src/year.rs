//! The years that a gate may be opened for.

use std::fmt;

/// The year of a gate: which of the two reports says how its tickets are numbered.
/// Plugins are served alike in both; only the tickets are others.
///
/// ```
/// use slot_gate::{Gate, Refusal, Ticket, Year};
///
/// let mut early = Gate::open_year(Year::Y1979, 4, 2)?;
/// let mut late = Gate::open_year(Year::Y1989, 4, 2)?;
/// assert_eq!((early.year(), early.take(1)?), (Year::Y1979, Ticket::new(2, 0)));
/// assert_eq!((late.year(), late.take(1)?), (Year::Y1989, Ticket::new(1, 0)));
/// assert_eq!(early.year().to_string(), "1979");
/// assert_eq!(Year::of_number(1989), Some(Year::Y1989));
/// # Ok::<(), Refusal>(())
/// ```
#[non_exhaustive]
#[derive(Clone, Copy, Debug, PartialEq, Eq, Hash)]
pub enum Year {
    /// N tickets of each colour, with the values 1 to N. There must be fewer slots
    /// than plugins.
    Y1979,
    /// One ticket more of each colour than the larger of k and N − k, with values from
    /// 0 on.
    Y1989,
}

impl Year {
    /// Both.
    pub const ALL: &'static [Year] = &[Year::Y1979, Year::Y1989];

    /// The year as a number.
    pub const fn number(self) -> u16 {
        match self {
            Year::Y1979 => 1979,
            Year::Y1989 => 1989,
        }
    }

    /// The year of a number; none for a number that is neither.
    pub fn of_number(number: u16) -> Option<Year> {
        Year::ALL
            .iter()
            .copied()
            .find(|year| year.number() == number)
    }
}

/// The number.
impl fmt::Display for Year {
    fn fmt(&self, out: &mut fmt::Formatter<'_>) -> fmt::Result {
        self.number().fmt(out)
    }
}
