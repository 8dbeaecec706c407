//! "Sound means here": what A.9 asks of words and list, a clause for each part of its
//! sentence.

use super::{valid, Lent, Words};
use crate::gate::{IDLE, INSIDE, MOST_PLUGINS, MOST_SLOTS, WAITING};

#[derive(Clone, Copy, Debug, PartialEq, Eq)]
pub enum Clause {
    /// "document 01's ranges": "N is 1 to 1,024; k is 1 to 64".
    Sizes,
    /// "a region (0 idle, 1 waiting, 2 inside)".
    Regions,
    /// "a stop mark (0 or 1)".
    Marks,
    /// "idle records with ticket 0".
    Idle,
    /// "distinct held tickets".
    Distinct,
    /// "none above ISSUE".
    Issued,
    /// "VALID less ISSUE within the lead's bounds": "at most k and at least −(N − k), or at
    /// least 0 if N is not above k".
    Lead,
    /// "every ticket after VALID up to ISSUE held by a waiting plugin".
    Awaited,
    /// "k held or unissued tickets not above VALID".
    NumberK,
    /// "and, if VALID is not above ISSUE, ticket VALID held".
    ValidHeld,
}

impl Clause {
    pub const ALL: [Clause; 10] = [
        Clause::Sizes,
        Clause::Regions,
        Clause::Marks,
        Clause::Idle,
        Clause::Distinct,
        Clause::Issued,
        Clause::Lead,
        Clause::Awaited,
        Clause::NumberK,
        Clause::ValidHeld,
    ];

    pub fn holds(self, words: &Words, list: &Lent) -> bool {
        let (n, k) = (u64::from(words.n), u64::from(words.k));
        match self {
            Clause::Sizes => (1..=MOST_PLUGINS).contains(&n) && (1..=MOST_SLOTS).contains(&k),
            Clause::Regions => {
                let known = [IDLE, WAITING, INSIDE];
                list.regions.iter().all(|region| known.contains(region))
            }
            Clause::Marks => list.marks.iter().all(|mark| [0, 1].contains(mark)),
            Clause::Idle => list.held_in(IDLE).all(|ticket| ticket == 0),
            Clause::Distinct => {
                let held = sorted(list.held());
                held.windows(2).all(|pair| pair[0] != pair[1])
            }
            Clause::Issued => list.held().all(|ticket| ticket <= words.issue),
            Clause::Lead => {
                let lead = i128::from(words.valid) - i128::from(words.issue);
                let least = if n > k { -i128::from(n - k) } else { 0 };
                (least..=i128::from(k)).contains(&lead)
            }
            // The first that nobody awaits ends the search: at most N are held.
            Clause::Awaited => {
                let awaited = sorted(list.held_in(WAITING));
                let is_awaited = |ticket| awaited.binary_search(&ticket).is_ok();
                let after = words.valid.checked_add(1);
                after.is_none_or(|after| (after..=words.issue).all(is_awaited))
            }
            Clause::NumberK => {
                let held = list.held().filter(|&ticket| valid(words, ticket)).count();
                let unissued = words.valid.saturating_sub(words.issue);
                held as u128 + u128::from(unissued) == u128::from(k)
            }
            Clause::ValidHeld => {
                words.valid > words.issue || list.held().any(|ticket| ticket == words.valid)
            }
        }
    }
}

fn sorted(tickets: impl Iterator<Item = u64>) -> Vec<u64> {
    let mut tickets: Vec<u64> = tickets.collect();
    tickets.sort_unstable();
    tickets
}

pub fn sound(words: &Words, list: &Lent) -> bool {
    sound_but_for(None, words, list)
}

/// All clauses hold, but for one that is not asked.
pub fn sound_but_for(dropped: Option<Clause>, words: &Words, list: &Lent) -> bool {
    let mut asked = Clause::ALL
        .into_iter()
        .filter(|&clause| Some(clause) != dropped);
    asked.all(|clause| clause.holds(words, list))
}
