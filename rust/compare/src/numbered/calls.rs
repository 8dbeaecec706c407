//! The comparison of calls of the numbered gate with this crate's, call by call, on sound and
//! damaged words and lists, at the end of the counters too: the number, the answer, every word
//! and every record.

use super::states::{change, legal_call, reached, uneven};
use super::{call, open, Answer, PluginList, Reply, State, GREATEST};
use crate::random::states::{any_plugin, LETTERS};
use crate::random::Random;

/// Calls of a numbered gate on given words and a given list.
pub trait Calls {
    fn name(&self) -> &'static str;

    fn open(&self, n: u64, k: u64, list: &PluginList) -> Made;

    /// The call of a letter, which may name none.
    fn call(&self, letter: u8, p: u64, state: &State) -> Made;

    /// The same by a function of the call's own, where there is one.
    fn by_name(&self, _letter: u8, _p: u64, _state: &State) -> Option<Made> {
        None
    }
}

/// What a call answers and leaves.
#[derive(Clone, Debug, PartialEq, Eq)]
pub struct Made {
    pub answer: Answer,
    pub left: State,
}

impl Made {
    pub fn new(reply: Reply, list: PluginList) -> Made {
        Made {
            answer: reply.answer,
            left: (reply.words, list),
        }
    }
}

/// This crate's own gate.
pub struct Own;

impl Calls for Own {
    fn name(&self) -> &'static str {
        "our numbered gate"
    }

    fn open(&self, n: u64, k: u64, list: &PluginList) -> Made {
        let mut list = list.clone();
        let reply = open(n, k, &mut list.lend());
        Made::new(reply, list)
    }

    fn call(&self, letter: u8, p: u64, (words, list): &State) -> Made {
        let mut list = list.clone();
        let reply = call(letter, words, &mut list.lend(), p);
        Made::new(reply, list)
    }
}

/// What the compared calls came to.
#[derive(Clone, Debug, Default)]
pub struct Tally {
    pub calls: u64,
    /// Calls by number: 0 accepted, 8 a letter that names no call, all others refused.
    pub numbers: [u64; 12],
    /// Calls by their letters, in the order of [`LETTERS`]; and opens.
    pub letters: [u64; LETTERS.len()],
    pub opens: u64,
    /// Calls that were also made by functions of their own.
    pub by_name: u64,
    /// Calls on states of which a field was changed, and on unequal slices.
    pub damaged: u64,
    pub unequal: u64,
    /// Calls on words of which a counter is the greatest number, or the one below.
    pub at_end: u64,
    pub near_end: u64,
    pub most_plugins: u16,
    /// Calls on words whose k is above N.
    pub more_slots: u64,
}

/// How many comparisons are made on a walk from one state at most.
const WALK: usize = 150;

/// So many comparisons with our own gate; the first difference is the error.
pub fn compare(
    compared: &dyn Calls,
    seed: u64,
    count: u64,
    tally: &mut Tally,
) -> Result<(), String> {
    let mut seeds = Random::new(seed);
    while tally.calls < count {
        let random = &mut Random::new(seeds.number());
        let mut state = reached(random);
        for _ in 0..random.between(1, WALK) {
            if tally.calls < count {
                near(compared, random, &mut state, tally)?;
            }
        }
    }
    Ok(())
}

/// One comparison on a sound state or on one near it. The state goes on to the next of the
/// walk.
fn near(
    compared: &dyn Calls,
    random: &mut Random,
    state: &mut State,
    tally: &mut Tally,
) -> Result<(), String> {
    let mut any_call = |state: &State| match random.chance(700) {
        true => legal_call(random, state),
        false => (random.pick(&LETTERS), any_plugin(random, state.0.n)),
    };
    let (letter, p) = any_call(state);
    match random.weighted(&[55, 33, 5, 5, 2]) {
        0 => *state = one_call(compared, (letter, p), state, tally)?,
        1 => {
            let mut damaged = state.clone();
            for _ in 0..random.pick(&[1, 1, 1, 2, 3]) {
                change(random, &mut damaged);
            }
            tally.damaged += 1;
            one_call(compared, (letter, p), &damaged, tally)?;
        }
        2 => {
            let mut other = state.clone();
            uneven(random, &mut other.1);
            tally.unequal += 1;
            one_call(compared, (letter, p), &other, tally)?;
        }
        3 => one_open(compared, random, state, tally)?,
        _ => {
            let letter = random.number() as u8;
            one_call(compared, (letter, p), state, tally)?;
        }
    }
    Ok(())
}

/// One call by both, by its letter and by its name; returns the state that it leaves.
fn one_call(
    compared: &dyn Calls,
    (letter, p): (u8, u64),
    state: &State,
    tally: &mut Tally,
) -> Result<State, String> {
    let wanted = Own.call(letter, p, state);
    tally.count(&wanted, &state.0);
    if let Some(kind) = LETTERS.iter().position(|&known| known == letter) {
        tally.letters[kind] += 1;
    }
    let by_name = compared.by_name(letter, p, state);
    tally.by_name += u64::from(by_name.is_some());
    for made in by_name.iter().chain([&compared.call(letter, p, state)]) {
        agree(&wanted, made).map_err(|difference| {
            let (name, letter) = (compared.name(), letter.escape_ascii());
            format!("{name}, {letter} {p} on {}: {difference}", shown(state))
        })?;
    }
    Ok(wanted.left)
}

/// An open of any size over a list of any length.
fn one_open(
    compared: &dyn Calls,
    random: &mut Random,
    state: &State,
    tally: &mut Tally,
) -> Result<(), String> {
    let n = match random.below(8) {
        0 => random.pick(&[0, 1025, 65536, 65537, u64::MAX]),
        1 => random.pick(&[1, 1024]),
        2 | 3 => random.number() % 66,
        _ => random.number() % 1030,
    };
    let k = match random.below(8) {
        0 => random.pick(&[0, 65, 256, 257, u64::MAX]),
        _ => random.number() % 66,
    };
    let length = if random.chance(700) {
        n.min(1030)
    } else {
        random.number() % 1030
    };
    let mut list = state.1.clone();
    list.regions.resize(length as usize, 3);
    list.marks.resize(length as usize, 3);
    list.tickets.resize(length as usize, 7);
    if random.chance(100) {
        uneven(random, &mut list);
    }
    let wanted = Own.open(n, k, &list);
    tally.count(&wanted, &wanted.left.0);
    tally.opens += 1;
    agree(&wanted, &compared.open(n, k, &list)).map_err(|difference| {
        let name = compared.name();
        format!("{name}, open {n} {k} on {length} records: {difference}")
    })
}

impl Tally {
    fn count(&mut self, made: &Made, words: &super::Words) {
        self.calls += 1;
        self.numbers[usize::from(made.answer.number())] += 1;
        let last = words.issue.max(words.valid);
        self.at_end += u64::from(last == GREATEST);
        self.near_end += u64::from(last == GREATEST - 1);
        self.more_slots += u64::from(u16::from(words.k) > words.n);
        if words.n <= 1024 {
            self.most_plugins = self.most_plugins.max(words.n);
        }
    }
}

/// What two calls do not have in common, first answers, then words, then lists.
fn agree(wanted: &Made, made: &Made) -> Result<(), String> {
    if made == wanted {
        return Ok(());
    }
    let (left, other) = (&wanted.left, &made.left);
    Err(if made.answer != wanted.answer {
        format!("it has {:?}, ours {:?}", made.answer, wanted.answer)
    } else if other.0 != left.0 {
        format!("it leaves {:?}, ours {:?}", other.0, left.0)
    } else {
        format!("it leaves {}, ours {}", shown(other), shown(left))
    })
}

/// The words, and the list if it is short: it can be made again by the seed.
fn shown((words, list): &State) -> String {
    match list.regions.len() {
        0..=16 => format!("{words:?}, {list:?}"),
        length => format!("{words:?}, {length} records"),
    }
}
