//! The comparison of the proved calls with this crate's gate, call by call and in
//! every form, on gates of both years: the number, the answer, every word and every
//! record. Beside each call a line of a schedule is read by the proved reader and by
//! this crate's.

use std::fmt::Debug;

use crate::forms::{Calls, Form, Made};
use crate::gate::{self, Answer, PluginList, Rule, Words};
use crate::lines;
use crate::proved;
use crate::random::damage;
use crate::random::standings::wrong_year;
use crate::random::states::{any_plugin, any_year, change, legal_call, reached};
use crate::random::states::{uneven, State, LETTERS};
use crate::random::Random;

/// What the compared calls came to.
#[derive(Clone, Debug, Default)]
pub struct Tally {
    pub calls: u64,
    /// Calls by number: 0 accepted, 8 a letter that names no call, all others refused.
    pub numbers: [u64; 11],
    /// Calls on words of 1979, those that were accepted of them, and calls on words in
    /// which nothing is wrong but the year.
    pub early: u64,
    pub early_accepted: u64,
    pub wrong_years: u64,
    /// Calls on states of which a field was changed, and on unequal slices.
    pub damaged: u64,
    pub unequal: u64,
    pub most_plugins: u16,
    /// Calls on words whose k is above N.
    pub more_slots: u64,
    /// Turns handed back while all 64 slots were free.
    pub full_rows: u64,
    /// Looks that were accepted, by the rules that decided them.
    pub rules: [u64; Rule::NAMES.len()],
    /// Of each form, how often each kind of call was made by it.
    pub forms: [[u64; KINDS.len()]; Form::ALL.len()],
    /// Lines of schedules read by both readers, and those that are none.
    pub lines: u64,
    pub bad_lines: u64,
}

/// The kinds of calls: those that name a plugin in the order of [`LETTERS`], then the
/// others.
pub const KINDS: [&str; 9] = [
    "take",
    "look",
    "leave",
    "place",
    "stop",
    "wake",
    "no such call",
    "open",
    "alike",
];
const NO_SUCH_CALL: usize = 6;
const OPEN: usize = 7;
const ALIKE: usize = 8;

impl Tally {
    fn count(&mut self, number: u8, words: &Words) {
        self.calls += 1;
        self.numbers[usize::from(number.min(10))] += 1;
        let early = u64::from(words.year == 1979);
        self.early += early;
        self.early_accepted += early * u64::from(number == 0);
        self.more_slots += u64::from(u16::from(words.k) > words.n);
        if words.n <= 1024 {
            self.most_plugins = self.most_plugins.max(words.n);
        }
    }
}

/// How many comparisons are made on a walk from one state at most.
const WALK: usize = 400;

/// So many comparisons of the proved calls; the first difference is the error.
pub fn compare(seed: u64, count: u64, tally: &mut Tally) -> Result<(), String> {
    let forms = Form::ALL.each_ref().map(|form| form as &dyn Calls);
    compare_with(&forms, seed, count, tally)
}

/// The same of any calls, at most as many as there are forms.
pub fn compare_with(
    compared: &[&dyn Calls],
    seed: u64,
    count: u64,
    tally: &mut Tally,
) -> Result<(), String> {
    let mut seeds = Random::new(seed);
    while tally.calls < count {
        let random = &mut Random::new(seeds.number());
        let mut state = reached(random);
        for _ in 0..random.between(1, WALK) {
            if tally.calls < count {
                one_line(random, state.0.n, tally)?;
                let comparison = &mut Comparison { compared, tally };
                comparison.near(random, &mut state)?;
            }
        }
    }
    Ok(())
}

/// What is compared with the gate, and what it has come to.
struct Comparison<'a> {
    compared: &'a [&'a dyn Calls],
    tally: &'a mut Tally,
}

impl Comparison<'_> {
    /// One comparison on a sound state or on one near it. The state goes on to the
    /// next of the walk.
    fn near(&mut self, random: &mut Random, state: &mut State) -> Result<(), String> {
        match random.weighted(&[49, 8, 25, 5, 5, 4, 1, 3]) {
            0 => {
                let (letter, p) = legal_call(random, state);
                *state = self.call(letter, p, state)?;
            }
            1 => {
                let p = any_plugin(random, state.0.n);
                *state = self.call(random.pick(&LETTERS), p, state)?;
            }
            2 => {
                let damaged = changed(random, state);
                let (letter, p) = near_call(random, state);
                self.tally.damaged += 1;
                self.call(letter, p, &damaged)?;
            }
            3 => {
                let mut other = state.clone();
                uneven(random, &mut other.1);
                let (letter, p) = near_call(random, state);
                self.tally.unequal += 1;
                self.call(letter, p, &other)?;
            }
            4 => self.open(random, state)?,
            5 => self.alike(random, state)?,
            6 => self.no_such_call(random, state)?,
            _ => {
                let other = wrong_year(random);
                let (letter, p) = near_call(random, &other);
                self.tally.wrong_years += 1;
                self.call(letter, p, &other)?;
            }
        }
        Ok(())
    }

    /// One call by the gate and by all that is compared; returns the state that it
    /// leaves.
    fn call(&mut self, letter: u8, p: u64, state: &State) -> Result<State, String> {
        let (words, mut list) = state.clone();
        let reply = gate::by_letter(letter)(&words, &mut list.lend(), p);
        let tally = &mut self.tally;
        tally.count(reply.number(), &state.0);
        let full_row = state.0.free.iter().all(|&slot| slot != 0);
        tally.full_rows += u64::from(letter == b'B' && reply.number() == 0 && full_row);
        if let Some(rule) = reply.answer.rule() {
            tally.rules[usize::from(rule.number()) - 1] += 1;
        }
        let kind = LETTERS.iter().position(|&known| known == letter);
        let wanted = wanted(reply.answer, (reply.words, list));
        self.by_each(kind.unwrap_or(NO_SUCH_CALL), &wanted, |calls| {
            calls.call(letter, p, state)
        })
        .map_err(|difference| {
            let (letter, state) = (letter.escape_ascii(), shown_state(state));
            format!("{letter} {p} on {state}: {difference}")
        })?;
        Ok(wanted.left)
    }

    /// A call by each that has it, against what the gate gives.
    fn by_each(
        &mut self,
        kind: usize,
        wanted: &Made,
        make: impl Fn(&dyn Calls) -> Option<Made>,
    ) -> Result<(), String> {
        for (i, &calls) in self.compared.iter().enumerate() {
            let Some(made) = make(calls) else {
                continue;
            };
            self.tally.forms[i][kind] += 1;
            if made != *wanted {
                return Err(format!("by {} {}", calls.name(), difference(wanted, &made)));
            }
        }
        Ok(())
    }

    /// An open of any year and size over a list of any length.
    fn open(&mut self, random: &mut Random, state: &State) -> Result<(), String> {
        let year = any_year(random);
        let n = match random.below(8) {
            0 => random.pick(&[0, 1025, 65536, 65537, u64::MAX]),
            1 => random.pick(&[1, 1024]),
            2 | 3 => random.number() % 66,
            _ => random.number() % 1030,
        };
        let k = match random.below(8) {
            0 => random.pick(&[0, 65, 256, 257, u64::MAX]),
            // As many slots as plugins, one more or one less.
            1 | 2 => n.wrapping_add(random.pick(&[0, 0, 1, u64::MAX])),
            _ => random.number() % 66,
        };
        let length = if random.chance(700) {
            n.min(1030)
        } else {
            random.number() % 1030
        };
        let mut start = state.1.clone();
        let bytes = [
            &mut start.regions,
            &mut start.marks,
            &mut start.colours,
            &mut start.slots,
        ];
        for field in bytes {
            field.resize(length as usize, 3);
        }
        start.values.resize(length as usize, 7);
        if length > 0 && random.chance(100) {
            uneven(random, &mut start);
        }
        let mut list = start.clone();
        let reply = gate::open(year, n, k, &mut list.lend());
        self.tally.count(reply.number(), &reply.words);
        let wanted = wanted(reply.answer, (reply.words, list));
        self.by_each(OPEN, &wanted, |calls| calls.open(year, n, k, &start))
            .map_err(|difference| {
                format!("open of {year}, {n} {k}, on {length} records: {difference}")
            })
    }

    /// Alike of the state with itself after some calls, or damaged, either way round.
    fn alike(&mut self, random: &mut Random, state: &State) -> Result<(), String> {
        let mut first = state.clone();
        let mut second = match random.below(6) {
            0 => reached(random),
            1 => changed(random, state),
            2 => wrong_year(random),
            _ => state.clone(),
        };
        for _ in 0..random.below(3) {
            let (letter, p) = legal_call(random, state);
            second.0 = gate::by_letter(letter)(&second.0, &mut second.1.lend(), p).words;
        }
        if random.chance(100) {
            uneven(random, &mut second.1);
        }
        if random.chance(100) {
            first = changed(random, &first);
        }
        if random.chance(500) {
            std::mem::swap(&mut first, &mut second);
        }
        let (mut list, mut list2) = (first.1.clone(), second.1.clone());
        let answer = gate::alike((&first.0, &list.lend()), (&second.0, &list2.lend()));
        self.tally.count(answer.err().unwrap_or(0), &first.0);
        // Alike leaves nothing.
        let nothing = || (Words::ZERO, PluginList::idle(0));
        let wanted = Made {
            shown: proved::shown_alike(answer),
            left: nothing(),
        };
        self.by_each(ALIKE, &wanted, |calls| {
            let (shown, left) = (calls.alike(&first, &second)?, nothing());
            Some(Made { shown, left })
        })
        .map_err(|difference| {
            let (first, second) = (shown_state(&first), shown_state(&second));
            format!("alike of {first} and {second}: {difference}")
        })
    }

    /// A letter that names no call gives 8 and changes nothing.
    fn no_such_call(&mut self, random: &mut Random, state: &State) -> Result<(), String> {
        let letter = loop {
            let letter = random.number() as u8;
            if !LETTERS.contains(&letter) {
                break letter;
            }
        };
        let p = any_plugin(random, state.0.n);
        self.tally.count(8, &state.0);
        let wanted = wanted(Answer::Refused(8), state.clone());
        self.by_each(NO_SUCH_CALL, &wanted, |calls| calls.call(letter, p, state))
            .map_err(|difference| {
                let state = shown_state(state);
                format!("letter {letter}, plugin {p}, on {state}: {difference}")
            })
    }
}

/// A call that the sound state mostly accepts, or any.
fn near_call(random: &mut Random, state: &State) -> (u8, u64) {
    if random.chance(700) {
        legal_call(random, state)
    } else {
        (random.pick(&LETTERS), any_plugin(random, state.0.n))
    }
}

fn changed(random: &mut Random, state: &State) -> State {
    let mut damaged = state.clone();
    for _ in 0..random.pick(&[1, 1, 1, 2, 3]) {
        change(random, &mut damaged);
    }
    damaged
}

fn wanted(answer: Answer, left: State) -> Made {
    let shown = proved::shown(answer);
    Made { shown, left }
}

/// What two outcomes do not have in common, first answers, then words, then lists.
fn difference(wanted: &Made, made: &Made) -> String {
    let differ = |gate: &dyn Debug, proved: &dyn Debug| {
        format!("the gate has {gate:?}, the proved call {proved:?}")
    };
    if made.shown != wanted.shown {
        return differ(&wanted.shown, &made.shown);
    }
    let ((words, list), (proved_words, proved_list)) = (&wanted.left, &made.left);
    if proved_words != words {
        return differ(words, proved_words);
    }
    let (records, proved_records) = (proved::records(list), proved::records(proved_list));
    let at = (0..records.len()).find(|&i| records.get(i) != proved_records.get(i));
    at.map_or_else(
        || differ(list, proved_list),
        |i| {
            let records = differ(&records[i], &proved_records.get(i));
            format!("plugin {}: {records}", i + 1)
        },
    )
}

/// The words, and the list if it is short: it can be made again by the seed.
fn shown_state((words, list): &State) -> String {
    match list.regions.len() {
        0..=16 => format!("{words:?}, {list:?}"),
        length => format!("{words:?}, {length} records"),
    }
}

/// A line of a schedule, sometimes damaged, with more after it, by both readers.
fn one_line(random: &mut Random, n: u16, tally: &mut Tally) -> Result<(), String> {
    let p = any_plugin(random, n);
    let mut part = match random.pick(b"OTLBPSW") {
        b'O' => format!("O {p} {}\n", random.below(70)).into_bytes(),
        letter => format!("{} {p}\n", char::from(letter)).into_bytes(),
    };
    if random.chance(200) {
        part = damage::damaged(random, part);
    }
    if random.chance(500) {
        part.extend_from_slice(b"T 1\n");
    }
    let rest = lines::compare_one(&part)
        .map_err(|difference| format!("next call on \"{}\": {difference}", part.escape_ascii()))?;
    tally.lines += 1;
    tally.bad_lines += u64::from(rest.is_none() && !part.is_empty());
    Ok(())
}
