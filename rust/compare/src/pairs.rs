//! Pairs of gates, of one year or of two: those whose plugins stand in one way, made by
//! different histories or made up, and those that differ in one thing. The gate and the
//! proved alike, over both forms of the list, must tell them apart; later calls by the
//! proved calls must give the same on alike gates, and leave them alike.

use crate::forms::{Calls, Form, Made};
use crate::gate;
use crate::proved;
use crate::random::standings::{Difference, Standing};
use crate::random::states::{any_plugin, legal_call, State, LETTERS};
use crate::random::Random;

/// What the compared pairs came to.
#[derive(Clone, Debug, Default)]
pub struct Tally {
    /// Alike pairs; those of them whose years are not the same, those whose tickets are
    /// not all the same, and those whose slots, with the plugins or in the row, are not.
    pub alike: u64,
    pub other_years: u64,
    pub other_tickets: u64,
    pub other_slots: u64,
    /// Unlike pairs, by what is different.
    pub unlike: [u64; Difference::ALL.len()],
    /// The calls made later on alike pairs, and those that were refused.
    pub calls: u64,
    pub refused: u64,
}

impl Tally {
    pub fn pairs(&self) -> u64 {
        self.alike + self.unlike.iter().sum::<u64>()
    }
}

/// How many calls are made later at most.
const LATER: usize = 40;

/// So many pairs; the first difference is the error.
pub fn compare(seed: u64, count: u64, tally: &mut Tally) -> Result<(), String> {
    let mut seeds = Random::new(seed);
    while tally.pairs() < count {
        let random = &mut Random::new(seeds.number());
        let standing = Standing::any(random);
        if random.chance(500) {
            let pair = (standing.gate(random), standing.gate(random));
            alike_pair(random, pair, tally)?;
        } else {
            // The first two most often: not every standing can differ in them.
            let at = random.weighted(&[5, 5, 1, 1, 1, 1]);
            let difference = Difference::ALL[at];
            if let Some(other) = standing.but_for(difference, random) {
                let (first, second) = (standing.gate(random), other.gate(random));
                judge(&first, &second, false)
                    .map_err(|error| format!("another {}: {error}", difference.name()))?;
                tally.unlike[at] += 1;
            }
        }
    }
    Ok(())
}

/// Both are alike, and stay so through later calls that give the same on both.
fn alike_pair(
    random: &mut Random,
    (mut first, mut second): (State, State),
    tally: &mut Tally,
) -> Result<(), String> {
    tally.alike += 1;
    tally.other_years += u64::from(first.0.year != second.0.year);
    let tickets = |(_, list): &State| (list.values.clone(), list.colours.clone());
    tally.other_tickets += u64::from(tickets(&first) != tickets(&second));
    let slots = |(words, list): &State| (words.free, list.slots.clone());
    tally.other_slots += u64::from(slots(&first) != slots(&second));
    judge(&first, &second, true)?;
    for _ in 0..random.below(LATER) {
        let (letter, p) = if random.chance(850) {
            legal_call(random, &first)
        } else {
            (random.pick(&LETTERS), any_plugin(random, first.0.n))
        };
        let by = |form: Form, state: &State| form.call(letter, p, state);
        let (one, other) = (by(Form::Slices, &first), by(Form::Records, &second));
        let (Some(one), Some(other)) = (one, other) else {
            return Err("a form without the call".to_string());
        };
        // "Tickets, slots and rules may differ."
        let said = |made: &Made| (made.shown.number, made.shown.yes, made.shown.place);
        if said(&one) != said(&other) {
            let letter = letter.escape_ascii();
            return Err(format!(
                "{letter} {p} on alike gates: {:?} on {first:?}, {:?} on {second:?}",
                one.shown, other.shown
            ));
        }
        tally.calls += 1;
        tally.refused += u64::from(one.shown.number != 0);
        (first, second) = (one.left, other.left);
        judge(&first, &second, true)?;
    }
    Ok(())
}

/// What the gate and every form that has alike say of two gates, either way round.
fn judge(first: &State, second: &State, wanted: bool) -> Result<(), String> {
    for (one, other) in [(first, second), (second, first)] {
        let (mut list, mut list2) = (one.1.clone(), other.1.clone());
        let answer = gate::alike((&one.0, &list.lend()), (&other.0, &list2.lend()));
        if answer != Ok(wanted) {
            return Err(format!("the gate says {answer:?} of {one:?} and {other:?}"));
        }
        for form in Form::ALL {
            let shown = form.alike(one, other);
            if shown.is_some_and(|shown| shown != proved::shown_alike(answer)) {
                let by = form.name();
                return Err(format!("by {by} {shown:?} of {one:?} and {other:?}"));
            }
        }
    }
    Ok(())
}
