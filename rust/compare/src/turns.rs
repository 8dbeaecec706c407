//! Turns (document 02, A.7): "Let a sound gate answer place r to a waiting plugin.
//! Through any later calls but an open, each on what the one before left, while the
//! plugin keeps that ticket, it is valid just when at least r leaves have been accepted
//! since." Checked on the proved calls, for every waiting plugin of sound gates, after
//! each of random calls.

use crate::forms::{Calls, Form};
use crate::gate::{steps, WAITING};
use crate::random::standings::Standing;
use crate::random::states::{any_plugin, legal_call, State, LETTERS};
use crate::random::Random;

/// What the checked turns came to.
#[derive(Clone, Debug, Default)]
pub struct Tally {
    /// The gates, and those of them of 1979.
    pub gates: u64,
    pub early: u64,
    pub calls: u64,
    pub refused: u64,
    /// Leaves that were accepted, and those of them from waiting.
    pub leaves: u64,
    pub handed_back: u64,
    /// Slots that looks gave.
    pub given: u64,
    /// Places that were told, and the turns that came after 1 return or more.
    pub places: u64,
    pub turns: u64,
}

/// A plugin that was told its place and has had no accepted leave since.
#[derive(Clone, Copy, Debug)]
struct Told {
    /// The index of its record.
    at: usize,
    place: u64,
    /// How many leaves had been accepted before.
    before: u64,
}

/// How many calls are made on a gate at most.
const CALLS: usize = 80;

/// So many gates; the first turn that comes too early or too late is the error.
pub fn check(seed: u64, count: u64, tally: &mut Tally) -> Result<(), String> {
    let mut seeds = Random::new(seed);
    for _ in 0..count {
        let random = &mut Random::new(seeds.number());
        let state = Standing::any(random).gate(random);
        tally.gates += 1;
        tally.early += u64::from(state.0.year == 1979);
        one_gate(random, state, tally)?;
    }
    Ok(())
}

fn one_gate(random: &mut Random, mut state: State, tally: &mut Tally) -> Result<(), String> {
    let mut all: Vec<Told> = Vec::new();
    let mut leaves = 0;
    for _ in 0..random.below(CALLS) {
        // Those that came to wait since are told their places too.
        for at in 0..state.1.regions.len() {
            if !all.iter().any(|told| told.at == at) {
                if let Some(place) = place(at, &state) {
                    tally.places += 1;
                    all.push(Told {
                        at,
                        place,
                        before: leaves,
                    });
                }
            }
        }
        let (letter, p) = if random.chance(850) {
            legal_call(random, &state)
        } else {
            (random.pick(&LETTERS), any_plugin(random, state.0.n))
        };
        let made = Form::Slices.call(letter, p, &state);
        let made = made.ok_or("a form without the call")?;
        tally.calls += 1;
        tally.refused += u64::from(made.shown.number != 0);
        tally.given += u64::from(made.shown.slot != 0);
        if letter == b'B' && made.shown.number == 0 {
            let leaver = p as usize - 1;
            leaves += 1;
            tally.leaves += 1;
            tally.handed_back += u64::from(state.1.regions[leaver] == WAITING);
            all.retain(|told| told.at != leaver);
        }
        let before = std::mem::replace(&mut state, made.left);
        for told in &all {
            let since = leaves - told.before;
            let valid = |(words, list): &State| steps::valid(words, list.ticket(told.at));
            if valid(&state) != (told.place <= since) {
                let (p, letter) = (told.at + 1, letter.escape_ascii());
                let valid = valid(&state);
                return Err(format!(
                    "plugin {p}, told {}, after {since} leaves, the last call {letter}: valid is {valid} in {state:?}",
                    told.place
                ));
            }
            tally.turns += u64::from(!valid(&before) && valid(&state));
        }
    }
    Ok(())
}

/// The place that the proved call tells a plugin, if it tells one.
fn place(at: usize, state: &State) -> Option<u64> {
    let told = Form::ReadOnly.call(b'P', at as u64 + 1, state)?;
    (told.shown.number == 0).then_some(told.shown.place.into())
}
