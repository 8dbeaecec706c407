//! The program written for speed: its judgement against the clause-by-clause one
//! and its calls against the gate's, on random states, sound and damaged, and on
//! the benchmark's crafted lists.

use std::collections::HashSet;

use compare::bench::cases::{crafted, Crafted};
use compare::fast;
use compare::gate::{self, sound_plainly, Words};
use compare::random::standings::wrong_year;
use compare::random::states::{any_plugin, change, reached, settle_slots, uneven};
use compare::random::states::{State, LETTERS};
use compare::random::Random;

/// A random state of either year: sound, damaged in one or two fields, of a wrong year,
/// or of unequal lengths.
fn state(random: &mut Random, round: u32) -> State {
    let mut state = reached(random);
    match round % 8 {
        0 | 1 => {}
        6 => state = wrong_year(random),
        7 => uneven(random, &mut state.1),
        _ => (0..random.between(1, 2)).for_each(|_| change(random, &mut state)),
    }
    state
}

#[test]
fn judges_as_the_clauses_do() {
    let mut random = Random::new(1989);
    let (mut sound, mut unsound, mut early) = (0, 0, 0);
    for round in 0..12_000 {
        let (words, mut list) = state(&mut random, round);
        early += u32::from(words.year == 1979);
        let plainly = sound_plainly(&words, &list.lend());
        assert_eq!(
            fast::sound(&words, &list.lend()),
            plainly,
            "{words:?} {list:?}"
        );
        *(if plainly { &mut sound } else { &mut unsound }) += 1;
    }
    assert!(sound > 3_000 && unsound > 3_000, "{sound} {unsound}");
    assert!(early > 2_000, "{early}");
}

#[test]
fn calls_as_the_gate_does() {
    let mut random = Random::new(1979);
    for round in 0..12_000 {
        let (words, list) = state(&mut random, round);
        let letter = random.pick(&LETTERS);
        let p = any_plugin(&mut random, words.n);
        let mut wanted = (words, list.clone());
        let reply = gate::by_letter(letter)(&words, &mut wanted.1.lend(), p);
        wanted.0 = reply.words;
        let mut left = (words, list.clone());
        let answer = fast::call(letter, &mut left.0, &mut left.1.lend(), p);
        assert_eq!((answer, left), (reply.answer, wanted), "{words:?} {list:?}");
    }
}

#[test]
fn compares_as_the_gate_does() {
    let mut random = Random::new(1961);
    let mut other = state(&mut random, 0);
    let mut given = HashSet::new();
    for round in 0..5_000 {
        let mut one = state(&mut random, round);
        if round % 3 == 0 {
            other = one.clone();
            let i = random.below(other.1.regions.len().max(1));
            let region = other.1.regions.get_mut(i);
            if let Some(region) = region.filter(|_| round % 2 == 0) {
                *region ^= 3;
                if one.1.lend().length().is_some() {
                    settle_slots(&mut other);
                }
            }
        }
        let pairs = [(&one.0, &one.1.lend()), (&other.0, &other.1.lend())];
        let answer = gate::alike(pairs[0], pairs[1]);
        assert_eq!(fast::alike(pairs[0], pairs[1]), answer);
        given.insert(answer);
    }
    assert_eq!(given.len(), 4, "{given:?}");
}

/// The crafted lists are sound, but for the damaged ones.
#[test]
fn crafted_lists() {
    for (n, tickets) in [64, 256, 1024]
        .into_iter()
        .flat_map(|n| Crafted::ALL.map(|t| (n, t)))
    {
        for mut case in crafted(n, tickets) {
            let words: Words = case.state.0;
            let list = &case.state.1.lend();
            assert_eq!(
                sound_plainly(&words, list),
                !case.damaged,
                "{n} {tickets:?}"
            );
            assert_eq!(fast::sound(&words, list), !case.damaged, "{n} {tickets:?}");
        }
    }
}
