//! Pairs of gates that are alike or not: how they are made, and what is compared.

use compare::gate::{self, sound_but_for_year, sound_plainly, Words};
use compare::pairs;
use compare::random::standings::{wrong_year, Difference, Standing};
use compare::random::states::open_year;
use compare::random::Random;

/// Gates made for a standing are sound, of either year, and their plugins stand so.
#[test]
fn gates_of_a_standing() {
    let mut random = Random::new(1989);
    let mut early = 0;
    for round in 0..3_000 {
        let wanted = Standing::any(&mut random);
        let year = open_year(&mut random, wanted.n, wanted.k);
        let mut state = if round % 2 == 0 {
            wanted.by_calls(year, &mut random)
        } else {
            wanted.made_up(year, &mut random)
        };
        assert_eq!(state.0.year, year);
        early += u32::from(year == 1979);
        assert!(sound_plainly(&state.0, &state.1.lend()), "{wanted:?}");
        assert_eq!(Standing::of(&state), wanted.clone().sorted(), "{state:?}");
    }
    assert!(early > 500, "{early}");
}

/// Nothing is wrong with them but the year: of 1979 or of 1989 they would be sound, and
/// as they are they are sound but for the rule of the years.
#[test]
fn gates_of_a_wrong_year() {
    let mut random = Random::new(1980);
    let mut found = [0; 4];
    for _ in 0..2_000 {
        let (words, mut list) = wrong_year(&mut random);
        assert!(!sound_plainly(&words, &list.lend()), "{words:?}");
        let k = u16::from(words.k);
        if words.year == 1979 {
            assert!(k >= words.n && sound_but_for_year(&words, &list.lend()));
            found[usize::from(k > words.n)] += 1;
        } else {
            let mut of = |year, mut words: Words| {
                words.year = year;
                sound_plainly(&words, &list.lend())
            };
            let sound = [of(1979, words), of(1989, words)];
            assert!(sound[0] || sound[1], "{words:?}");
            found[if sound[0] { 2 } else { 3 }] += 1;
        }
    }
    assert!(found.iter().all(|&count| count > 100), "{found:?}");
}

/// A standing that differs in one thing is another one, and the gate tells it.
#[test]
fn differences() {
    let mut random = Random::new(1979);
    let mut made = [0; Difference::ALL.len()];
    for round in 0..3_000 {
        let at = round % Difference::ALL.len();
        let standing = Standing::any(&mut random);
        let Some(other) = standing.but_for(Difference::ALL[at], &mut random) else {
            continue;
        };
        made[at] += 1;
        assert_ne!(standing.clone().sorted(), other.clone().sorted());
        let [mut one, mut other] = [standing, other].map(|each| each.gate(&mut random));
        let answer = gate::alike((&one.0, &one.1.lend()), (&other.0, &other.1.lend()));
        assert_eq!(answer, Ok(false));
    }
    assert!(made.iter().all(|&count| count > 50), "{made:?}");
}

#[test]
fn pairs_agree() {
    let mut tally = pairs::Tally::default();
    pairs::compare(3, 400, &mut tally).unwrap();
    assert!(tally.other_tickets > 50 && tally.refused > 50, "{tally:?}");
    assert!(tally.other_slots > 50, "{tally:?}");
    assert!(tally.other_years > 50, "{tally:?}");
    assert!(tally.unlike.iter().all(|&count| count > 5), "{tally:?}");
}
