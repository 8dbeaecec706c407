//! Random runs of the gate against the queue, and what makes and shrinks them.

use compare::check::{against_queue, Tally};
use compare::program;
use compare::random::{damage, schedules, Random};
use compare::schedule::{next_call, Next};
use compare::shrink::shrink;
use compare::transcript::{transcript, GateHost, LONGEST};

#[test]
fn gate_and_queue() {
    let mut seeds = Random::new(11);
    let mut tally = Tally::default();
    for i in 0..400 {
        let input = schedules::input(&mut Random::new(seeds.number()));
        let result = against_queue(&mut GateHost::default(), &input, &mut tally);
        assert_eq!(result, Ok(()), "schedule {i}");
    }
    // The schedules are not all of one kind.
    assert!(tally.calls > 100_000, "{tally:?}");
    assert!(tally.numbers[0] > tally.calls / 2, "{tally:?}");
    assert!(
        tally.blocks > 1_000 && tally.noes > 1_000 && tally.places > 1_000,
        "{tally:?}"
    );
    let met = |number: usize| tally.numbers[number] > 0;
    assert!([1, 3, 4, 5, 6, 7, 8, 9].into_iter().all(met), "{tally:?}");
    assert!(
        tally.handed_back > 1_000 && tally.numbers[9] > 1_000,
        "{tally:?}"
    );
    assert!(tally.given > 10_000, "{tally:?}");
    let [not_above, above, counted, not_counted] = tally.rules;
    assert_eq!(not_above + counted, tally.given, "{tally:?}");
    assert_eq!(above + not_counted, tally.noes, "{tally:?}");
    assert!(tally.rules.iter().all(|&looks| looks > 1_000), "{tally:?}");
}

/// A line for each call that is read, then `bad` or nothing.
#[test]
fn one_line_for_each_call() {
    let mut random = Random::new(5);
    for _ in 0..200 {
        let input = schedules::input(&mut random);
        let lines = transcript(&input)
            .iter()
            .filter(|&&byte| byte == b'\n')
            .count();
        let (mut part, mut calls) = (&input[..], 0);
        while let (Next::Call(_), rest) = next_call(part) {
            (part, calls) = (rest, calls + 1);
        }
        let bad = usize::from(!part.is_empty());
        let wanted = if input.len() > LONGEST {
            1
        } else {
            calls + bad
        };
        assert_eq!(lines, wanted);
    }
}

#[test]
fn inputs_at_the_bound() {
    let mut random = Random::new(6);
    for length in LONGEST - 9..LONGEST + 2 {
        let text = schedules::schedule(&mut random, 3, 2, 20);
        let text = damage::of_length(text, length);
        assert_eq!(text.len(), length);
        let printed = transcript(&text);
        assert_eq!(printed == b"long\n", length > LONGEST);
        assert!(!printed.ends_with(b"bad\n"));
    }
}

#[test]
fn one_seed_one_schedule() {
    let make = |seed| schedules::input(&mut Random::new(seed));
    assert_eq!(make(4), make(4));
    assert_ne!(make(4), make(5));
}

/// A run fails here when a look of 2 comes somewhere after a take of 3.
#[test]
fn shrinks_to_the_calls_that_matter() {
    let fails = |input: &[u8]| {
        let text = String::from_utf8_lossy(input).into_owned();
        text.find("T 3\n")
            .is_some_and(|at| text[at..].contains("L 2\n"))
    };
    let mut input = schedules::schedule(&mut Random::new(8), 3, 1, 500);
    input.extend_from_slice(b"T 3\nW 1\nL 2\nS 1");
    assert_eq!(shrink(&input, fails), b"T 3\nL 2\n");
}

#[test]
fn differences_are_shown() {
    let difference = |wanted: &[u8], printed: &[u8]| {
        program::difference(("one", wanted), ("the other", printed))
    };
    assert_eq!(difference(b"a\nb\n", b"a\nb\n"), None);
    let shown = difference(b"a\nb\n", b"a\nc\n").unwrap();
    assert!(shown.contains("line 2") && shown.contains("\"b\\n\"") && shown.contains("\"c\\n\""));
    assert!(difference(b"a\n", b"a").unwrap().contains("line 1"));
    assert!(difference(b"a\n", b"a\nb\n").unwrap().contains("nothing"));
}
