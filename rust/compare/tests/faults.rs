//! The faulty gates: what the search finds, and that random schedules find them, or,
//! where the fault is one of the years, random single calls.

use compare::calls;
use compare::check::{against_queue, Tally};
use compare::faults::search::{shortest, Bounds, BOUNDS};
use compare::faults::{all, Fault, FaultyCalls, FaultyHost, FIVE, NUMBERED_SLOTS, RULES, YEARS};
use compare::random::{schedules, Random};
use compare::transcript::{transcript, transcript_by, GateHost, Host};

fn faulty_transcript(fault: Option<Fault>, input: &[u8]) -> Vec<u8> {
    transcript_by(&mut FaultyHost::new(fault), input)
}

/// Without a fault the faulty gate is the gate, slots and all, so each fault is all
/// there is.
#[test]
fn no_fault() {
    let mut random = Random::new(21);
    for _ in 0..300 {
        let input = schedules::input(&mut random);
        let (mut gate, mut host) = (GateHost::default(), FaultyHost::new(None));
        let printed = transcript_by(&mut gate, &input);
        assert!(transcript_by(&mut host, &input) == printed);
        assert_eq!((gate.words(), gate.list()), (&host.words, &host.list));
        let checked = against_queue(&mut FaultyHost::new(None), &input, &mut Tally::default());
        assert_eq!(checked, Ok(()));
    }
}

#[test]
fn lengths() {
    let small = Bounds {
        most_plugins: 4,
        most_slots: 3,
        ..BOUNDS
    };
    let length = |fault| shortest(fault, small).unwrap().calls.len();
    assert_eq!(length(Fault::ShortBlock), 3);
    assert_eq!(length(Fault::ColourIgnoresCounts), 15);
    assert_eq!(length(Fault::ValidityByValues), 3);
    assert_eq!(length(Fault::CountDownFirst), 15);
    assert_eq!(length(Fault::SlotPassedOn), 5);
    assert_eq!(length(Fault::InvalidHandedBack), 3);
    assert_eq!(length(Fault::StoppedHandsBack), 3);
    assert_eq!(length(Fault::HandBackMovesNothing), 4);
    assert_eq!(length(Fault::HandBackCountDownFirst), 14);
    assert_eq!(length(Fault::LastSlotFirst), 5);
    assert_eq!(length(Fault::LowestSlotFirst), 5);
    assert_eq!(length(Fault::HandBackReturnsSlot), 4);
    assert_eq!(length(Fault::SlotKept), 3);
    assert_eq!(length(Fault::EqualIsAbove), 2);
    assert_eq!(length(Fault::RuleValuesExchanged), 2);
    assert_eq!(length(Fault::RuleOfValidsColour), 3);
    assert_eq!(length(Fault::RuleOfOtherVerdict), 2);
}

/// Whether nothing of it shows in a line that `gaterun` prints.
fn unprinted(fault: &Fault) -> bool {
    fault.shows_in_slots_only() || fault.shows_in_rules_only()
}

/// The lines of a transcript, all that the queue has no word on left out: only
/// the call, its number, and its answer if that is not a ticket.
fn seen_by_queue(output: &[u8]) -> Vec<String> {
    let text = String::from_utf8_lossy(output);
    let fields = |line: &str| if line.starts_with('T') { 3 } else { 4 };
    text.lines()
        .map(|line| {
            line.split(' ')
                .take(fields(line))
                .collect::<Vec<_>>()
                .join(" ")
        })
        .collect()
}

/// Each found schedule shows its fault in its last line, and not before. The
/// right gate agrees with the queue on all of it.
#[test]
fn last_line_departs() {
    for fault in all().filter(|fault| !unprinted(fault)) {
        let text = shortest(fault, BOUNDS).unwrap().text();
        let (right, faulty) = (transcript(&text), faulty_transcript(Some(fault), &text));
        let lines = |output: &[u8]| -> Vec<String> {
            if fault.shows_in_words_only() {
                String::from_utf8_lossy(output)
                    .lines()
                    .map(String::from)
                    .collect()
            } else {
                seen_by_queue(output)
            }
        };
        let (right, faulty) = (lines(&right), lines(&faulty));
        let differ = |i: &usize| right[*i] != faulty[*i];
        let differing: Vec<usize> = (0..right.len()).filter(differ).collect();
        assert_eq!(differing, [right.len() - 1], "{}", fault.name());
        let checked = against_queue(&mut GateHost::default(), &text, &mut Tally::default());
        assert_eq!(checked, Ok(()));
    }
}

/// The same of the faults of the slots and of the rules: they show in the slots of the
/// last call, or in its rule, and in no line.
#[test]
fn last_slot_or_rule_departs() {
    for fault in all().filter(unprinted) {
        let found = shortest(fault, BOUNDS).unwrap();
        let text = found.text();
        assert!(faulty_transcript(Some(fault), &text) == transcript(&text));
        let check = |text: &[u8]| {
            let host = &mut FaultyHost::new(Some(fault));
            against_queue(host, text, &mut Tally::default())
        };
        let last = format!("{}\n", found.calls.last().unwrap());
        assert_eq!(check(&text[..text.len() - last.len()]), Ok(()));
        let difference = check(&text).unwrap_err();
        let at = format!("call {}, ", found.calls.len() + 1);
        assert!(difference.starts_with(&at), "{difference}");
        let slots = fault.shows_in_slots_only();
        let what = if slots { "slot" } else { "the rule is" };
        assert!(difference.contains(what), "{difference}");
        let checked = against_queue(&mut GateHost::default(), &text, &mut Tally::default());
        assert_eq!(checked, Ok(()));
    }
}

/// Stops and wakes do not shorten a schedule for a fault that does not concern
/// them.
#[test]
fn stops_do_not_help() {
    for fault in FIVE.into_iter().chain(NUMBERED_SLOTS).chain(RULES) {
        let bounds = Bounds {
            most_plugins: 4,
            most_slots: 2,
            ..BOUNDS
        };
        let with_stops = Bounds {
            stop_always: true,
            ..bounds
        };
        let lengths =
            [bounds, with_stops].map(|bounds| shortest(fault, bounds).unwrap().calls.len());
        assert_eq!(lengths[0], lengths[1], "{}", fault.name());
    }
}

/// The random schedules find every fault: by the queue, or for the order of the
/// counts by the transcript.
#[test]
fn random_schedules_find_them() {
    for fault in all() {
        let mut random = Random::new(22);
        let found = (1..=200).find(|_| {
            let input = schedules::input(&mut random);
            if fault.shows_in_words_only() {
                faulty_transcript(Some(fault), &input) != transcript(&input)
            } else {
                let host = &mut FaultyHost::new(Some(fault));
                against_queue(host, &input, &mut Tally::default()).is_err()
            }
        });
        println!("{}: found by schedule {found:?}", fault.name());
        assert!(found.is_some(), "{}", fault.name());
    }
}

/// The order of the counts does not show in the queue's answers: the colour that
/// it may choose has no other holder.
#[test]
fn order_of_counts_keeps_to_the_queue() {
    let mut random = Random::new(23);
    for _ in 0..200 {
        let input = schedules::input(&mut random);
        for fault in all().filter(|fault| fault.shows_in_words_only()) {
            let host = &mut FaultyHost::new(Some(fault));
            assert_eq!(against_queue(host, &input, &mut Tally::default()), Ok(()));
        }
    }
}

/// So many single calls by a gate with a fault, or with none, in the place of the proved
/// calls; says which call departs.
fn departs(fault: Option<Fault>, count: u64) -> Option<u64> {
    let mut tally = calls::Tally::default();
    let compared = calls::compare_with(&[&FaultyCalls(fault)], 24, count, &mut tally);
    compared.is_err().then_some(tally.calls)
}

/// Document 02, A.8: a gate that is wrong in 1979 alone, or in what years it takes.
#[test]
fn single_calls_find_those_of_the_years() {
    assert_eq!(departs(None, 50_000), None);
    for fault in YEARS {
        let found = departs(Some(fault), 50_000);
        println!("{}: found by call {found:?}", fault.name());
        assert!(found.is_some(), "{}", fault.name());
    }
}

/// And no schedule does: they are all of 1989.
#[test]
fn schedules_do_not() {
    let mut random = Random::new(25);
    for _ in 0..100 {
        let input = schedules::input(&mut random);
        let printed = transcript(&input);
        for fault in YEARS {
            assert!(faulty_transcript(Some(fault), &input) == printed);
        }
    }
}
