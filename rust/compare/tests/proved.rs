//! The proved calls as hosts of their own, over number slices, over records and in a
//! `Gate`: document 01's whole case and random schedules, against the queue and
//! against the gate; then single calls in every form, and replays.

use compare::calls;
use compare::check::{against_queue, Tally};
use compare::forms::Form;
use compare::gate::{self, Answer, Colour, Rule, Slot, Ticket, Value};
use compare::proved_host::ProvedHost;
use compare::random::{schedules, Random};
use compare::replays;
use compare::schedule::{next_call, Call, Next};
use compare::transcript::{transcript, transcript_by, GateHost, Host};
use slot_gate::{Gate, Refusal, Region, Verdict};

const LISTS: [Form; 2] = [Form::Slices, Form::Records];

#[test]
fn whole_case() {
    let input = include_bytes!("../../../examples/three-plugins.schedule");
    let wanted = include_str!("../../../examples/three-plugins.expected");
    for form in LISTS {
        let printed = transcript_by(&mut ProvedHost::new(form), input);
        assert_eq!(String::from_utf8(printed).unwrap(), wanted);
    }
}

#[test]
fn random_schedules() {
    let mut random = Random::new(3);
    for _ in 0..100 {
        let input = schedules::input(&mut random);
        for form in LISTS {
            let mut host = ProvedHost::new(form);
            against_queue(&mut host, &input, &mut Tally::default()).unwrap();
            let printed = transcript_by(&mut ProvedHost::new(form), &input);
            assert_eq!(printed, transcript(&input));
        }
    }
}

/// A call on a host's gate, with its answer as this crate has it.
fn perform(gate: &mut Gate, call: Call) -> Answer {
    let answer = match call {
        Call::Open(n, k) => Gate::open(n.into(), k.into()).map(|opened| {
            *gate = opened;
            Answer::Done
        }),
        Call::Take(p) => gate
            .take(p.into())
            .map(|ticket| Answer::Ticket(own_ticket(ticket))),
        Call::Look(p) => gate.look(p.into()).map(|verdict| match verdict {
            Verdict::Yes(slot, rule) => Answer::Yes(Slot(slot.0), own_rule(rule)),
            Verdict::No(rule) => Answer::No(own_rule(rule)),
            other => panic!("{other:?} is neither yes nor no"),
        }),
        Call::Leave(p) => gate.leave(p.into()).map(|()| Answer::Done),
        Call::Place(p) => gate.place(p.into()).map(Answer::Place),
        Call::Stop(p) => gate.stop(p.into()).map(|()| Answer::Done),
        Call::Wake(p) => gate.wake(p.into()).map(|()| Answer::Done),
    };
    answer.unwrap_or_else(|refusal: Refusal| Answer::Refused(refusal.number()))
}

fn own_ticket(ticket: slot_gate::Ticket) -> Ticket {
    Ticket::new(ticket.value.0, ticket.colour.0)
}

fn own_rule(rule: slot_gate::Rule) -> Rule {
    match rule {
        slot_gate::Rule::NotAbove { value, valid } => {
            Rule::NotAbove(Value(value.0), Value(valid.0))
        }
        slot_gate::Rule::Above { value, valid } => Rule::Above(Value(value.0), Value(valid.0)),
        slot_gate::Rule::Counted { colour, count } => Rule::Counted(Colour(colour.0), count),
        slot_gate::Rule::NotCounted { colour, count } => Rule::NotCounted(Colour(colour.0), count),
        other => panic!("{other:?} is none of the four"),
    }
}

/// A host's `Gate` answers as this crate's gate does, slots and rules included, and
/// shows the same words, regions, stop marks, tickets and slots.
#[test]
fn gates_of_hosts() {
    let mut random = Random::new(5);
    let mut refused = 0;
    for _ in 0..100 {
        let input = schedules::input(&mut random);
        let (mut host, mut proved) = (GateHost::default(), Gate::open(1, 1).unwrap());
        let mut part = &input[..];
        while let (Next::Call(call), rest) = next_call(part) {
            part = rest;
            let ours = host.perform(call);
            if host.words().n == 0 {
                continue; // A `Gate` is always open.
            }
            assert_eq!(perform(&mut proved, call), ours, "{call}");
            refused += u64::from(ours.number() != 0);
            assert_eq!(own_ticket(proved.issue()), host.words().issue);
            assert_eq!(own_ticket(proved.valid()), host.words().valid);
        }
        if host.words().n == 0 {
            continue;
        }
        assert_eq!(proved.plugins(), host.words().n);
        assert_eq!(proved.slots(), host.words().k);
        let row = host.words().free.into_iter().take_while(|&slot| slot != 0);
        assert!(proved.free_slots().map(|slot| slot.0).eq(row));
        assert!(proved.alike(&proved));
        for i in 0..host.list().regions.len() {
            let p = i as u64 + 1;
            let region = match host.list().regions[i] {
                gate::IDLE => Region::Idle,
                gate::WAITING => Region::Waiting,
                _ => Region::Inside,
            };
            assert_eq!(proved.region(p), Some(region));
            assert_eq!(proved.is_stopped(p), Some(host.list().marks[i] == 1));
            let held = (region != Region::Idle).then(|| host.list().ticket(i));
            assert_eq!(proved.ticket(p).map(own_ticket), held);
            let slot = (region == Region::Inside).then(|| host.list().slots[i]);
            assert_eq!(proved.slot(p).map(|slot| slot.0), slot);
        }
    }
    assert!(refused > 1000, "{refused}");
}

#[test]
fn single_calls() {
    let mut tally = calls::Tally::default();
    calls::compare(11, 50_000, &mut tally).unwrap();
    assert!(tally.numbers.iter().all(|&number| number > 0));
    assert!(tally.full_rows > 0, "{tally:?}");
    assert!(tally.early_accepted > 5_000, "{tally:?}");
    assert!(tally.wrong_years > 1_000, "{tally:?}");
    assert!(tally.rules.iter().all(|&count| count > 100), "{tally:?}");
    // By number slices and by records every kind of call; take and leave in place, look,
    // stop and wake with the words passed, place on a list only read.
    let [slices, records, in_place, passed, read_only] = tally.forms;
    assert!(slices.iter().chain(&records).all(|&count| count > 0));
    let made = |counts: [u64; 9]| -> Vec<&str> {
        let kinds = calls::KINDS.iter().zip(counts);
        kinds
            .filter(|(_, count)| *count > 0)
            .map(|(kind, _)| *kind)
            .collect()
    };
    assert_eq!(made(in_place), ["take", "leave"]);
    assert_eq!(made(passed), ["look", "stop", "wake"]);
    assert_eq!(made(read_only), ["place"]);
    assert!(tally.lines > tally.bad_lines && tally.bad_lines > 1000);
}

#[test]
fn lists_of_calls() {
    let mut tally = replays::Tally::default();
    replays::compare(12, 300, &mut tally).unwrap();
    assert!(tally.ended.iter().all(|&count| count > 0), "{tally:?}");
    let met = |number: usize| tally.numbers[number] > 0;
    assert!([0, 4, 5, 6, 7].into_iter().all(met), "{tally:?}");
    assert!(tally.given > 1000 && tally.early > 50, "{tally:?}");
    assert!(tally.rules.iter().all(|&count| count > 50), "{tally:?}");
}
