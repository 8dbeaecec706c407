//! Breadth-first search for the shortest schedule on which a faulty gate
//! departs from the queue, from the right gate, or from the rule of the slots.
//! A fault of the rules departs from the right gate in what a look shows.

use std::collections::HashSet;

use super::{Fault, FaultyHost};
use crate::check::{agree, feed};
use crate::gate::{Answer, Words, FREE_PLACES};
use crate::queue::{Queue, Region, Reply};
use crate::schedule::Call;
use crate::slot_rule::SlotRule;
use crate::transcript::Host;

/// The sizes that are searched: N from 1 and k from 1.
#[derive(Clone, Copy, Debug)]
pub struct Bounds {
    pub most_plugins: u16,
    pub most_slots: u16,
    /// The longest schedule that is sought, the open not counted.
    pub most_calls: usize,
    /// Stop and wake are called also where the fault does not concern them.
    pub stop_always: bool,
}

pub const BOUNDS: Bounds = Bounds {
    most_plugins: 7,
    most_slots: 6,
    most_calls: 24,
    stop_always: false,
};

/// A shortest schedule: the open, then the calls. The last one departs.
#[derive(Clone, Debug, PartialEq, Eq)]
pub struct Found {
    pub open: Call,
    pub calls: Vec<Call>,
}

impl Found {
    pub fn text(&self) -> Vec<u8> {
        let lines = std::iter::once(&self.open).chain(&self.calls);
        lines
            .flat_map(|call| format!("{call}\n").into_bytes())
            .collect()
    }
}

/// The shortest schedule over all sizes within the bounds; among equally short
/// ones that of the smallest N, then the smallest k.
pub fn shortest(fault: Fault, bounds: Bounds) -> Option<Found> {
    let mut best: Option<Found> = None;
    for n in 1..=bounds.most_plugins {
        for k in 1..=bounds.most_slots {
            let most_calls = best
                .as_ref()
                .map_or(bounds.most_calls, |found| found.calls.len() - 1);
            let found = search(
                fault,
                n,
                k,
                Bounds {
                    most_calls,
                    ..bounds
                },
            );
            best = found.or(best);
        }
    }
    best
}

/// A state to go on from, with the index of its last call in the links.
struct Reached {
    last: usize,
    host: FaultyHost,
    queue: Queue,
    slots: SlotRule,
}

/// The search for one size. All states with the same key go on alike, so only
/// the first that is reached is kept.
fn search(fault: Fault, n: u16, k: u16, bounds: Bounds) -> Option<Found> {
    let open = Call::Open(n, k);
    let mut host = FaultyHost::new(Some(fault));
    host.perform(open);
    let queue = Queue::open(n.into(), k.into());
    let slots = SlotRule::open(n.into(), k.into());
    // Each call with the index of the call before it; the open has index 0.
    let mut links = vec![(0, open)];
    let mut visited = HashSet::from([key(&host, &queue, &slots)]);
    let mut states = vec![Reached {
        last: 0,
        host,
        queue,
        slots,
    }];
    for _ in 0..bounds.most_calls {
        let mut next_states = Vec::new();
        for state in &states {
            for call in calls(fault, n, bounds.stop_always) {
                let mut queue = state.queue.clone();
                let reply = feed(&mut queue, call);
                let refused = matches!(reply, Reply::Refused(_));
                if refused && !fault.accepts_more() {
                    // Before a departure the regions, the marks and which tickets
                    // are valid are the same in both, so the refusals are.
                    continue;
                }
                let mut host = state.host.clone();
                let answer = host.perform(call);
                let mut slots = state.slots.clone();
                let given = call
                    .of_plugin()
                    .map_or(0, |(letter, p)| slots.feed(letter, p.into(), reply));
                let departs = if fault.shows_in_words_only() {
                    let (right, _) = by_right(&state.host, call);
                    right.words != host.words || right.list != host.list
                } else if fault.shows_in_slots_only() {
                    answer.slot().0 != given || host.list.slots != slots.slots()
                } else if fault.shows_in_rules_only() {
                    by_right(&state.host, call).1.rule() != answer.rule()
                } else {
                    !agree(answer, reply)
                };
                if departs {
                    links.push((state.last, call));
                    return Some(path(open, &links));
                }
                // A refusal changes nothing.
                if !refused && visited.insert(key(&host, &queue, &slots)) {
                    links.push((state.last, call));
                    let last = links.len() - 1;
                    next_states.push(Reached {
                        last,
                        host,
                        queue,
                        slots,
                    });
                }
            }
        }
        states = next_states;
    }
    None
}

/// The calls that are tried from a state. Under a fault that does not concern
/// stops, a shortest schedule has none: without its stops and wakes (and the
/// calls that these made refused) it departs as well.
fn calls(fault: Fault, n: u16, stop_always: bool) -> Vec<Call> {
    let mut kinds: Vec<fn(u16) -> Call> = vec![Call::Take, Call::Look, Call::Leave, Call::Place];
    if fault.concerns_stops() || stop_always {
        kinds.extend([Call::Stop as fn(u16) -> Call, Call::Wake]);
    }
    kinds.iter().flat_map(|kind| (1..=n).map(kind)).collect()
}

/// What the right gate, from the same state, would have come to and answered.
fn by_right(before: &FaultyHost, call: Call) -> (FaultyHost, Answer) {
    let mut right = FaultyHost {
        fault: None,
        ..before.clone()
    };
    let answer = right.perform(call);
    (right, answer)
}

/// The calls that lead to the last link.
fn path(open: Call, links: &[(usize, Call)]) -> Found {
    let mut calls = Vec::new();
    let mut at = links.len() - 1;
    while at != 0 {
        let (before, call) = links[at];
        calls.push(call);
        at = before;
    }
    calls.reverse();
    Found { open, calls }
}

/// Words; region, mark, value, colour and slot of each holder; a number; the free
/// slots by the rule.
type Key = (Words, Vec<Holder>, usize, Vec<u8>);
type Holder = (u8, u8, u16, u8, u8);

/// What a state is apart from the plugins' numbers: the words; region, mark, ticket
/// and slot of each holder in the order of the row; the number of idle plugins
/// that are stopped; and the rule's row. No call asks more of a number than which
/// record it names, so two states of one key go on alike.
///
/// Slots decide nothing but slots, so where the fault is none of theirs they are
/// left out. Before a departure each record's slot is the rule's.
fn key(host: &FaultyHost, queue: &Queue, slots: &SlotRule) -> Key {
    let with_slots = host.fault.is_some_and(Fault::shows_in_slots_only);
    let holders = queue
        .row
        .iter()
        .map(|p| {
            let (list, i) = (&host.list, p - 1);
            (
                list.regions[i],
                list.marks[i],
                list.values[i],
                list.colours[i],
                if with_slots { list.slots[i] } else { 0 },
            )
        })
        .collect();
    let idle_stopped = (1..=queue.n)
        .filter(|&p| queue.region(p) == Region::Idle && queue.stopped(p))
        .count();
    let (mut words, mut row) = (host.words, Vec::new());
    if with_slots {
        row.extend(slots.free());
    } else {
        words.free = [0; FREE_PLACES];
    }
    (words, holders, idle_stopped, row)
}
