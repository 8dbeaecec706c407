//! Words with a list for the numbered gate: sound ones, as calls reach them from an opening,
//! the same ones with all their numbers moved up, to the end of the counters too, where no run
//! comes; and ones that are damaged in a field or lent in slices of unequal length.

use super::{call, open, PluginList, State, GREATEST};
use crate::gate::{IDLE, INSIDE};
use crate::random::Random;

/// The state of a new gate: N from 1 to 1,024 and k from 1 to 64, mostly small, k often above
/// N.
fn opening(random: &mut Random) -> State {
    let (n, k) = match random.weighted(&[45, 33, 14, 3, 2, 3]) {
        0 => (random.between(1, 4), random.between(1, 5)),
        1 => (random.between(3, 20), random.between(1, 24)),
        2 => (random.between(10, 150), random.between(1, 64)),
        3 => (random.between(151, 1024), random.between(1, 64)),
        4 => (1024, random.pick(&[1, 2, 63, 64])),
        _ => (random.pick(&[1, 2, 63, 64, 65]), 64),
    };
    let mut list = PluginList::idle(n);
    let reply = open(n as u64, k as u64, &mut list.lend());
    assert_eq!(reply.answer.number(), 0);
    (reply.words, list)
}

/// A state that calls reach from an opening, and often the same state further on.
pub fn reached(random: &mut Random) -> State {
    let mut state = opening(random);
    let steps = match random.below(3) {
        0 => 0,
        1 => random.below(50),
        _ => random.below(4 * state.1.regions.len()),
    };
    for _ in 0..steps {
        let (letter, p) = legal_call(random, &state);
        state.0 = call(letter, &state.0, &mut state.1.lend(), p).words;
    }
    if random.chance(700) {
        let room = GREATEST - state.0.issue.max(state.0.valid);
        let by = match random.weighted(&[6, 2, 1, 1]) {
            0 => room - random.number() % room.min(4),
            1 => room - random.number() % room.min(100),
            2 => (1 << 32) - random.number() % 100,
            _ => random.number() % room,
        };
        move_up(&mut state, by);
    }
    if random.chance(100) {
        to_ticket_0(&mut state);
    }
    state
}

/// Adds a number to both counters and to every ticket that is held: as sound as it was.
pub fn move_up((words, list): &mut State, by: u64) {
    words.issue += by;
    words.valid += by;
    for (ticket, _) in held_mut(list) {
        *ticket += by;
    }
}

/// The smallest number that there is becomes 0, which may then be a ticket that is held.
fn to_ticket_0((words, list): &mut State) {
    let held = list.clone().lend().held().min();
    let by = [words.issue, words.valid]
        .into_iter()
        .chain(held)
        .min()
        .unwrap_or(0);
    words.issue -= by;
    words.valid -= by;
    for (ticket, _) in held_mut(list) {
        *ticket -= by;
    }
}

fn held_mut(list: &mut PluginList) -> impl Iterator<Item = (&mut u64, &u8)> {
    let records = list.tickets.iter_mut().zip(&list.regions);
    records.filter(|(_, &region)| region != IDLE)
}

/// A call's letter and a plugin, mostly such that the call is accepted.
pub fn legal_call(random: &mut Random, (_, list): &State) -> (u8, u64) {
    let i = random.below(list.regions.len());
    let letter = match (list.marks[i], list.regions[i]) {
        (1, _) => random.pick(b"WWWP"),
        (_, IDLE) => random.pick(b"TTTTTTTS"),
        (_, INSIDE) => random.pick(b"BBBBBBBS"),
        _ => random.pick(b"LLLLBBPPS"),
    };
    (letter, i as u64 + 1)
}

/// One word or one field of a record changed, a little or to anything, both counters moved, or
/// two records' tickets made one or exchanged.
pub fn change(random: &mut Random, (words, list): &mut State) {
    let length = list.regions.len();
    if length == 0 {
        words.n = random.number() as u16;
        return;
    }
    let (i, j) = (random.below(length), random.below(length));
    let any = random.number();
    let near = |old: u64| match any % 16 {
        0..=5 => old.wrapping_add(1),
        6..=11 => old.wrapping_sub(1),
        12 => 0,
        13 => GREATEST,
        _ => any >> 4,
    };
    match random.below(14) {
        0 => words.issue = near(words.issue),
        1 => words.valid = near(words.valid),
        2 => {
            words.issue = near(words.issue);
            words.valid = near(words.valid);
        }
        3 => words.k = near(words.k.into()) as u8,
        4 => words.n = near(words.n.into()) as u16,
        5 => list.regions[i] = near(list.regions[i].into()) as u8 % 4,
        6 => list.regions[i] = 3 - list.regions[i].min(3),
        7 => list.marks[i] = near(list.marks[i].into()) as u8 % 3,
        8 => list.tickets[i] = near(list.tickets[i]),
        9 => list.tickets[i] = list.tickets[j],
        10 => list.tickets.swap(i, j),
        11 => list.regions.swap(i, j),
        // A plugin that has left, or come, and nothing else has.
        12 => {
            list.regions[i] = IDLE;
            list.tickets[i] = 0;
        }
        _ => {
            list.regions[i] = random.pick(&[1, 2]);
            list.tickets[i] = random.pick(&[words.issue, words.valid, near(words.issue)]);
        }
    }
}

/// One to three of the slices made longer or shorter.
pub fn uneven(random: &mut Random, list: &mut PluginList) {
    let length = list.regions.len();
    let other = match random.below(4) {
        0 => length + 1,
        1 => length.saturating_sub(1),
        2 => random.below(1030),
        _ => 0,
    };
    let which = random.between(1, 7);
    if which & 1 != 0 {
        list.regions.resize(other, 0);
    }
    if which & 2 != 0 {
        list.marks.resize(other, 0);
    }
    if which & 4 != 0 {
        list.tickets.resize(other, 0);
    }
}
