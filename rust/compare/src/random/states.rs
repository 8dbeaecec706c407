//! Words with a list: sound ones, as calls reach them from an opening, and ones
//! that are damaged in a field or lent in slices of unequal length.

use super::Random;
use crate::gate::{self, PluginList, Words, FREE_PLACES, IDLE, INSIDE, YEARS};

pub type State = (Words, PluginList);

/// The letters of the calls that name a plugin.
pub const LETTERS: [u8; 6] = *b"TLBPSW";

/// A year that opens with this N and k: either, if k is below N.
pub fn open_year(random: &mut Random, n: usize, k: usize) -> u16 {
    if k < n {
        random.pick(&YEARS)
    } else {
        1989
    }
}

/// The state of a new gate of either year: N from 1 to 1,024 and k from 1 to 64,
/// mostly small, k often above N.
fn opening(random: &mut Random) -> State {
    let (n, k) = match random.weighted(&[38, 33, 16, 4, 2, 3, 4]) {
        0 => (random.between(1, 4), random.between(1, 5)),
        1 => (random.between(3, 20), random.between(1, 24)),
        2 => (random.between(10, 150), random.between(1, 64)),
        3 => (random.between(151, 1024), random.between(1, 64)),
        4 => (1024, random.pick(&[1, 2, 63, 64])),
        // All 64 places are full when a plugin hands back its turn.
        5 => (random.pick(&[1, 1, 2, 63, 64, 65]), 64),
        // The smallest at which the blocks of the two years differ in size.
        _ => (4, 2),
    };
    let year = open_year(random, n, k);
    let mut list = PluginList::idle(n);
    let reply = gate::open(year.into(), n as u64, k as u64, &mut list.lend());
    assert_eq!(reply.number(), 0);
    (reply.words, list)
}

/// A state that calls reach from an opening: after none, after few, or after so
/// many that all plugins wait or are inside.
pub fn reached(random: &mut Random) -> State {
    let mut state = opening(random);
    let steps = match random.below(3) {
        0 => 0,
        1 => random.below(50),
        _ => random.below(4 * state.1.regions.len()),
    };
    for _ in 0..steps {
        let (letter, p) = legal_call(random, &state);
        state.0 = gate::by_letter(letter)(&state.0, &mut state.1.lend(), p).words;
    }
    state
}

/// A call's letter and a plugin, mostly such that the call is accepted.
pub fn legal_call(random: &mut Random, (_, list): &State) -> (u8, u64) {
    let i = random.below(list.regions.len());
    let letter = match (list.marks[i], list.regions[i]) {
        (1, _) => random.pick(b"WWWP"),
        (_, IDLE) => random.pick(b"TTTTTTTS"),
        (_, INSIDE) => random.pick(b"BBBBBBBS"),
        _ => random.pick(b"LLLLBBPPS"),
    };
    (letter, i as u64 + 1)
}

/// A plugin number: of a plugin, or one of those next to the range or far above
/// it, also where only its low bits are a plugin's.
pub fn any_plugin(random: &mut Random, n: u16) -> u64 {
    let n = u64::from(n);
    let inside = 1 + random.number() % n.max(1);
    match random.weighted(&[80, 5, 5, 2, 2, 2, 2, 2]) {
        0 => inside,
        1 => 0,
        2 => n + 1,
        3 => u64::MAX,
        4 => (1 << 16) + inside,
        5 => (1 << 32) + inside,
        6 => (1 << 63) + inside,
        _ => random.number(),
    }
}

/// One word or one field of a record changed, a little or to anything, or two
/// records' tickets made one or exchanged, or something of the slots. What changes
/// the regions or k may have the slots follow, so that nothing of them is wrong.
pub fn change(random: &mut Random, state: &mut State) {
    if state.1.regions.is_empty() {
        state.0.n = random.number() as u16;
    } else if random.chance(400) {
        change_slots(random, state);
    } else if change_ticket_or_region(random, state) && random.chance(500) {
        settle_slots(state);
    }
}

/// A change that is not of the slots; says whether the slots are concerned.
fn change_ticket_or_region(random: &mut Random, (words, list): &mut State) -> bool {
    let length = list.regions.len();
    let (i, j) = (random.below(length), random.below(length));
    let anything = random.chance(200);
    let any = random.number() as u16;
    let by = |old: u16| match any {
        _ if anything => any,
        even if even % 2 == 0 => old.wrapping_add(1),
        _ => old.wrapping_sub(1),
    };
    let colour = if random.chance(100) {
        random.below(words.counts.len())
    } else {
        random.below(usize::from(words.k.min(64)) + 1)
    };
    let kind = random.below(15);
    match kind {
        0 => words.issue.value.0 = by(words.issue.value.0),
        1 => words.issue.colour.0 = by(words.issue.colour.0.into()) as u8,
        2 => words.valid.value.0 = by(words.valid.value.0),
        3 => words.valid.colour.0 = by(words.valid.colour.0.into()) as u8,
        4 => words.counts[colour] = by(words.counts[colour].into()) as u8,
        5 => words.k = by(words.k.into()) as u8,
        6 => list.regions[i] = by(list.regions[i].into()) as u8 % 4,
        7 => list.regions[i] = 3 - list.regions[i].min(3),
        8 => list.marks[i] = by(list.marks[i].into()) as u8 % 3,
        9 => list.values[i] = by(list.values[i]),
        10 => list.colours[i] = by(list.colours[i].into()) as u8,
        11 => {
            list.values[i] = list.values[j];
            list.colours[i] = list.colours[j];
        }
        12 => {
            list.values.swap(i, j);
            list.colours.swap(i, j);
        }
        13 => words.year = any_year(random) as u16,
        _ => words.n = by(words.n),
    }
    (5..8).contains(&kind)
}

/// A place of the free row or a record's slot changed.
fn change_slots(random: &mut Random, (words, list): &mut State) {
    let row = words.free.iter().take_while(|&&slot| slot != 0).count();
    // Two places of the row, or next to it.
    let last = FREE_PLACES - 1;
    let (a, b) = (random.below(row + 1), random.below(row + 1));
    let (a, b) = (a.min(last), b.min(last));
    // A plugin, mostly one inside, and another.
    let inside: Vec<usize> = (0..list.regions.len())
        .filter(|&i| list.regions[i] == INSIDE)
        .collect();
    let mut plugin = || match inside.len() {
        some if some > 0 && random.chance(800) => random.pick(&inside),
        _ => random.below(list.regions.len()),
    };
    let (i, j) = (plugin(), plugin());
    let any = random.number() as u8;
    let near = |old: u8| match any % 8 {
        0 => any,
        1 | 2 => old.wrapping_sub(1),
        3 | 4 => old.wrapping_add(1),
        5 => words.k.wrapping_add(1),
        6 => 1,
        _ => 0,
    };
    match random.below(13) {
        // A 0 before the last, a slot above k, or another.
        0 => words.free[a] = near(words.free[a]),
        // A slot far behind the last.
        1 => words.free[random.between(a, last)] = near(0),
        // A slot twice in the row, and one that is missing.
        2 => words.free[a] = words.free[b],
        // The row in another order: nothing is wrong.
        3 => words.free.swap(a, b),
        // A slot is missing: the others move up, or leave a gap.
        4 => {
            words.free.copy_within(a + 1.., a);
            words.free[last] = 0;
        }
        5 => words.free[a] = 0,
        // A record's slot: 0 inside, one for those outside, one above k, or another.
        6 => list.slots[i] = near(list.slots[i]),
        // Two with one slot.
        7 => list.slots[i] = list.slots[j],
        // Two exchanged: nothing is wrong if both are inside.
        8 => list.slots.swap(i, j),
        // A slot that is free and with a plugin: the free one, or the plugin's.
        9 => list.slots[i] = words.free[a],
        10 => words.free[row.min(last)] = list.slots[i],
        // A plugin's slot is free, and the plugin has none, or another's.
        11 => {
            words.free[row.min(last)] = list.slots[i];
            list.slots[i] = 0;
        }
        _ => {
            words.free[row.min(last)] = list.slots[i];
            list.slots[i] = list.slots[j];
        }
    }
}

/// Slots that go with k and the regions: a plugin inside keeps its slot where it can,
/// or gets one; the others have none; and the row has the rest.
pub fn settle_slots((words, list): &mut State) {
    let most = words.k.min(FREE_PLACES as u8);
    let mut free: Vec<u8> = (1..=most).collect();
    let inside = |i: &usize| list.regions[*i] == INSIDE;
    let (inside, outside): (Vec<usize>, Vec<usize>) = (0..list.regions.len()).partition(inside);
    for &i in &inside {
        let kept = free.iter().position(|&slot| slot == list.slots[i]);
        list.slots[i] = kept.map_or(0, |at| free.remove(at));
    }
    for &i in &inside {
        if list.slots[i] == 0 && !free.is_empty() {
            list.slots[i] = free.remove(0);
        }
    }
    for i in outside {
        list.slots[i] = 0;
    }
    words.free = [0; FREE_PLACES];
    words.free[..free.len()].copy_from_slice(&free);
}

/// A year: one of the two, one next to them or far from them, also where only its low
/// bits are one of the two.
pub fn any_year(random: &mut Random) -> u64 {
    match random.weighted(&[40, 40, 40, 1]) {
        0 => 1979,
        1 => 1989,
        2 => random.pick(&[0, 1978, 1980, 1988, 1990, 65_535]),
        _ => random.pick(&[(1 << 16) + 1979, (1 << 32) + 1989, u64::MAX]),
    }
}

/// One to five of the slices made longer or shorter.
pub fn uneven(random: &mut Random, list: &mut PluginList) {
    let length = list.regions.len();
    let other = match random.below(4) {
        0 => length + 1,
        1 => length - 1,
        2 => random.below(1030),
        _ => 0,
    };
    let which = random.between(1, 31);
    if which & 1 != 0 {
        list.regions.resize(other, 0);
    }
    if which & 2 != 0 {
        list.marks.resize(other, 0);
    }
    if which & 4 != 0 {
        list.values.resize(other, 0);
    }
    if which & 8 != 0 {
        list.colours.resize(other, 0);
    }
    if which & 16 != 0 {
        list.slots.resize(other, 0);
    }
}
