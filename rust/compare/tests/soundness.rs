//! "A sound gate", on states made by hand, on all states of small gates, and the
//! plain judgement against those that take one pass.

use std::collections::HashSet;

use compare::fast;
use compare::gate::steps::Block;
use compare::gate::{
    self, lead, sound, sound_plainly, PluginList, Slot, Ticket, Words, IDLE, INSIDE, WAITING,
};
use compare::random::states::{change, open_year, settle_slots, State};
use compare::random::Random;
use compare::schedule::Call;

/// All three judgements, which must be one.
fn judged((words, list): &State) -> bool {
    let mut list = list.clone();
    let plainly = sound_plainly(words, &list.lend());
    assert_eq!(sound(words, &list.lend()), plainly, "{words:?} {list:?}");
    let fast = fast::sound(words, &list.lend());
    assert_eq!(fast, plainly, "{words:?} {list:?}");
    plainly
}

/// A state of 1989 by hand: ISSUE, VALID, the first counts, and (region, value, colour). The
/// first plugin inside has slot 1, and so on.
fn state(
    (n, k): (u16, u8),
    issue: (u16, u8),
    valid: (u16, u8),
    counts: &[u8],
    records: &[(u8, u16, u8)],
) -> State {
    let mut words = Words {
        year: 1989,
        n,
        k,
        issue: Ticket::new(issue.0, issue.1),
        valid: Ticket::new(valid.0, valid.1),
        ..Words::ZERO
    };
    words.counts[..counts.len()].copy_from_slice(counts);
    let mut list = PluginList::idle(records.len());
    for (i, &(region, value, colour)) in records.iter().enumerate() {
        let ticket = Ticket::new(value, colour);
        list.lend().set(i, region, ticket, Slot::default());
    }
    slots_in_order((words, list))
}

/// The same with the first slots inside, in the order of the plugins.
fn slots_in_order((words, mut list): State) -> State {
    list.slots.fill(0);
    let mut state = (words, list);
    settle_slots(&mut state);
    state
}

/// N 3, k 1 after T 1, T 2, T 3, L 1: d is −2, the places 2/0 and 0/1 wait.
fn crowded() -> State {
    let records = [(INSIDE, 1, 0), (WAITING, 2, 0), (WAITING, 0, 1)];
    state((3, 1), (0, 1), (1, 0), &[1, 0], &records)
}

#[test]
fn by_hand() {
    let opened = state((2, 1), (0, 0), (1, 0), &[1, 0], &[(IDLE, 0, 0); 2]);
    assert!(judged(&opened));
    assert_eq!(lead(&opened.0), 1);
    assert!(judged(&crowded()));
    assert_eq!(lead(&crowded().0), -2);
    assert!(!judged(&(Words::ZERO, PluginList::idle(0))));
}

/// Each changes one thing in a sound state and names the clause that it breaks. The
/// slots follow, so that nothing of them is wrong.
#[test]
fn one_thing_wrong() {
    let broken = |change: &dyn Fn(&mut Words, &mut PluginList)| {
        let (mut words, mut list) = crowded();
        change(&mut words, &mut list);
        assert!(!judged(&slots_in_order((words, list))));
    };
    // Ranges.
    for year in [0, 1978, 1979, 1980, 1990, u16::MAX] {
        broken(&|words, _| words.year = year);
    }
    broken(&|words, _| words.n = 0);
    broken(&|words, _| words.n = 1025);
    broken(&|words, _| words.k = 0);
    broken(&|words, _| words.k = 65);
    broken(&|words, _| words.issue.value.0 = 3);
    broken(&|words, _| words.valid.value.0 = 3);
    broken(&|words, _| words.issue.colour.0 = 2);
    broken(&|words, _| words.valid.colour.0 = 2);
    broken(&|_, list| list.regions[1] = 3);
    broken(&|_, list| list.marks[1] = 2);
    broken(&|_, list| list.values[1] = 3);
    broken(&|_, list| list.colours[1] = 2);
    // "counts above colour k are 0".
    broken(&|words, _| words.counts[2] = 1);
    broken(&|words, _| words.counts[64] = 1);
    // "an idle record's value and colour are 0".
    broken(&|_, list| list.regions[1] = IDLE);
    // "No two records hold one ticket."
    broken(&|_, list| list.values[1] = 1);
    // "No plugin inside holds one of those places after VALID."
    broken(&|_, list| list.regions[1] = INSIDE);
    broken(&|_, list| list.regions[2] = INSIDE);
    // "If d is 0 or less, VALID's own ticket is held."
    broken(&|_, list| list.values[0] = 0);
    // "The count of a colour".
    broken(&|words, _| words.counts[0] = 2);
    broken(&|words, _| words.counts[0] = 0);
    broken(&|words, _| words.counts[1] = 1);
    // Other leads.
    broken(&|words, _| words.valid.value.0 = 0);
    broken(&|words, _| words.valid.value.0 = 2);
    broken(&|words, _| words.issue.value.0 = 1);
    broken(&|words, _| words.valid.colour.0 = 1);

    let (words, mut list) = crowded();
    list.marks = vec![1, 0, 1];
    list.regions[0] = WAITING;
    assert!(judged(&slots_in_order((words, list))));
}

/// Document 02, A.4. N 4, k 3 after T 1, L 1, T 2, L 2, T 3: slots 1 and 2 are
/// inside, 3 is free; plugin 3 waits with a valid ticket, plugin 4 is idle.
#[test]
fn slots_wrong() {
    let records = [
        (INSIDE, 1, 0),
        (INSIDE, 2, 0),
        (WAITING, 3, 0),
        (IDLE, 0, 0),
    ];
    let right = state((4, 3), (3, 0), (3, 0), &[3], &records);
    let with = |free: &[u8], slots: [u8; 4]| {
        let (mut words, mut list) = right.clone();
        words.free = [0; 64];
        words.free[..free.len()].copy_from_slice(free);
        list.slots = slots.to_vec();
        judged(&(words, list))
    };
    // Sound, whoever has which slot.
    assert_eq!(
        (right.0.free[..2].to_vec(), &right.1.slots),
        (vec![3, 0], &vec![1, 2, 0, 0])
    );
    assert!(with(&[3], [1, 2, 0, 0]));
    assert!(with(&[3], [2, 1, 0, 0]));
    assert!(with(&[1], [2, 3, 0, 0]));
    // "the free slots in order, 0 after the last": none after a 0, none above k.
    assert!(!with(&[0, 3], [1, 2, 0, 0]));
    assert!(!with(&[3, 0, 4], [1, 2, 0, 0]));
    assert!(!with(&[3, 4], [1, 2, 0, 0]));
    assert!(!with(&[4, 3], [1, 2, 0, 0]));
    assert!(!with(&[3, 255], [1, 2, 0, 0]));
    // "a record gains its slot, 0 unless inside".
    for slot in [1, 3, 4, 255] {
        assert!(!with(&[3], [1, 2, slot, 0]));
        assert!(!with(&[3], [1, 2, 0, slot]));
    }
    assert!(!with(&[], [1, 2, 3, 0]));
    assert!(!with(&[], [1, 2, 0, 3]));
    // "each plugin inside has one of the slots 1 to k".
    assert!(!with(&[3, 2], [1, 0, 0, 0]));
    assert!(!with(&[3, 2], [1, 4, 0, 0]));
    assert!(!with(&[3, 1], [255, 2, 0, 0]));
    // "each slot is free once": twice in the row.
    assert!(!with(&[3, 3], [1, 2, 0, 0]));
    // "or with one plugin inside": free and inside, with two plugins, in no place.
    assert!(!with(&[3, 1], [1, 2, 0, 0]));
    assert!(!with(&[1], [1, 2, 0, 0]));
    assert!(!with(&[3, 2], [1, 1, 0, 0]));
    assert!(!with(&[3], [1, 1, 0, 0]));
    assert!(!with(&[], [1, 2, 0, 0]));
}

/// All 64 places are full when nobody is inside; with one inside the last is 0.
#[test]
fn all_places_full() {
    let opened = state((1, 64), (0, 0), (64, 0), &[64], &[(IDLE, 0, 0)]);
    assert!(judged(&opened));
    assert_eq!(opened.0.free.to_vec(), (1..=64).collect::<Vec<u8>>());
    for i in 0..64 {
        for slot in [0, 65, 1 + (opened.0.free[i] % 64)] {
            let mut damaged = opened.clone();
            damaged.0.free[i] = slot;
            assert!(!judged(&damaged), "{slot} at {i}");
        }
    }
    let entered = state((1, 64), (1, 0), (64, 0), &[64], &[(INSIDE, 1, 0)]);
    assert!(judged(&entered));
    let mut too_many = entered.clone();
    too_many.0.free[63] = 1;
    assert!(!judged(&too_many));
}

/// Clauses that the state above does not reach.
#[test]
fn further_clauses() {
    let idle = (IDLE, 0, 0);
    // d positive, colours different: VALID 0/1 leads ISSUE 1/0 by 1, N 2, k 1.
    let ahead = state((2, 1), (1, 0), (0, 1), &[0, 1], &[idle, idle]);
    assert!(judged(&ahead));
    assert_eq!(lead(&ahead.0), 1);
    // "If VALID leads and the colours differ, no held ticket has VALID's colour":
    // N 2, k 2, M 3, ISSUE 2/0, VALID 0/1; 0/1 is held though not yet issued.
    let good = state((2, 2), (2, 0), (0, 1), &[1, 1], &[(WAITING, 1, 0), idle]);
    let early = state((2, 2), (2, 0), (0, 1), &[0, 2], &[(WAITING, 0, 1), idle]);
    assert!(judged(&good));
    assert!(!judged(&early));
    // "A held ticket of ISSUE's colour has a value not above ISSUE's."
    let above = state((2, 2), (0, 0), (1, 0), &[2, 0], &[(WAITING, 2, 0), idle]);
    assert!(!judged(&above));
    let below = state((2, 2), (1, 0), (2, 0), &[2, 0], &[(WAITING, 0, 0), idle]);
    assert!(judged(&below));
    // "at least 0 if N is not above k": d is −1 with N 2, k 2.
    let behind = state(
        (2, 2),
        (2, 0),
        (1, 0),
        &[1],
        &[(WAITING, 2, 0), (INSIDE, 1, 0)],
    );
    assert_eq!(lead(&behind.0), -1);
    assert!(!judged(&behind));
    // Equal values, different colours: d is −M, below every bound.
    let block_behind = state(
        (2, 1),
        (0, 1),
        (0, 0),
        &[1],
        &[(WAITING, 0, 1), (WAITING, 0, 0)],
    );
    assert_eq!(lead(&block_behind.0), -2);
    assert!(!judged(&block_behind));
}

/// All words and unmarked lists of a year and size with values up to the last of the
/// block, 0 too, colours in range and counts up to k, the first slots inside.
fn all_states(year: u16, n: u16, k: u8, mut visit: impl FnMut(&State)) {
    let block = Block::of(&gate::steps::opening(year, n, k));
    let tickets: Vec<Ticket> = (0..=block.last() as u16)
        .flat_map(|value| (0..=k).map(move |colour| Ticket::new(value, colour)))
        .collect();
    let mut records = vec![(IDLE, Ticket::new(0, 0))];
    records.extend(tickets.iter().map(|&ticket| (WAITING, ticket)));
    records.extend(tickets.iter().map(|&ticket| (INSIDE, ticket)));
    let counts = usize::from(k) + 1;
    let choices = |of: usize, number: usize| of.pow(number as u32);
    for &issue in &tickets {
        for &valid in &tickets {
            for mut count in 0..choices(counts, counts) {
                let mut words = Words {
                    year,
                    n,
                    k,
                    issue,
                    valid,
                    ..Words::ZERO
                };
                for colour in 0..counts {
                    words.counts[colour] = (count % counts) as u8;
                    count /= counts;
                }
                for mut record in 0..choices(records.len(), n.into()) {
                    let mut list = PluginList::idle(n.into());
                    for i in 0..usize::from(n) {
                        let (region, ticket) = records[record % records.len()];
                        list.lend().set(i, region, ticket, Slot::default());
                        record /= records.len();
                    }
                    visit(&slots_in_order((words, list)));
                }
            }
        }
    }
}

fn calls(n: u16) -> Vec<Call> {
    let kinds: [fn(u16) -> Call; 6] = [
        Call::Take,
        Call::Look,
        Call::Leave,
        Call::Place,
        Call::Stop,
        Call::Wake,
    ];
    kinds.iter().flat_map(|kind| (1..=n).map(kind)).collect()
}

/// A state with all rows of slots 0 to k + 1 on its first k + 1 places, and all such
/// slots in its records.
fn all_slots(state: &State, mut visit: impl FnMut(&State)) {
    let (words, list) = state;
    let slots = usize::from(words.k) + 2;
    let (places, records) = (usize::from(words.k) + 1, list.slots.len());
    for mut choice in 0..slots.pow((places + records) as u32) {
        let (mut words, mut list) = (*words, list.clone());
        words.free.fill(0);
        for slot in words.free[..places].iter_mut().chain(&mut list.slots) {
            *slot = (choice % slots) as u8;
            choice /= slots;
        }
        visit(&(words, list));
    }
}

/// All unmarked states that calls reach from an opening.
fn reached(year: u16, n: u16, k: u8) -> HashSet<State> {
    let mut list = PluginList::idle(n.into());
    let words = gate::open(year.into(), n.into(), k.into(), &mut list.lend()).words;
    let mut reached = HashSet::from([(words, list.clone())]);
    let mut left = vec![(words, list)];
    while let Some((words, list)) = left.pop() {
        for call in calls(n) {
            let mut list = list.clone();
            let words = gate::perform(call, &words, &mut list.lend()).words;
            let state = (words, list);
            if !matches!(call, Call::Stop(_)) && reached.insert(state.clone()) {
                left.push(state);
            }
        }
    }
    reached
}

/// In a sound state k tickets are valid, less d if d is positive; the others wait
/// and have the places 1, 2, and so on, one each.
fn valid_ones_and_places((words, list): &State) {
    let ticket_valid = |i: &usize| gate::steps::valid(words, list.ticket(*i));
    let held = (0..list.regions.len()).filter(|&i| list.regions[i] != IDLE);
    let (valid, others): (Vec<usize>, Vec<usize>) = held.partition(ticket_valid);
    assert_eq!(valid.len() as i64, i64::from(words.k) - lead(words).max(0));
    assert!(others.iter().all(|&i| list.regions[i] == WAITING));
    let mut places: Vec<u16> = others
        .iter()
        .map(|&i| gate::steps::place(words, list.ticket(i)))
        .collect();
    places.sort_unstable();
    assert!(places.iter().copied().eq(1..=places.len() as u16));
}

/// Every call on a sound state is accepted or refused with another number than 3, and
/// leaves a sound state.
fn stays_sound(state: &State) {
    for call in calls(state.0.n) {
        let mut list = state.1.clone();
        let reply = gate::perform(call, &state.0, &mut list.lend());
        assert_ne!(reply.number(), 3);
        assert!(judged(&(reply.words, list)), "{call} on {state:?}");
    }
}

/// On every state of small gates: all judgements are one; a sound state stays
/// sound on every call and is as said above; and all states reached from an
/// opening are sound. In a sound state the slots of the plugins inside and then the
/// row are the k slots in some order, and every order is sound.
#[test]
fn all_small_states() {
    for (year, n, k) in [
        (1989, 1, 1),
        (1989, 1, 2),
        (1989, 2, 1),
        (1989, 2, 2),
        (1989, 3, 1),
        (1989, 1, 3),
        (1979, 2, 1),
        (1979, 3, 1),
    ] {
        let mut all_sound = HashSet::new();
        let orders: u32 = (1..=u32::from(k)).product();
        all_states(year, n, k, |state| {
            if judged(state) {
                valid_ones_and_places(state);
                all_sound.insert(state.clone());
                let mut sound_slots = 0;
                all_slots(state, |state| {
                    if judged(state) {
                        stays_sound(state);
                        sound_slots += 1;
                    }
                });
                assert_eq!(sound_slots, orders, "{state:?}");
            }
        });
        let reached = reached(year, n, k);
        println!(
            "{year}, N {n}, k {k}: {} sound, {} reached",
            all_sound.len(),
            reached.len()
        );
        for state in reached {
            assert!(judged(&state), "{state:?}");
            assert!(all_sound.contains(&slots_in_order(state)));
        }
    }
}

/// The judgements on reached states of all sizes and on damaged ones.
#[test]
fn plain_and_in_one_pass() {
    let mut random = Random::new(7);
    let (mut sound_states, mut unsound_states, mut unsound_slots) = (0, 0, 0);
    for round in 0..600 {
        let n = if round % 60 == 0 {
            1024
        } else {
            random.between(1, 30)
        };
        let k = random.between(1, if round % 2 == 0 { 3 } else { 64 });
        let mut list = PluginList::idle(n);
        let year = u64::from(open_year(&mut random, n, k));
        let mut words = gate::open(year, n as u64, k as u64, &mut list.lend()).words;
        for _ in 0..random.between(0, 200) {
            let p = random.between(1, n) as u64;
            let call = random.pick(&[gate::take, gate::take, gate::look, gate::look, gate::leave]);
            words = call(&words, &mut list.lend(), p).words;
        }
        assert!(judged(&(words, list.clone())));
        for _ in 0..20 {
            let mut state = (words, list.clone());
            for _ in 0..random.between(1, 2) {
                change(&mut random, &mut state);
            }
            if judged(&state) {
                sound_states += 1;
            } else if judged(&slots_in_order(state)) {
                unsound_slots += 1;
            } else {
                unsound_states += 1;
            }
        }
    }
    assert!(sound_states > 50 && unsound_slots > 1000 && unsound_states > 1000);
}
