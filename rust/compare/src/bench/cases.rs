//! The words and lists that the calls are timed on: full gates, as calls of this
//! crate's gate reach them.

use crate::gate::steps::{opening, Block};
use crate::gate::{self, PluginList, Slot, Ticket, Words, COLOURS, IDLE, INSIDE, WAITING};
use crate::random::states::State;
use crate::random::Random;

#[derive(Clone, Copy, Debug, PartialEq, Eq)]
pub enum Kind {
    /// A call that names a plugin, by its letter.
    Letter(u8),
    Alike,
    Open,
}

/// Tickets made up to be hard to tell apart: what those have in common that are
/// none of the places after VALID.
#[derive(Clone, Copy, Debug, PartialEq, Eq)]
pub enum Crafted {
    /// The residue by which the proved check tells most tickets apart, 65 times
    /// the value and the colour by 256; or as few residues as there can be.
    Residue,
    Value,
    Colour,
}

impl Crafted {
    pub const ALL: [Crafted; 3] = [Crafted::Residue, Crafted::Value, Crafted::Colour];

    pub fn name(self) -> &'static str {
        match self {
            Crafted::Residue => "one residue",
            Crafted::Value => "one value",
            Crafted::Colour => "one colour",
        }
    }

    /// 64 such tickets, VALID's own first, with values below m.
    fn tickets(self, m: u16) -> Vec<Ticket> {
        match self {
            Crafted::Residue => {
                let others = (0..m).flat_map(|v| (1..64).map(move |c| Ticket::new(v, c)));
                let mut others: Vec<Ticket> = others.collect();
                others.sort_by_key(|t| (65 * u32::from(t.value.0) + u32::from(t.colour.0)) % 256);
                let own = Ticket::new(0, 0);
                std::iter::once(own).chain(others).take(64).collect()
            }
            Crafted::Value => (0..64).map(|c| Ticket::new(0, c)).collect(),
            Crafted::Colour => (0..64).map(|v| Ticket::new(63 - v, 0)).collect(),
        }
    }
}

impl Kind {
    /// All of them, as they stand in the tables.
    pub const ALL: [Kind; 8] = [
        Kind::Letter(b'T'),
        Kind::LOOK,
        Kind::Letter(b'B'),
        Kind::Letter(b'P'),
        Kind::Letter(b'S'),
        Kind::Letter(b'W'),
        Kind::Alike,
        Kind::Open,
    ];

    pub const LOOK: Kind = Kind::Letter(b'L');

    pub fn name(self) -> &'static str {
        match self {
            Kind::Letter(b'T') => "take",
            Kind::Letter(b'L') => "look",
            Kind::Letter(b'B') => "leave",
            Kind::Letter(b'P') => "place",
            Kind::Letter(b'S') => "stop",
            Kind::Letter(_) => "wake",
            Kind::Alike => "alike",
            Kind::Open => "open",
        }
    }
}

/// One call on words and a list of its own.
#[derive(Clone, Debug)]
pub struct Case {
    pub kind: Kind,
    pub year: u16,
    pub n: u16,
    pub k: u8,
    pub crafted: Option<Crafted>,
    pub damaged: bool,
    pub p: u64,
    pub state: State,
    /// The second gate of an alike.
    pub other: State,
}

/// The calls on gates of one year and size: first each accepted, on a sound list, then
/// each refused with 3, on a list that is damaged. An open reads no list, so it has no
/// damaged one; an alike has a damaged second list, so that it reads both.
pub fn cases(year: u16, n: u16, k: u8) -> Vec<Case> {
    let full = full(year, n, k);
    let inside = full.1.regions.iter().position(|&region| region == INSIDE);
    let p = inside.expect("a full gate has a plugin inside") as u64 + 1;
    let after = |state: &State, letter: u8| {
        let (words, mut list) = state.clone();
        let reply = gate::by_letter(letter)(&words, &mut list.lend(), p);
        assert_eq!(reply.number(), 0);
        (reply.words, list)
    };
    let idle = after(&full, b'B');
    let waiting = after(&idle, b'T');
    let stopped = after(&waiting, b'S');
    let damaged = damaged(&full);
    let case = |kind: Kind, is_damaged: bool| Case {
        kind,
        year,
        n,
        k,
        crafted: None,
        damaged: is_damaged,
        p,
        state: match kind {
            Kind::Letter(_) if is_damaged => &damaged,
            Kind::Letter(b'T') => &idle,
            Kind::Letter(b'L' | b'P' | b'S') => &waiting,
            Kind::Letter(b'W') => &stopped,
            _ => &full,
        }
        .clone(),
        other: if is_damaged { &damaged } else { &full }.clone(),
    };
    let sound = Kind::ALL.into_iter().map(|kind| case(kind, false));
    let refused = Kind::ALL
        .into_iter()
        .filter(|&kind| kind != Kind::Open)
        .map(|kind| case(kind, true));
    sound.chain(refused).collect()
}

/// A gate of a year on which every plugin holds a ticket and as many as can be are
/// inside, after as many calls as let the tickets go through the blocks.
pub fn full(year: u16, n: u16, k: u8) -> State {
    let length = usize::from(n);
    let mut list = PluginList::idle(length);
    let mut words = gate::open(year.into(), n.into(), k.into(), &mut list.lend()).words;
    let mut random = Random::new(1989);
    let mut step = |list: &mut PluginList, i: usize| {
        let letter = match list.regions[i] {
            IDLE => b'T',
            WAITING => b'L',
            _ => b'B',
        };
        words = gate::by_letter(letter)(&words, &mut list.lend(), i as u64 + 1).words;
    };
    for _ in 0..8 * length {
        step(&mut list, random.below(length));
    }
    for region in [IDLE, WAITING] {
        for i in 0..length {
            if list.regions[i] == region {
                step(&mut list, i);
            }
        }
    }
    (words, list)
}

/// A look at crafted tickets of a gate of 1989, on a sound list and on a damaged one.
/// All plugins wait, and the first has the last place, so that the look is answered no
/// if there are more plugins than slots.
pub fn crafted(n: u16, tickets: Crafted) -> [Case; 2] {
    let (year, k) = (1989, 64);
    let opened = opening(year, n, k);
    let m = Block::of(&opened).size as u16;
    let others = tickets.tickets(m);
    let valid = others[0];
    let mut words = Words {
        issue: valid,
        valid,
        counts: [0; COLOURS],
        ..opened
    };
    let mut list = PluginList::idle(n.into());
    let places = n - u16::from(k);
    for (i, &ticket) in others.iter().enumerate() {
        words.counts[usize::from(ticket.colour.0)] += 1;
        let at = usize::from(n) - 1 - i;
        list.lend().set(at, WAITING, ticket, Slot::default());
    }
    // The places after VALID; past the end of its block they have colour 64.
    for i in 0..places {
        let value = words.issue.value.0 + 1;
        words.issue = if value < m {
            Ticket::new(value, words.issue.colour.0)
        } else {
            Ticket::new(0, k)
        };
        let at = usize::from(places - 1 - i);
        list.lend().set(at, WAITING, words.issue, Slot::default());
    }
    let sound = (words, list);
    let damaged = damaged(&sound);
    [(false, sound), (true, damaged)].map(|(is_damaged, state)| Case {
        kind: Kind::LOOK,
        year,
        n,
        k,
        crafted: Some(tickets),
        damaged: is_damaged,
        p: 1,
        other: state.clone(),
        state,
    })
}

/// A full gate whose last record has been given the first one's ticket. Up to the
/// last record nothing is wrong, so whoever refuses it has read that record.
fn damaged(full: &State) -> State {
    let (words, mut list) = full.clone();
    let last = list.regions.len() - 1;
    list.values[last] = list.values[0];
    list.colours[last] = list.colours[0];
    (words, list)
}

/// The record of the plugin that calls, to be put back after each call.
#[derive(Clone, Copy, Debug)]
pub struct Record {
    at: usize,
    region: u8,
    mark: u8,
    ticket: Ticket,
    slot: Slot,
}

impl Record {
    pub fn of(list: &PluginList, p: u64) -> Record {
        let at = p as usize - 1;
        Record {
            at,
            region: list.regions[at],
            mark: list.marks[at],
            ticket: list.ticket(at),
            slot: Slot(list.slots[at]),
        }
    }

    pub fn put_back(&self, list: &mut PluginList) {
        list.marks[self.at] = self.mark;
        list.lend()
            .set(self.at, self.region, self.ticket, self.slot);
    }
}
