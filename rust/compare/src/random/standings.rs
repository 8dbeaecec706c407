//! Where the plugins of a gate stand, which is all that alike compares; and gates
//! whose plugins stand so, made at random, of either year: by calls from an opening, or
//! of any sound words, tickets and slots, whether calls reach them or not. Beside them,
//! gates in which nothing is wrong but the year.

use super::states::{open_year, State};
use super::Random;
use crate::gate::steps::{opening, Block};
use crate::gate::{self, PluginList, Slot, Ticket, Words, IDLE, INSIDE, WAITING};

/// N, k and where each plugin stands. Plugins are named by the index of their
/// records.
#[derive(Clone, Debug, PartialEq, Eq)]
pub struct Standing {
    pub n: usize,
    pub k: usize,
    /// Those whose tickets are valid, in any order.
    pub valid: Vec<usize>,
    /// Those whose tickets are not yet valid, in the order of their tickets. There
    /// are some only where k are valid.
    pub line: Vec<usize>,
    /// Those of the valid that are inside, and those that are stopped.
    pub inside: Vec<usize>,
    pub stopped: Vec<usize>,
}

/// The one thing that is different in another standing.
#[derive(Clone, Copy, Debug, PartialEq, Eq)]
pub enum Difference {
    Order,
    Validity,
    Mark,
    Region,
    Plugins,
    Slots,
}

impl Difference {
    pub const ALL: [Difference; 6] = [
        Difference::Order,
        Difference::Validity,
        Difference::Mark,
        Difference::Region,
        Difference::Plugins,
        Difference::Slots,
    ];

    pub fn name(self) -> &'static str {
        match self {
            Difference::Order => "order",
            Difference::Validity => "validity",
            Difference::Mark => "stop mark",
            Difference::Region => "region",
            Difference::Plugins => "N",
            Difference::Slots => "k",
        }
    }
}

impl Standing {
    pub fn any(random: &mut Random) -> Standing {
        let (n, k) = match random.weighted(&[60, 30, 9, 1]) {
            0 => (random.between(1, 6), random.between(1, 4)),
            1 => (random.between(3, 14), random.between(1, 12)),
            2 => (random.between(10, 100), random.between(1, 64)),
            _ => (random.between(101, 1024), random.between(1, 64)),
        };
        let holders = match random.below(3) {
            0 => n,
            _ => random.below(n + 1),
        };
        let mut valid = shuffled(random, 0..n);
        valid.truncate(holders);
        let line = valid.split_off(holders.min(k));
        let everyone: Vec<usize> = (0..n).collect();
        let mut some = |of: &[usize]| -> Vec<usize> {
            let one_in = random.between(1, 4);
            let chosen = of.iter().filter(|_| random.below(one_in) == 0);
            chosen.copied().collect()
        };
        Standing {
            inside: some(&valid),
            stopped: some(&everyone),
            n,
            k,
            valid,
            line,
        }
    }

    /// The same but for one thing; none where that alone cannot be different.
    pub fn but_for(&self, difference: Difference, random: &mut Random) -> Option<Standing> {
        let mut other = self.clone();
        match difference {
            Difference::Order if self.line.len() < 2 => return None,
            Difference::Order => {
                let second = random.between(1, self.line.len() - 1);
                other.line.swap(random.below(second), second);
            }
            Difference::Validity => {
                let waiting = self.valid.iter().filter(|i| !self.inside.contains(i));
                let waiting: Vec<usize> = waiting.copied().collect();
                if waiting.is_empty() || self.line.is_empty() {
                    return None;
                }
                let (one, at) = (random.pick(&waiting), random.below(self.line.len()));
                other.valid.retain(|&i| i != one);
                other.valid.push(self.line[at]);
                other.line[at] = one;
            }
            Difference::Mark => toggle(&mut other.stopped, random.below(self.n)),
            Difference::Region if self.valid.is_empty() => return None,
            Difference::Region => toggle(&mut other.inside, random.pick(&self.valid)),
            Difference::Plugins => other.n += 1,
            Difference::Slots if !self.line.is_empty() => return None,
            Difference::Slots => other.k += 1,
        }
        (other.n <= 1024 && other.k <= 64).then_some(other)
    }

    /// A gate of a year that calls reach: some of those whose tickets are valid take first and
    /// keep old tickets, and some of them slots; turns are taken and handed back, then
    /// all others take, and those that are to be inside look in any order.
    pub fn by_calls(&self, year: u16, random: &mut Random) -> State {
        let mut list = PluginList::idle(self.n);
        let mut words = opening(year, self.n as u16, self.k as u8);
        let m = Block::of(&words).size as usize;
        let mut call = |letter, i: usize| {
            let reply = gate::by_letter(letter)(&words, &mut list.lend(), i as u64 + 1);
            assert_eq!(reply.number(), 0, "{} {}", char::from(letter), i + 1);
            words = reply.words;
        };
        let mut early = shuffled(random, self.valid.iter().copied());
        let later = early.split_off(random.below(early.len() + 1).min(self.k - 1));
        for &i in &early {
            call(b'T', i);
        }
        let entering = shuffled(random, self.inside.iter().copied()).into_iter();
        let (first, last): (Vec<usize>, Vec<usize>) =
            entering.partition(|i| early.contains(i) && random.chance(500));
        for i in first {
            call(b'L', i);
        }
        // Few, or so many that the colours come round.
        let turns = random.below(4 * m * (self.k + 1)).min(300);
        if let Some(i) = (0..self.n).find(|i| !early.contains(i)) {
            for _ in 0..turns {
                call(b'T', i);
                if random.chance(300) {
                    call(b'L', i);
                }
                call(b'B', i);
            }
        }
        for &i in later.iter().chain(&self.line) {
            call(b'T', i);
        }
        for i in last {
            call(b'L', i);
        }
        for &i in &self.stopped {
            call(b'S', i);
        }
        (words, list)
    }

    /// Any sound words of a year, tickets and slots: VALID lies anywhere, ISSUE as far after it as
    /// the line is long or as far before it as valid tickets are yet to be taken; the
    /// tickets that are valid have any colour; those inside have any slots, and the
    /// other slots are free in any order.
    pub fn made_up(&self, year: u16, random: &mut Random) -> State {
        let (n, k) = (self.n as u16, self.k as u8);
        let block = Block::of(&opening(year, n, k));
        let (first, m) = (block.first, block.size as usize);
        let (behind, ahead) = (self.line.len(), self.k - self.valid.len());
        let (at, colour) = (random.below(m), random.below(self.k + 1));
        let other_colour = (colour + random.between(1, self.k)) % (self.k + 1);
        // The places after VALID's own, and those before it: in the next block or the
        // one before they have the other colour.
        let place = |after: usize, before: usize| {
            let value = m + at + after - before;
            let own = (m..2 * m).contains(&value);
            let colour = if own { colour } else { other_colour };
            Ticket::new(first + (value % m) as u16, colour as u8)
        };
        let (valid, issue) = (place(0, 0), place(behind, ahead));
        let pending: Vec<Ticket> = (1..=behind).map(|j| place(j, 0)).collect();
        let mut counts = Words::ZERO.counts;
        for spare in (0..ahead).map(|j| place(0, j)) {
            counts[usize::from(spare.colour.0)] += 1;
        }
        let mut others = Vec::new();
        if ahead == 0 {
            others.push(valid);
        }
        while others.len() < self.valid.len() {
            let value = first + random.below(m) as u16;
            let ticket = Ticket::new(value, random.below(self.k + 1) as u8);
            let above = ticket.colour == issue.colour && ticket.value > issue.value;
            let unheld = ahead > 0 && issue.colour != valid.colour && ticket.colour == valid.colour;
            if !(above || unheld || pending.contains(&ticket) || others.contains(&ticket)) {
                others.push(ticket);
            }
        }
        let mut list = PluginList::idle(self.n);
        let others = shuffled(random, others.into_iter());
        for (&i, &ticket) in self.valid.iter().zip(&others) {
            counts[usize::from(ticket.colour.0)] += 1;
            list.lend().set(i, WAITING, ticket, Slot::default());
        }
        for (&i, &ticket) in self.line.iter().zip(&pending) {
            list.lend().set(i, WAITING, ticket, Slot::default());
        }
        let slots = shuffled(random, 1..=k);
        let (taken, row) = slots.split_at(self.inside.len());
        for (&i, &slot) in self.inside.iter().zip(taken) {
            list.regions[i] = INSIDE;
            list.slots[i] = slot;
        }
        let mut free = Words::ZERO.free;
        free[..row.len()].copy_from_slice(row);
        for &i in &self.stopped {
            list.marks[i] = 1;
        }
        let words = Words {
            year,
            n,
            k,
            issue,
            valid,
            counts,
            free,
        };
        (words, list)
    }

    /// A gate by either way, of a year that opens with its N and k.
    pub fn gate(&self, random: &mut Random) -> State {
        let year = open_year(random, self.n, self.k);
        if random.chance(500) {
            self.by_calls(year, random)
        } else {
            self.made_up(year, random)
        }
    }

    /// How the plugins of a sound gate stand.
    pub fn of((words, list): &State) -> Standing {
        let all = |fits: &dyn Fn(usize) -> bool| -> Vec<usize> {
            (0..list.regions.len()).filter(|&i| fits(i)).collect()
        };
        let place = |i: usize| gate::steps::place(words, list.ticket(i));
        let held = |i: usize| list.regions[i] != IDLE;
        let mut line = all(&|i| held(i) && place(i) > 0);
        line.sort_by_key(|&i| place(i));
        Standing {
            n: words.n.into(),
            k: words.k.into(),
            valid: all(&|i| held(i) && place(i) == 0),
            line,
            inside: all(&|i| list.regions[i] == INSIDE),
            stopped: all(&|i| list.marks[i] == 1),
        }
    }

    /// The same with its unordered parts in the order of the plugins.
    pub fn sorted(mut self) -> Standing {
        for part in [&mut self.valid, &mut self.inside, &mut self.stopped] {
            part.sort_unstable();
        }
        self
    }
}

/// Words and a list in which nothing is wrong but the year: it is neither of the two, or
/// it is 1979 and k is not below N.
pub fn wrong_year(random: &mut Random) -> State {
    loop {
        let standing = Standing::any(random);
        let (n, k) = (standing.n, standing.k);
        if random.chance(500) {
            let (mut words, list) = standing.gate(random);
            words.year = random.pick(&[0, 1978, 1980, 1988, 1990, 65_535]);
            return (words, list);
        }
        // A block of N tickets has no room for a lead of N or more.
        if k >= n && k - standing.valid.len() < n {
            return standing.made_up(1979, random);
        }
    }
}

fn shuffled<T>(random: &mut Random, from: impl Iterator<Item = T>) -> Vec<T> {
    let mut all: Vec<T> = from.collect();
    for i in (1..all.len()).rev() {
        all.swap(i, random.below(i + 1));
    }
    all
}

fn toggle(some: &mut Vec<usize>, i: usize) {
    match some.iter().position(|&one| one == i) {
        Some(at) => drop(some.remove(at)),
        None => some.push(i),
    }
}
