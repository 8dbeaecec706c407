//! Generators of schedules. They keep a queue of their own to know which calls
//! are legal, and mostly write those.

use super::{damage, Random};
use crate::check::feed;
use crate::queue::{Queue, Region};
use crate::schedule::{next_call, Call, Next};
use crate::transcript::LONGEST;

/// One input for `gaterun`: mostly a valid text, sometimes a damaged one or one
/// whose length is at the bound.
pub fn input(random: &mut Random) -> Vec<u8> {
    let (n, k) = size(random);
    let calls = length(random, n);
    let text = schedule(random, n, k, calls);
    match random.weighted(&[880, 110, 5, 5]) {
        0 => text,
        1 => damage::damaged(random, text),
        2 => damage::of_length(text, LONGEST),
        _ => damage::of_length(text, LONGEST + 1),
    }
}

/// N from 1 to 1,024 and k from 1 to 64, mostly small, k often above N.
fn size(random: &mut Random) -> (usize, usize) {
    match random.weighted(&[44, 30, 17, 5, 2, 2]) {
        0 => (random.between(1, 4), random.between(1, 5)),
        1 => (random.between(3, 20), random.between(1, 24)),
        2 => (random.between(10, 200), random.between(1, 64)),
        3 => (random.between(201, 1024), random.between(1, 64)),
        4 => (1024, random.pick(&[1, 2, 63, 64])),
        _ => (random.pick(&[1, 2, 63, 64, 65, 128]), 64),
    }
}

/// The number of calls: a few to several thousand, as many as the text holds.
fn length(random: &mut Random, n: usize) -> usize {
    let short = if n > 200 { 10 } else { 30 };
    match random.weighted(&[short, 45, 20, 5]) {
        0 => random.between(1, 30),
        1 => random.between(30, 400),
        2 => random.between(400, 4000),
        _ => LONGEST,
    }
}

/// An N and a k that open, and calls after that open, each a letter and a plugin
/// number.
pub fn calls(random: &mut Random) -> (u16, u16, Vec<(u8, u64)>) {
    let (n, k) = size(random);
    let length = match random.weighted(&[30, 50, 20]) {
        0 => random.below(30),
        1 => random.between(30, 400),
        _ => random.between(400, 2000),
    };
    let text = schedule(random, n, k, length);
    let mut calls = Vec::new();
    let mut part = &text[..];
    let mut opened = false;
    while let (Next::Call(call), rest) = next_call(part) {
        // What comes before the open is no call of it, nor what follows another.
        match (call.of_plugin(), opened) {
            (None, false) => opened = true,
            (None, true) => break,
            (Some(_), false) => {}
            (Some((letter, p)), true) => calls.push((letter, p.into())),
        }
        part = rest;
    }
    (n as u16, k as u16, calls)
}

/// How a schedule is written.
#[derive(Clone, Copy)]
enum Style {
    /// Any letter and any plugin number about 1 to N.
    Uniform,
    /// Mostly legal calls of all kinds.
    Legal,
    /// Mostly legal, first many takes, then many leaves, and so on.
    Crowd,
    /// Few holders are stopped for long while the others take, look and leave,
    /// so that the colours come round.
    Turning,
}

/// A valid text with about so many calls, at most 64 KiB of it.
pub fn schedule(random: &mut Random, n: usize, k: usize, calls: usize) -> Vec<u8> {
    let style = match random.weighted(&[10, 35, 20, 35]) {
        0 => Style::Uniform,
        1 => Style::Legal,
        2 => Style::Crowd,
        _ => Style::Turning,
    };
    let mut writer = Writer {
        random,
        queue: Queue::open(n, k),
        text: Vec::new(),
        calls: 0,
    };
    if writer.random.chance(50) {
        writer.any_call();
    }
    writer.write(Call::Open(n as u16, k as u16));
    while writer.calls < calls && writer.text.len() + 10 <= LONGEST {
        writer.step(style);
    }
    writer.text
}

struct Writer<'a> {
    random: &'a mut Random,
    queue: Queue,
    text: Vec<u8>,
    calls: usize,
}

/// Kinds of calls, in the order of the weights in `Writer::step`; the weight after
/// them all is that of any call.
const TAKE: usize = 0;
const LOOK: usize = 1;
const LOOK_ANYONE: usize = 2;
const LEAVE: usize = 3;
const HAND_BACK: usize = 4;
const HAND_BACK_ANYONE: usize = 5;
const PLACE: usize = 6;
const STOP: usize = 7;
const WAKE: usize = 8;
const NEW_OPEN: usize = 9;

impl Writer<'_> {
    fn write(&mut self, call: Call) {
        let accepted_open = match call {
            Call::Open(n, k) => (1..=1024).contains(&n) && (1..=64).contains(&k),
            _ => true,
        };
        if accepted_open {
            feed(&mut self.queue, call);
        }
        self.text.extend_from_slice(format!("{call}\n").as_bytes());
        self.calls += 1;
    }

    fn step(&mut self, style: Style) {
        let weights = match style {
            Style::Uniform => [0, 0, 0, 0, 0, 0, 0, 0, 0, 3, 997],
            Style::Legal => [270, 180, 70, 150, 60, 50, 80, 40, 60, 1, 39],
            Style::Crowd => {
                let period = 4 * self.queue.n + 8;
                let emptying = self.calls / period % 2 == 1;
                if emptying {
                    [60, 280, 50, 310, 100, 30, 90, 20, 40, 1, 19]
                } else {
                    [500, 130, 80, 40, 20, 30, 110, 30, 40, 1, 19]
                }
            }
            Style::Turning => {
                if self.random.chance(10) {
                    return self.halt_or_release();
                }
                [340, 250, 40, 190, 80, 40, 50, 0, 0, 1, 9]
            }
        };
        let kind = self.random.weighted(&weights);
        let legal = match kind {
            TAKE => self.idle().map(Call::Take),
            LOOK => self.among_first(Region::Waiting).map(Call::Look),
            LOOK_ANYONE => self.waiting().map(Call::Look),
            LEAVE => self.among_first(Region::Inside).map(Call::Leave),
            HAND_BACK => self.among_first(Region::Waiting).map(Call::Leave),
            HAND_BACK_ANYONE => self.waiting().map(Call::Leave),
            PLACE => self.waiting().map(Call::Place),
            STOP => self.plugin(|queue, p| !queue.stopped(p)).map(Call::Stop),
            WAKE => self.plugin(|queue, p| queue.stopped(p)).map(Call::Wake),
            NEW_OPEN => return self.new_open(),
            _ => return self.any_call(),
        };
        match legal {
            Some(call) => self.write(call),
            // No plugin can do it: mostly try another kind.
            None if self.random.chance(50) => self.any_call(),
            None => self.progress(),
        }
    }

    /// A legal call that brings the row on, if there is one.
    fn progress(&mut self) {
        let call = self
            .among_first(Region::Waiting)
            .map(Call::Look)
            .or_else(|| self.among_first(Region::Inside).map(Call::Leave))
            .or_else(|| self.idle().map(Call::Take))
            .or_else(|| self.plugin(|queue, p| queue.stopped(p)).map(Call::Wake));
        match call {
            Some(call) => self.write(call),
            None => self.any_call(),
        }
    }

    /// Stops a holder among the first k while one of these places stays free of
    /// stopped ones (or sometimes all the same); else wakes one.
    fn halt_or_release(&mut self) {
        let queue = &self.queue;
        let stopped = queue
            .row
            .iter()
            .take(queue.k)
            .filter(|&&p| queue.stopped(p))
            .count();
        let room = queue.k.min(queue.n).saturating_sub(1);
        if stopped < room || self.random.chance(20) {
            let holder = self
                .among_first(Region::Inside)
                .or_else(|| self.among_first(Region::Waiting));
            if let Some(p) = holder {
                return self.write(Call::Stop(p));
            }
        }
        if let Some(p) = self.plugin(|queue, p| queue.stopped(p)) {
            self.write(Call::Wake(p));
        }
    }

    /// Any letter, and a plugin number from 0 to N + 1 or sometimes any.
    fn any_call(&mut self) {
        let p = if self.random.chance(30) {
            self.random.below(10_000)
        } else {
            self.random.between(0, self.queue.n + 1)
        } as u16;
        let call = match self.random.below(6) {
            0 => Call::Take(p),
            1 => Call::Look(p),
            2 => Call::Leave(p),
            3 => Call::Place(p),
            4 => Call::Stop(p),
            _ => Call::Wake(p),
        };
        self.write(call);
    }

    /// Another open, legal or not, mostly not of the gate at hand.
    fn new_open(&mut self) {
        let (n, k) = (self.queue.n as u16, self.queue.k as u16);
        let call = match self.random.below(8) {
            0 => Call::Open(0, k),
            1 => Call::Open(1025, k),
            2 => Call::Open(n, 0),
            3 => Call::Open(n, 65),
            4 => Call::Open(9999, 9999),
            5 => Call::Open(n, k),
            _ => {
                let (n, k) = size(self.random);
                Call::Open(n as u16, k as u16)
            }
        };
        self.write(call);
    }

    fn idle(&mut self) -> Option<u16> {
        self.plugin(|queue, p| queue.region(p) == Region::Idle && !queue.stopped(p))
    }

    fn waiting(&mut self) -> Option<u16> {
        self.plugin(|queue, p| queue.region(p) == Region::Waiting && !queue.stopped(p))
    }

    /// An unstopped plugin of a region among the first k of the row.
    fn among_first(&mut self, region: Region) -> Option<u16> {
        let queue = &self.queue;
        let found: Vec<usize> = queue
            .row
            .iter()
            .copied()
            .take(queue.k)
            .filter(|&p| queue.region(p) == region && !queue.stopped(p))
            .collect();
        (!found.is_empty()).then(|| self.random.pick(&found) as u16)
    }

    /// The first plugin that fits, from a random one on.
    fn plugin(&mut self, fits: impl Fn(&Queue, usize) -> bool) -> Option<u16> {
        let n = self.queue.n;
        let from = self.random.below(n);
        (0..n)
            .map(|i| (from + i) % n + 1)
            .find(|&p| fits(&self.queue, p))
            .map(|p| p as u16)
    }
}
