//! A till whose plugins run in threads of their own and share payment sessions
//! through one gate behind a lock. A plugin that enters learns its slot, and works
//! with the session of that number. One plugin halts while it is inside; its slot
//! stays taken until it is woken.

use std::sync::atomic::{AtomicBool, AtomicUsize, Ordering};
use std::sync::mpsc::{channel, Receiver};
use std::sync::{Barrier, Mutex, MutexGuard};
use std::time::Duration;

use slot_gate::{Gate, Refusal, Region, Slot, Verdict};

const PLUGINS: u64 = 6;
const SLOTS: u64 = 2;
const ROUNDS: usize = 25;

/// The plugin that halts, and the round in which it does.
const HALTING: u64 = 3;
const HALTS_IN: usize = 5;

/// A look answered no is repeated after this, and work inside takes this long.
const WHILE: Duration = Duration::from_micros(100);

/// The gate, and beside it what the host saw of it, under one lock.
struct Till {
    gate: Gate,
    /// The plugins that hold a ticket, in the order in which they took it.
    row: Vec<u64>,
    looks: usize,
    entries: usize,
    /// Entries of others while the halting plugin was stopped.
    entries_beside_halted: usize,
}

struct Host {
    till: Mutex<Till>,
    /// The sessions, slot 1's first: how often each was worked with. The gate gives
    /// a slot to one plugin at a time, so nobody waits for one of these locks.
    sessions: Vec<Mutex<usize>>,
    /// All plugins begin together.
    begin: Barrier,
    inside: AtomicUsize,
    most_inside: AtomicUsize,
    /// A plugin met a refusal and ended, perhaps inside: nobody waits for it.
    failed: AtomicBool,
}

impl Host {
    fn lock(&self) -> MutexGuard<'_, Till> {
        self.till.lock().expect("no plugin panics under the lock")
    }

    /// One plugin's thread.
    fn run(&self, p: u64, woken: Option<Receiver<()>>) -> Result<(), Refusal> {
        let ended = self.rounds(p, woken);
        self.failed.fetch_or(ended.is_err(), Ordering::SeqCst);
        ended
    }

    /// One plugin's rounds: take, look until yes, work inside, leave.
    fn rounds(&self, p: u64, woken: Option<Receiver<()>>) -> Result<(), Refusal> {
        self.begin.wait();
        for round in 1..=ROUNDS {
            self.lock().take(p)?;
            let Some(slot) = self.enter(p)? else {
                return Ok(());
            };
            let session = &self.sessions[usize::from(slot.0) - 1];
            let mut session = session.try_lock().expect("nobody else has this slot");
            let now = self.inside.fetch_add(1, Ordering::SeqCst) + 1;
            self.most_inside.fetch_max(now, Ordering::SeqCst);
            std::thread::sleep(WHILE);
            *session += 1;
            if let (HALTS_IN, Some(woken)) = (round, &woken) {
                self.lock().gate.stop(p)?;
                assert_eq!(self.lock().gate.leave(p), Err(Refusal::Stopped));
                woken.recv().expect("the host wakes the plugin");
            }
            drop(session);
            self.inside.fetch_sub(1, Ordering::SeqCst);
            self.lock().leave(p)?;
        }
        Ok(())
    }

    /// Looks until the answer is yes; none if another plugin failed meanwhile.
    fn enter(&self, p: u64) -> Result<Option<Slot>, Refusal> {
        loop {
            // The lock is not held while the plugin sleeps.
            let verdict = self.lock().look(p)?;
            if let Verdict::Yes(slot, _) = verdict {
                return Ok(Some(slot));
            }
            if self.failed.load(Ordering::SeqCst) {
                return Ok(None);
            }
            std::thread::sleep(WHILE);
        }
    }
}

impl Till {
    fn take(&mut self, p: u64) -> Result<(), Refusal> {
        self.gate.take(p)?;
        self.row.push(p);
        Ok(())
    }

    /// The order of tickets: a look is answered yes just when fewer than k of the
    /// plugins that took a ticket earlier still have theirs.
    fn look(&mut self, p: u64) -> Result<Verdict, Refusal> {
        let verdict = self.gate.look(p)?;
        let earlier = self.row.iter().take_while(|&&other| other != p).count();
        let among_first = earlier < usize::from(self.gate.slots());
        assert_eq!(
            verdict.slot().is_some(),
            among_first,
            "plugin {p}: {}",
            verdict.rule()
        );
        self.looks += 1;
        if among_first {
            self.entries += 1;
            let halted = self.gate.is_stopped(HALTING) == Some(true);
            self.entries_beside_halted += usize::from(halted);
        }
        Ok(verdict)
    }

    fn leave(&mut self, p: u64) -> Result<(), Refusal> {
        self.gate.leave(p)?;
        self.row.retain(|&other| other != p);
        Ok(())
    }
}

fn main() -> Result<(), Refusal> {
    let host = Host {
        till: Mutex::new(Till {
            gate: Gate::open(PLUGINS, SLOTS)?,
            row: Vec::new(),
            looks: 0,
            entries: 0,
            entries_beside_halted: 0,
        }),
        sessions: (0..SLOTS).map(|_| Mutex::new(0)).collect(),
        begin: Barrier::new(PLUGINS as usize),
        inside: AtomicUsize::new(0),
        most_inside: AtomicUsize::new(0),
        failed: AtomicBool::new(false),
    };
    std::thread::scope(|scope| {
        let (wake, woken) = channel();
        let host = &host;
        let halting = scope.spawn(move || host.run(HALTING, Some(woken)));
        let others: Vec<_> = (1..=PLUGINS)
            .filter(|&p| p != HALTING)
            .map(|p| scope.spawn(move || host.run(p, None)))
            .collect();
        // The others need only the slots that are left, so they end.
        for other in others {
            other.join().expect("a plugin ends without a panic")?;
        }
        // By now the plugin is stopped, or soon will be.
        while !halting.is_finished() && host.lock().gate.is_stopped(HALTING) == Some(false) {
            std::thread::sleep(WHILE);
        }
        assert_eq!(host.lock().gate.region(HALTING), Some(Region::Inside));
        host.lock().gate.wake(HALTING)?;
        wake.send(()).expect("the plugin waits to be woken");
        halting.join().expect("a plugin ends without a panic")
    })?;

    let till = host.till.into_inner().expect("all plugins have ended");
    let most_inside = host.most_inside.into_inner();
    println!("{PLUGINS} plugins, {SLOTS} slots, {ROUNDS} rounds each");
    println!("entries: {}, looks: {}", till.entries, till.looks);
    println!("most inside at once: {most_inside}");
    let mut worked = 0;
    for (session, number) in host.sessions.into_iter().zip(1..) {
        let times = session.into_inner().expect("all plugins have ended");
        println!("session {number} was worked with {times} times, by one plugin at a time");
        worked += times;
    }
    println!(
        "plugin {HALTING} halted inside and kept its slot; beside it the others made {} entries",
        till.entries_beside_halted
    );
    println!("every look was answered in the order of the tickets taken");
    assert_eq!(till.entries, PLUGINS as usize * ROUNDS);
    assert_eq!(worked, till.entries);
    assert!(most_inside <= SLOTS as usize);
    assert!(till.row.is_empty());
    Ok(())
}
