//! One gate shared by many threads through a lock: every answer, in the order of the
//! lock, is that of a plain queue, and so is how the gate stands on the way and at the
//! end.

mod queue;

use std::sync::Mutex;
use std::time::{Duration, Instant};

use queue::{Queue, Reply};
use slot_gate::{Call, Gate, Refusal, Region, Slot, Verdict};

const PLUGINS: u16 = 24;
const SLOTS: u8 = 5;
const THREADS: u64 = 24;
const WHILE: Duration = Duration::from_secs(2);

/// How often the whole gate is kept beside the answers.
const KEPT_EVERY: usize = 500;

struct Entry {
    thread: u64,
    call: Call,
    p: u64,
    answer: Result<Reply, Refusal>,
}

struct Shared {
    gate: Gate,
    log: Vec<Entry>,
    /// The gate after so many calls.
    kept: Vec<(usize, Gate)>,
}

fn perform(gate: &mut Gate, call: Call, p: u64) -> Result<Reply, Refusal> {
    match call {
        Call::Take => gate.take(p).map(|_| Reply::Ticket),
        Call::Look => gate.look(p).map(|verdict| match verdict {
            Verdict::Yes(slot, _) => Reply::Yes(slot.0),
            _ => Reply::No,
        }),
        Call::Leave => gate.leave(p).map(|()| Reply::Done),
        Call::Place => gate.place(p).map(Reply::Place),
        Call::Stop => gate.stop(p).map(|()| Reply::Done),
        Call::Wake => gate.wake(p).map(|()| Reply::Done),
        other => panic!("{other:?} is no call of the queue"),
    }
}

/// Numbers by Marsaglia's xorshift.
struct Random(u64);

impl Random {
    fn below(&mut self, bound: u64) -> u64 {
        self.0 ^= self.0 << 13;
        self.0 ^= self.0 >> 7;
        self.0 ^= self.0 << 17;
        self.0 % bound
    }
}

/// Each thread calls for its own plugin as a rule, and now and then for any, also for
/// one that there is not.
fn run(shared: &Mutex<Shared>, thread: u64, end: Instant) {
    const CALLS: [Call; 16] = [
        Call::Take,
        Call::Take,
        Call::Take,
        Call::Look,
        Call::Look,
        Call::Look,
        Call::Look,
        Call::Leave,
        Call::Leave,
        Call::Leave,
        Call::Place,
        Call::Place,
        Call::Stop,
        Call::Wake,
        Call::Wake,
        Call::Wake,
    ];
    let mut random = Random(0x1989_0000 + thread);
    while Instant::now() < end {
        let call = CALLS[random.below(16) as usize];
        let p = match random.below(4) {
            0 => random.below(u64::from(PLUGINS) + 2),
            _ => thread,
        };
        let mut shared = shared.lock().expect("no thread panics under the lock");
        let answer = perform(&mut shared.gate, call, p);
        shared.log.push(Entry {
            thread,
            call,
            p,
            answer,
        });
        if shared.log.len().is_multiple_of(KEPT_EVERY) {
            let kept = (shared.log.len(), shared.gate.clone());
            shared.kept.push(kept);
        }
        drop(shared);
        if random.below(16) == 0 {
            std::thread::yield_now();
        }
    }
}

/// Every plugin stands in the gate as it does in the queue.
fn check(gate: &Gate, queue: &Queue, after: usize) {
    let mut inside = 0;
    for p in 1..=u64::from(PLUGINS) {
        let at = format!("plugin {p} after {after} calls");
        assert_eq!(gate.region(p), Some(queue.region(p)), "{at}");
        assert_eq!(gate.is_stopped(p), Some(queue.is_stopped(p)), "{at}");
        assert_eq!(gate.slot(p), queue.slot(p).map(Slot), "{at}");
        let place = match (queue.is_stopped(p), queue.region(p)) {
            (true, _) => Err(Refusal::Stopped),
            (_, Region::Waiting) => Ok(queue.place(p)),
            _ => Err(Refusal::WrongRegion),
        };
        assert_eq!(gate.place(p), place, "{at}");
        inside += usize::from(queue.region(p) == Region::Inside);
    }
    assert!(inside <= SLOTS.into());
}

#[test]
fn many_threads() {
    let shared = Mutex::new(Shared {
        gate: Gate::open(PLUGINS.into(), SLOTS.into()).unwrap(),
        log: Vec::new(),
        kept: Vec::new(),
    });
    let end = Instant::now() + WHILE;
    std::thread::scope(|scope| {
        for thread in 1..=THREADS {
            let shared = &shared;
            scope.spawn(move || run(shared, thread, end));
        }
    });
    let Shared { gate, log, kept } = shared.into_inner().expect("no thread panicked");

    let mut queue = Queue::open(PLUGINS, SLOTS);
    let mut kept = kept.into_iter().peekable();
    let mut calls = [0; THREADS as usize];
    let mut changes = 0;
    let mut met = std::collections::HashMap::new();
    for (i, entry) in log.iter().enumerate() {
        let Entry {
            thread,
            call,
            p,
            answer,
        } = *entry;
        let handed_back =
            call == Call::Leave && answer.is_ok() && queue.region(p) == Region::Waiting;
        assert_eq!(answer, queue.call(call, p), "call {}: {call:?} {p}", i + 1);
        while let Some((after, gate)) = kept.next_if(|(after, _)| *after == i + 1) {
            check(&gate, &queue, after);
        }
        calls[thread as usize - 1] += 1;
        changes += usize::from(i > 0 && log[i - 1].thread != thread);
        let name = match answer {
            Ok(Reply::Yes(_)) => "yes".into(),
            Ok(Reply::Place(_)) => "place".into(),
            Ok(Reply::Done) if handed_back => "handed back".into(),
            Ok(Reply::Done) => format!("{call:?}"),
            Ok(other) => format!("{other:?}"),
            Err(refusal) => format!("{}", refusal.number()),
        };
        *met.entry(name).or_insert(0) += 1;
    }
    assert!(kept.next().is_none());
    check(&gate, &queue, log.len());

    println!(
        "{} calls, {changes} changes of the thread: {met:?}",
        log.len()
    );
    assert!(calls.iter().all(|&calls| calls > 0), "{calls:?}");
    assert!(log.len() > 1_000 && changes > THREADS as usize);
    let names = [
        "Ticket",
        "yes",
        "No",
        "place",
        "Leave",
        "handed back",
        "Stop",
        "Wake",
        "4",
        "5",
        "6",
        "7",
        "9",
    ];
    for name in names {
        assert!(met.contains_key(name), "{name}: {met:?}");
    }
    assert_eq!(met.len(), names.len(), "{met:?}");
}
