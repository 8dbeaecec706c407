//! The benchmark: how long each call takes, proved, by the Rust program written
//! for speed and by this crate's gate, on the same words and lists in one run.

pub mod cases;
pub mod clock;
pub mod tables;

use std::hint::black_box;

use slot_gate::forms as exported;

use crate::fast;
use crate::gate;
use crate::proved;
use cases::{Case, Crafted, Kind, Record};
use clock::{contestant, race, Contestant, Time};

pub const PLUGINS: [u16; 4] = [3, 64, 256, 1024];
pub const SLOTS: [u8; 3] = [1, 8, 64];

/// How often all is measured.
const SWEEPS: usize = 4;

/// A way to make the call of a case.
pub type Way = for<'a> fn(&'a Case) -> Contestant<'a>;

/// The call of one case, measured by some ways. The first is compared with the
/// second.
#[derive(Clone, Debug)]
pub struct Cell<const WAYS: usize> {
    pub kind: Kind,
    pub n: u16,
    pub k: u8,
    pub crafted: Option<Crafted>,
    pub damaged: bool,
    pub times: [Time; WAYS],
}

impl<const WAYS: usize> Cell<WAYS> {
    /// The best time of the first way by that of the second.
    pub fn ratio(&self) -> f64 {
        self.times[0].best / self.times[1].best
    }

    /// The same of the medians.
    pub fn median_ratio(&self) -> f64 {
        self.times[0].median / self.times[1].median
    }
}

/// Every call on every size of 1989, on sound lists and on damaged ones.
pub fn all_cases() -> Vec<Case> {
    sizes()
        .flat_map(|(n, k)| cases::cases(1989, n, k))
        .collect()
}

fn sizes() -> impl Iterator<Item = (u16, u8)> {
    let of_slots = |k| PLUGINS.into_iter().map(move |n| (n, k));
    SLOTS.into_iter().flat_map(of_slots)
}

/// The looks among them.
pub fn looks() -> Vec<Case> {
    let mut cases = all_cases();
    cases.retain(|case| case.kind == Kind::LOOK);
    cases
}

/// The looks at gates of 1979, on every size that these have.
pub fn early_looks() -> Vec<Case> {
    let sizes = sizes().filter(|&(n, k)| u16::from(k) < n);
    let mut cases: Vec<Case> = sizes.flat_map(|(n, k)| cases::cases(1979, n, k)).collect();
    cases.retain(|case| case.kind == Kind::LOOK);
    cases
}

/// The looks at crafted tickets, on every size that has 64 of them.
pub fn crafted_looks() -> Vec<Case> {
    let sizes = PLUGINS.into_iter().filter(|&n| n >= 64);
    let all = sizes.flat_map(|n| Crafted::ALL.map(|tickets| cases::crafted(n, tickets)));
    all.flatten().collect()
}

/// Each case by each way.
pub fn measure<const WAYS: usize>(cases: &[Case], ways: [Way; WAYS]) -> Vec<Cell<WAYS>> {
    let mut turns = vec![[(); WAYS].map(|()| Vec::new()); cases.len()];
    for _ in 0..SWEEPS {
        for (all, case) in turns.iter_mut().zip(cases) {
            for (all, more) in all.iter_mut().zip(race(ways.map(|way| way(case)))) {
                all.extend(more);
            }
        }
    }
    let cell = |(case, turns): (&Case, [Vec<f64>; WAYS])| Cell {
        kind: case.kind,
        n: case.n,
        k: case.k,
        crafted: case.crafted,
        damaged: case.damaged,
        times: turns.map(Time::of),
    };
    cases.iter().zip(turns).map(cell).collect()
}

/// Nanoseconds for what is timed beside a call: the words copied and a record put
/// back.
pub fn measure_nothing() -> f64 {
    let (words, mut list) = cases::full(1989, 64, 8);
    let words = proved::lent_words(&words);
    let record = Record::of(&list, 1);
    let [nothing] = race([contestant(move || {
        black_box(&mut { words });
        black_box(&mut list);
        record.put_back(&mut list);
    })]);
    Time::of(nothing).best
}

/// By the proved call.
pub fn proved_call(case: &Case) -> Contestant<'_> {
    let (words, mut list) = case.state.clone();
    let words = proved::lent_words(&words);
    let p = case.p;
    match case.kind {
        Kind::Open => contestant(move || {
            let list = &mut list.lend();
            let told = exported::open(
                case.year.into(),
                black_box(case.n.into()),
                case.k.into(),
                proved::lent_list(list),
            );
            black_box(&told);
        }),
        Kind::Alike => {
            let (other, mut other_list) = case.other.clone();
            let other = proved::lent_words(&other);
            contestant(move || {
                let (first, second) = (&list.lend(), &other_list.lend());
                let shown = exported::alike(
                    black_box(words),
                    proved::shown_list(first),
                    other,
                    proved::shown_list(second),
                );
                black_box(&shown);
            })
        }
        Kind::Letter(letter) => {
            let record = Record::of(&list, p);
            contestant(move || {
                let lent_list = &mut list.lend();
                let lent_list = proved::lent_list(lent_list);
                let told = exported::call(letter, black_box(words), lent_list, black_box(p));
                black_box(&told);
                record.put_back(&mut list);
            })
        }
    }
}

/// A look by the proved call over records.
pub fn thin_look(case: &Case) -> Contestant<'_> {
    let words = proved::lent_words(&case.state.0);
    let mut records = proved::records(&case.state.1);
    let at = case.p as usize - 1;
    let record = records[at];
    contestant(move || {
        let told = exported::records_call(b'L', black_box(words), &mut records, black_box(case.p));
        black_box(&told);
        records[at] = record;
    })
}

/// By the program written for speed.
pub fn fast_call(case: &Case) -> Contestant<'_> {
    let (words, mut list) = case.state.clone();
    let p = case.p;
    match case.kind {
        Kind::Open => our_call(case),
        Kind::Alike => {
            let (other, mut other_list) = case.other.clone();
            contestant(move || {
                let (first, second) = (&list.lend(), &other_list.lend());
                let answer = fast::alike((black_box(&words), first), (&other, second));
                black_box(&answer);
            })
        }
        Kind::Letter(letter) => {
            let record = Record::of(&list, p);
            contestant(move || {
                let mut words = black_box(words);
                let answer = fast::call(letter, &mut words, &mut list.lend(), black_box(p));
                black_box((answer, &words));
                record.put_back(&mut list);
            })
        }
    }
}

/// By this crate's gate.
pub fn our_call(case: &Case) -> Contestant<'_> {
    let (words, mut list) = case.state.clone();
    let p = case.p;
    match case.kind {
        Kind::Open => contestant(move || {
            let (year, n, k) = (case.year, black_box(case.n), case.k);
            let reply = gate::open(year.into(), n.into(), k.into(), &mut list.lend());
            black_box(&reply);
        }),
        Kind::Alike => {
            let (other, mut other_list) = case.other.clone();
            contestant(move || {
                let (first, second) = (&list.lend(), &other_list.lend());
                let answer = gate::alike((black_box(&words), first), (&other, second));
                black_box(&answer);
            })
        }
        Kind::Letter(letter) => {
            let record = Record::of(&list, p);
            let call = gate::by_letter(letter);
            contestant(move || {
                let reply = call(black_box(&words), &mut list.lend(), black_box(p));
                black_box(&reply);
                record.put_back(&mut list);
            })
        }
    }
}
