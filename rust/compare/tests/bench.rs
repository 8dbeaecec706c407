//! What the benchmark times: the calls are those that it says, by each way; and
//! what its tables say of given times.

use compare::bench::cases::{cases, full, Crafted, Kind};
use compare::bench::clock::{contestant, race, Time};
use compare::bench::tables::{call_table, crafted_table, look_table};
use compare::bench::{early_looks, Cell, PLUGINS, SLOTS};
use compare::fast;
use compare::forms::{Calls, Form};
use compare::gate::{self, sound_plainly, IDLE, INSIDE, YEARS};

/// The years and sizes.
fn sizes() -> impl Iterator<Item = (u16, u16, u8)> {
    let sizes = PLUGINS
        .into_iter()
        .flat_map(|n| SLOTS.into_iter().map(move |k| (n, k)));
    let in_years = |(n, k)| YEARS.map(|year| (year, n, k));
    sizes
        .flat_map(in_years)
        .filter(|&(year, n, k)| year == 1989 || u16::from(k) < n)
}

/// A full gate is sound, with no idle plugin, and with k plugins inside, or all.
#[test]
fn full_gates() {
    for (year, n, k) in sizes() {
        let (words, mut list) = full(year, n, k);
        assert_eq!(words.year, year);
        assert!(sound_plainly(&words, &list.lend()));
        assert!(!list.regions.contains(&IDLE));
        let inside = list.regions.iter().filter(|&&region| region == INSIDE);
        assert_eq!(inside.count(), usize::from(n.min(k.into())));
    }
}

/// Each case is accepted on a sound list and refused with 3 on a damaged one,
/// which becomes sound when its last record alone is changed.
#[test]
fn answers() {
    for (year, n, k) in sizes() {
        let (_, sound_list) = full(year, n, k);
        for case in cases(year, n, k) {
            let wanted = if case.damaged { 3 } else { 0 };
            let (words, mut list) = case.state.clone();
            let (other, mut other_list) = case.other.clone();
            let (mut fast_words, mut fast_list) = case.state.clone();
            let (state, form) = (&case.state, Form::Slices);
            let (ours, fast, proved) = match case.kind {
                Kind::Letter(letter) => (
                    gate::by_letter(letter)(&words, &mut list.lend(), case.p).number(),
                    fast::call(letter, &mut fast_words, &mut fast_list.lend(), case.p).number(),
                    form.call(letter, case.p, state).map(|made| made.shown),
                ),
                Kind::Alike => {
                    let (first, second) = (&list.lend(), &other_list.lend());
                    let number = |alike: Result<bool, u8>| alike.err().unwrap_or(0);
                    (
                        number(gate::alike((&words, first), (&other, second))),
                        number(fast::alike((&words, first), (&other, second))),
                        form.alike(state, &case.other),
                    )
                }
                Kind::Open => (
                    gate::open(year.into(), n.into(), k.into(), &mut list.lend()).number(),
                    gate::open(year.into(), n.into(), k.into(), &mut fast_list.lend()).number(),
                    form.open(year.into(), n.into(), k.into(), &state.1)
                        .map(|made| made.shown),
                ),
            };
            let proved = proved.expect("the form has the call").number;
            let numbers = [ours, fast, proved];
            let what = format!("{} at N {n}, k {k}", case.kind.name());
            assert_eq!(numbers, [wanted; 3], "{what}");
            if case.damaged {
                let mut mended = case.other.1;
                let last = usize::from(n) - 1;
                assert_ne!(mended, sound_list, "{what}");
                mended.values[last] = sound_list.values[last];
                mended.colours[last] = sound_list.colours[last];
                assert_eq!(mended, sound_list, "{what}");
            }
        }
    }
}

/// The look is answered no where there are more plugins than slots.
#[test]
fn looks() {
    for (year, n, k) in sizes() {
        let all = cases(year, n, k);
        let look = all.iter().find(|case| case.kind == Kind::LOOK).unwrap();
        let (words, mut list) = look.state.clone();
        let reply = gate::look(&words, &mut list.lend(), look.p);
        assert_eq!(reply.answer.yes(), n <= k.into());
    }
}

/// The looks at gates of 1979 are so many: at N 3 with one slot, at 64 with two of the
/// three k, and above with all.
#[test]
fn looks_of_1979() {
    let looks = early_looks();
    assert!(looks.iter().all(|case| case.state.0.year == 1979));
    assert!(looks.iter().all(|case| case.kind == Kind::LOOK));
    assert_eq!(looks.len(), 2 * (1 + 2 + 3 + 3));
}

#[test]
fn the_longer_call_takes_longer() {
    let spin = |times: u64| {
        move || {
            for i in 0..times {
                std::hint::black_box(i);
            }
        }
    };
    let times = race([contestant(spin(100)), contestant(spin(10_000))]);
    let [short, long] = times.map(|turns| Time::of(turns).best);
    assert!(short > 0.0 && long > 10.0 * short, "{short} {long}");
}

#[test]
fn best_and_median() {
    let time = Time::of(vec![3.0, 1.0, 9.0, 2.0, 4.0]);
    assert_eq!((time.best, time.median), (1.0, 3.0));
}

#[test]
fn tables() {
    let time = |best: f64| Time {
        best,
        median: 2.0 * best,
    };
    let cell = |kind, n, damaged, times: [f64; 3]| Cell {
        kind,
        n,
        k: 8,
        crafted: None,
        damaged,
        times: times.map(time),
    };
    let mut cells = vec![
        cell(Kind::LOOK, 3, false, [30.0, 20.0, 7.0]),
        cell(Kind::LOOK, 64, false, [300.4, 400.0, 7.0]),
        cell(Kind::LOOK, 3, true, [10.0, 10.0, 7.0]),
        cell(Kind::LOOK, 64, true, [20.0, 12_345.0, 7.0]),
        cell(Kind::Open, 3, false, [1.0, 2.0, 7.0]),
    ];
    cells[0].times[0].median = 50.0;
    let look = look_table("Look", &cells);
    assert!(look.starts_with("| Look: k | N |"));
    assert!(
        look.contains("| 8 | 3 | 30 / 20 / 7 | 1.50 (1.25) |  | 10 / 10 / 7 | 1.00 (1.00) |  |\n")
    );
    assert!(look.contains(
        "| 8 | 64 | 300 / 400 / 7 | 0.75 (0.75) | 10.0 / 20.0 | 20 / 12,345 / 7 | 0.00 (0.00) | 2.0 / 1234.5 |\n"
    ));
    assert_eq!(look.lines().count(), 4);
    let calls = call_table(&cells, 8, false);
    assert!(calls.starts_with("| k 8, sound list | N 3 | N 64 | N 256 | N 1,024 |\n"));
    assert!(calls.contains("| look | 30 / 20 (1.50) | 300 / 400 (0.75) |\n"));
    assert!(calls.ends_with("| open | 1 / 2 (0.50) |\n"));
    for cell in &mut cells {
        cell.crafted = Some(Crafted::Value);
    }
    let crafted = crafted_table(&cells[1..4]);
    assert!(crafted.contains("| one value | 3 | 10 / 10 / 7 | 1.00 (1.00) |\n"));
    assert!(crafted.contains(
        "| one value | 64 | 300 / 400 / 7 | 0.75 (0.75) | 20 / 12,345 / 7 | 0.00 (0.00) |\n"
    ));
}
