//! `Gate` against document 01: the worked table, its further cases, each refusal
//! by name, and what the readers say; the rules by which looks are answered; and the
//! gates of 1979.

use slot_gate::{Colour, Gate, Refusal, Region, Rule, Slot, Ticket, Value, Verdict, Year};

/// What a call answered, of any kind.
#[derive(Clone, Copy, Debug, PartialEq, Eq)]
enum Answer {
    Ticket(u16, u8),
    Yes(u8),
    No,
    Place(u16),
    Done,
}

use Answer::{Done, No, Place, Yes};

fn perform(gate: &mut Gate, letter: char, p: u64) -> Result<Answer, Refusal> {
    match letter {
        'T' => gate
            .take(p)
            .map(|ticket| Answer::Ticket(ticket.value.0, ticket.colour.0)),
        'L' => gate.look(p).map(|verdict| match verdict {
            Verdict::Yes(slot, _) => Yes(slot.0),
            Verdict::No(_) => No,
            other => panic!("{other:?} is neither yes nor no"),
        }),
        'B' => gate.leave(p).map(|()| Done),
        'P' => gate.place(p).map(Place),
        'S' => gate.stop(p).map(|()| Done),
        'W' => gate.wake(p).map(|()| Done),
        other => panic!("{other} names no call"),
    }
}

type Line = (
    char,
    u64,
    Result<Answer, Refusal>,
    &'static str,
    &'static str,
);

/// Makes the calls, and compares each answer and ISSUE and VALID after it.
fn check(gate: &mut Gate, lines: &[Line]) {
    for (i, &(letter, p, answer, issue, valid)) in lines.iter().enumerate() {
        let at = format!("line {}: {letter} {p}", i + 1);
        assert_eq!(perform(gate, letter, p), answer, "{at}");
        assert_eq!(gate.issue().to_string(), issue, "{at}");
        assert_eq!(gate.valid().to_string(), valid, "{at}");
    }
}

fn ticket(value: u16, colour: u8) -> Result<Answer, Refusal> {
    Ok(Answer::Ticket(value, colour))
}

/// Calls that are all accepted, by letter and plugin: `T1 L1 B1`.
fn run(gate: &mut Gate, calls: &str) {
    for call in calls.split(' ') {
        let (letter, p) = call.split_at(1);
        let p = p.parse().unwrap();
        let answer = perform(gate, letter.chars().next().unwrap(), p);
        assert!(answer.is_ok(), "{call}: {answer:?}");
    }
}

#[test]
fn worked_table() {
    let mut gate = Gate::open(3, 1).unwrap();
    assert_eq!((gate.plugins(), gate.slots()), (3, 1));
    check(
        &mut gate,
        &[
            ('T', 1, ticket(1, 0), "1/0", "1/0"),
            ('T', 2, ticket(2, 0), "2/0", "1/0"),
            ('L', 2, Ok(No), "2/0", "1/0"),
            ('T', 3, ticket(0, 1), "0/1", "1/0"),
            ('L', 1, Ok(Yes(1)), "0/1", "1/0"),
            ('L', 3, Ok(No), "0/1", "1/0"),
            ('B', 1, Ok(Done), "0/1", "2/0"),
            ('L', 2, Ok(Yes(1)), "0/1", "2/0"),
            ('B', 2, Ok(Done), "0/1", "0/1"),
            ('T', 3, Err(Refusal::WrongRegion), "0/1", "0/1"),
            ('L', 3, Ok(Yes(1)), "0/1", "0/1"),
            ('B', 3, Ok(Done), "0/1", "1/1"),
        ],
    );
}

/// "Opening: ISSUE is 0/0 (value/colour), VALID is k/0", "all records idle and
/// unmarked".
#[test]
fn opening() {
    let gate = Gate::open(7, 3).unwrap();
    assert_eq!((gate.plugins(), gate.slots()), (7, 3));
    assert_eq!(gate.issue(), Ticket::new(0, 0));
    assert_eq!(gate.valid(), Ticket::new(3, 0));
    for p in 1..=7 {
        assert_eq!(gate.region(p), Some(Region::Idle));
        assert_eq!(gate.is_stopped(p), Some(false));
        assert_eq!((gate.ticket(p), gate.slot(p)), (None, None));
    }
    assert_eq!(free(&gate), [1, 2, 3]);
}

/// "N 1,024 opens, 1,025 and 0 give 1; k 64 opens, 65 gives 1."
#[test]
fn out_of_range() {
    for (plugins, slots) in [(1, 1), (1024, 1), (1024, 64), (1, 64)] {
        assert!(Gate::open(plugins, slots).is_ok(), "{plugins} {slots}");
    }
    let far = [1 << 16, (1 << 16) + 1, (1 << 32) + 1, u64::MAX];
    for plugins in [0, 1025].into_iter().chain(far) {
        assert_eq!(Gate::open(plugins, 1), Err(Refusal::OutOfRange));
    }
    for slots in [0, 65, 256, 257].into_iter().chain(far) {
        assert_eq!(Gate::open(1, slots), Err(Refusal::OutOfRange));
    }
    assert_eq!(Gate::open(1025, 65), Err(Refusal::OutOfRange));
}

/// Document 02, A.8: "Opening names the year, 1979 or 1989"; "10, open for 1979 with k
/// not below N, after 1". k may exceed N in a gate of 1989 alone.
#[test]
fn years_open() {
    for (plugins, slots) in (0..=6).flat_map(|n| (0..=6).map(move |k| (n, k))) {
        let number = |year| match Gate::open_year(year, plugins, slots) {
            Ok(gate) => {
                assert_eq!(gate.year(), year);
                assert_eq!(
                    (gate.plugins(), gate.slots()),
                    (plugins as u16, slots as u8)
                );
                0
            }
            Err(refusal) => refusal.number(),
        };
        let out_of_range = plugins == 0 || slots == 0;
        assert_eq!(number(Year::Y1989), u8::from(out_of_range));
        let wanted = match (out_of_range, slots < plugins) {
            (true, _) => 1,
            (false, true) => 0,
            (false, false) => 10,
        };
        assert_eq!(number(Year::Y1979), wanted, "N {plugins}, k {slots}");
    }
    let early = |plugins, slots| Gate::open_year(Year::Y1979, plugins, slots);
    for (plugins, slots) in [(2, 1), (65, 64), (1024, 1), (1024, 64)] {
        assert!(early(plugins, slots).is_ok(), "{plugins} {slots}");
    }
    assert_eq!(early(64, 64), Err(Refusal::TooManySlots));
    assert_eq!(early(64, 65), Err(Refusal::OutOfRange));
    assert_eq!(early(1025, 1), Err(Refusal::OutOfRange));
    assert_eq!(Gate::open(4, 2), Gate::open_year(Year::Y1989, 4, 2));
}

#[test]
fn years_by_number() {
    let numbers: Vec<u16> = Year::ALL.iter().map(|year| year.number()).collect();
    assert_eq!(numbers, [1979, 1989]);
    let of_numbers: Vec<Year> = (0..=u16::MAX).filter_map(Year::of_number).collect();
    assert_eq!(of_numbers, Year::ALL);
    assert_eq!(
        [Year::Y1979, Year::Y1989].map(|year| year.to_string()),
        ["1979", "1989"]
    );
}

/// A.8: "This request's start is ISSUE 1/0 and VALID (k + 1)/0; the first ticket is 2/0";
/// "values run 1 to N (idle records keep 0), a new block's 1 follows N". N 4, k 2: the
/// block has 4 tickets, that of 1989 has 3.
#[test]
fn worked_table_of_1979() {
    let mut gate = Gate::open_year(Year::Y1979, 4, 2).unwrap();
    assert_eq!(
        (gate.issue(), gate.valid()),
        (Ticket::new(1, 0), Ticket::new(3, 0))
    );
    assert_eq!((gate.region(1), gate.ticket(1)), (Some(Region::Idle), None));
    check(
        &mut gate,
        &[
            ('T', 1, ticket(2, 0), "2/0", "3/0"),
            ('T', 2, ticket(3, 0), "3/0", "3/0"),
            ('L', 2, Ok(Yes(1)), "3/0", "3/0"),
            ('T', 3, ticket(4, 0), "4/0", "3/0"),
            ('L', 3, Ok(No), "4/0", "3/0"),
            ('P', 3, Ok(Place(1)), "4/0", "3/0"),
            // ISSUE leads: a new block, of colour 1.
            ('T', 4, ticket(1, 1), "1/1", "3/0"),
            ('P', 4, Ok(Place(2)), "1/1", "3/0"),
            ('L', 1, Ok(Yes(2)), "1/1", "3/0"),
            ('B', 2, Ok(Done), "1/1", "4/0"),
            ('L', 3, Ok(Yes(1)), "1/1", "4/0"),
            ('T', 2, ticket(2, 1), "2/1", "4/0"),
            ('P', 2, Ok(Place(2)), "2/1", "4/0"),
            // VALID does not lead: ISSUE's colour.
            ('B', 1, Ok(Done), "2/1", "1/1"),
            ('L', 4, Ok(Yes(2)), "2/1", "1/1"),
            ('B', 3, Ok(Done), "2/1", "2/1"),
            ('L', 2, Ok(Yes(1)), "2/1", "2/1"),
            ('B', 4, Ok(Done), "2/1", "3/1"),
            ('T', 1, ticket(3, 1), "3/1", "3/1"),
            ('T', 3, ticket(4, 1), "4/1", "3/1"),
            // A turn handed back.
            ('B', 1, Ok(Done), "4/1", "4/1"),
            ('T', 1, ticket(1, 2), "1/2", "4/1"),
            ('T', 4, ticket(2, 2), "2/2", "4/1"),
            ('P', 4, Ok(Place(2)), "2/2", "4/1"),
            ('B', 3, Ok(Done), "2/2", "1/2"),
            ('L', 1, Ok(Yes(2)), "2/2", "1/2"),
            ('B', 2, Ok(Done), "2/2", "2/2"),
            ('L', 4, Ok(Yes(1)), "2/2", "2/2"),
            ('B', 1, Ok(Done), "2/2", "3/2"),
            ('B', 4, Ok(Done), "2/2", "4/2"),
            ('T', 1, ticket(3, 2), "3/2", "4/2"),
            ('T', 2, ticket(4, 2), "4/2", "4/2"),
            // After colour 2 comes 0, which is free again.
            ('T', 3, ticket(1, 0), "1/0", "4/2"),
        ],
    );
}

/// "4: p is 0 or above N", for each of the six calls, also where only the low
/// bits of p are a plugin's.
#[test]
fn no_such_plugin() {
    let mut gate = Gate::open(3, 2).unwrap();
    run(&mut gate, "T1 T2 T3 L1 S3");
    let before = gate.clone();
    for p in [0, 4, 1025, (1 << 16) + 1, (1 << 32) + 1, u64::MAX] {
        for letter in "TLBPSW".chars() {
            let answer = perform(&mut gate, letter, p);
            assert_eq!(answer, Err(Refusal::NoSuchPlugin), "{letter} {p}");
        }
        assert_eq!(gate.region(p), None);
        assert_eq!(gate.is_stopped(p), None);
        assert_eq!((gate.ticket(p), gate.slot(p)), (None, None));
    }
    assert_eq!(gate, before);
}

/// "5: p is stopped", whatever its region; "6" comes after it.
#[test]
fn stopped() {
    let mut gate = Gate::open(3, 1).unwrap();
    run(&mut gate, "T1 T2 L1 S1 S2 S3");
    let before = gate.clone();
    for p in 1..=3 {
        for letter in "TLBPS".chars() {
            let answer = perform(&mut gate, letter, p);
            assert_eq!(answer, Err(Refusal::Stopped), "{letter} {p}");
        }
        assert_eq!(gate.is_stopped(p), Some(true));
    }
    assert_eq!(gate, before);
}

/// "6: p is not idle" (take), "not waiting" (look, place); document 02, A.2:
/// "leave's 6 is now for idle plugins only."
#[test]
fn wrong_region() {
    let mut gate = Gate::open(3, 1).unwrap();
    run(&mut gate, "T1 T2 L1");
    let regions = [Region::Inside, Region::Waiting, Region::Idle];
    let before = gate.clone();
    for (p, calls) in [(1, "TLP"), (2, "T"), (3, "LBP")] {
        assert_eq!(gate.region(p), Some(regions[p as usize - 1]));
        for letter in calls.chars() {
            let answer = perform(&mut gate, letter, p);
            assert_eq!(answer, Err(Refusal::WrongRegion), "{letter} {p}");
        }
    }
    assert_eq!(gate, before);
}

/// Document 02, A.2: "9, leave by a waiting plugin with an invalid ticket, after
/// 5"; a valid turn is handed back, and the next plugin's comes.
#[test]
fn handing_back() {
    let mut gate = Gate::open(3, 1).unwrap();
    check(
        &mut gate,
        &[
            ('T', 1, ticket(1, 0), "1/0", "1/0"),
            ('T', 2, ticket(2, 0), "2/0", "1/0"),
            ('B', 2, Err(Refusal::NotYetValid), "2/0", "1/0"),
            ('S', 2, Ok(Done), "2/0", "1/0"),
            ('B', 2, Err(Refusal::Stopped), "2/0", "1/0"),
            ('W', 2, Ok(Done), "2/0", "1/0"),
            ('B', 1, Ok(Done), "2/0", "2/0"),
            ('B', 1, Err(Refusal::WrongRegion), "2/0", "2/0"),
            ('L', 2, Ok(Yes(1)), "2/0", "2/0"),
        ],
    );
    assert_eq!(gate.region(1), Some(Region::Idle));
    assert_eq!((gate.ticket(1), gate.slot(1)), (None, None));
}

/// The numbers of the free slots.
fn free(gate: &Gate) -> Vec<u8> {
    gate.free_slots().map(|slot| slot.0).collect()
}

/// Document 02, A.4: "The slot returned longest ago goes out first; at opening they
/// lie in rising order. A look that answers yes gives the slot." Two in, two out,
/// one in.
#[test]
fn slots() {
    let mut gate = Gate::open(2, 3).unwrap();
    assert_eq!(free(&gate), [1, 2, 3]);
    let look = |gate: &mut Gate, p| {
        gate.take(p).unwrap();
        assert_eq!(gate.slot(p), None);
        let given = gate.look(p).unwrap().slot();
        assert_eq!(given, gate.slot(p));
        given
    };
    assert_eq!(look(&mut gate, 1), Some(Slot(1)));
    assert_eq!(look(&mut gate, 2), Some(Slot(2)));
    assert_eq!(free(&gate), [3]);
    run(&mut gate, "B1 B2");
    assert_eq!([gate.slot(1), gate.slot(2)], [None, None]);
    assert_eq!(free(&gate), [3, 1, 2]);
    assert_eq!(look(&mut gate, 1), Some(Slot(3)));
    assert_eq!(free(&gate), [1, 2]);
}

/// "A handed-back turn returns no slot", also where all 64 places are full; nor
/// does a no take one, and a stopped plugin keeps its own.
#[test]
fn slots_that_stay() {
    let mut gate = Gate::open(1, 64).unwrap();
    run(&mut gate, "T1 B1");
    assert!(free(&gate).into_iter().eq(1..=64));

    let mut gate = Gate::open(3, 2).unwrap();
    run(&mut gate, "T1 L1 T2 T3 L3 B2");
    assert_eq!((free(&gate), gate.slot(3)), (vec![2], None));
    run(&mut gate, "S1 L3");
    assert!(free(&gate).is_empty());
    assert_eq!(
        [1, 2, 3].map(|p| gate.slot(p)),
        [Some(Slot(1)), None, Some(Slot(2))]
    );
}

/// What the last of these calls, a look, is told; all are accepted.
fn told(n: u64, k: u64, calls: &str) -> Verdict {
    let mut gate = Gate::open(n, k).unwrap();
    let (before, look) = calls.rsplit_once(' ').unwrap();
    run(&mut gate, before);
    let p = look.strip_prefix('L').unwrap().parse().unwrap();
    gate.look(p).unwrap()
}

/// Document 02, A.5: "same colour, not above VALID's value". N 3, k 1: the first yes of
/// document 01's whole case, where ticket and VALID are 1/0. N 3, k 3: the ticket is 2/0,
/// VALID 3/0.
#[test]
fn rule_not_above() {
    let not_above = |value, valid| Rule::NotAbove {
        value: Value(value),
        valid: Value(valid),
    };
    let first_yes = told(3, 1, "T1 T2 L2 T3 L1");
    assert_eq!(first_yes, Verdict::Yes(Slot(1), not_above(1, 1)));
    let lower = told(3, 3, "T1 T2 L2");
    assert_eq!(lower, Verdict::Yes(Slot(1), not_above(2, 3)));
    let words = "same colour, value 2 not above VALID's 3";
    assert_eq!(lower.rule().to_string(), words);
}

/// "same colour, above it". N 3, k 1, document 01's first look: M is 3, the ticket is
/// 2/0, VALID 1/0.
#[test]
fn rule_above() {
    let (value, valid) = (Value(2), Value(1));
    let verdict = told(3, 1, "T1 T2 L2");
    assert_eq!(verdict, Verdict::No(Rule::Above { value, valid }));
    let words = "same colour, value 2 above VALID's 1";
    assert_eq!(verdict.rule().to_string(), words);
}

/// "other colour, counted". N 1, k 2: M is 3. The turn that is handed back moves VALID
/// from 2/0 to 0/1, which leaves colour 0 the count 1; the ticket is 2/0.
#[test]
fn rule_counted() {
    let (colour, count) = (Colour(0), 1);
    let verdict = told(1, 2, "T1 B1 T1 L1");
    let rule = Rule::Counted { colour, count };
    assert_eq!(verdict, Verdict::Yes(Slot(1), rule));
    let words = "other colour, counted: the count of colour 0 is 1";
    assert_eq!(verdict.rule().to_string(), words);
}

/// "other colour, not counted". N 2, k 1: M is 2, so that the second ticket begins the
/// block of colour 1, while VALID is 1/0.
#[test]
fn rule_not_counted() {
    let (colour, count) = (Colour(1), 0);
    let verdict = told(2, 1, "T1 T2 L2");
    assert_eq!(verdict, Verdict::No(Rule::NotCounted { colour, count }));
    let words = "other colour, not counted: the count of colour 1 is 0";
    assert_eq!(verdict.rule().to_string(), words);
}

/// "7: not stopped", whatever its region; a second wake too.
#[test]
fn not_stopped() {
    let mut gate = Gate::open(3, 1).unwrap();
    run(&mut gate, "T1 T2 L1 S3 W3");
    let before = gate.clone();
    for p in 1..=3 {
        assert_eq!(gate.wake(p), Err(Refusal::NotStopped));
        assert_eq!(gate.is_stopped(p), Some(false));
    }
    assert_eq!(gate, before);
}

/// "Sets the mark; ticket and region remain", and the slot stays taken.
#[test]
fn halted_inside() {
    let mut gate = Gate::open(2, 1).unwrap();
    check(
        &mut gate,
        &[
            ('T', 1, ticket(1, 0), "1/0", "1/0"),
            ('T', 2, ticket(0, 1), "0/1", "1/0"),
            ('L', 1, Ok(Yes(1)), "0/1", "1/0"),
            ('S', 1, Ok(Done), "0/1", "1/0"),
            ('L', 2, Ok(No), "0/1", "1/0"),
            ('B', 1, Err(Refusal::Stopped), "0/1", "1/0"),
        ],
    );
    assert_eq!(gate.region(1), Some(Region::Inside));
    assert_eq!(gate.ticket(1), Some(Ticket::new(1, 0)));
    assert_eq!(gate.is_stopped(1), Some(true));
    check(
        &mut gate,
        &[
            ('W', 1, Ok(Done), "0/1", "1/0"),
            ('B', 1, Ok(Done), "0/1", "0/1"),
            ('L', 2, Ok(Yes(1)), "0/1", "0/1"),
        ],
    );
}

/// Document 02, A.1: "the number of returns until the ticket is valid: 0 for a
/// valid ticket, the distance for another."
#[test]
fn places() {
    let mut gate = Gate::open(5, 2).unwrap();
    run(&mut gate, "T4 T2 T5 T1 T3");
    // A place asks for no more than a look at the gate.
    let read_only = &gate;
    for (p, place) in [(4, 0), (2, 0), (5, 1), (1, 2), (3, 3)] {
        assert_eq!(read_only.place(p), Ok(place), "{p}");
    }
    run(&mut gate, "L4 B4");
    for (p, place) in [(2, 0), (5, 0), (1, 1), (3, 2)] {
        assert_eq!(gate.place(p), Ok(place), "{p}");
    }
}

#[test]
fn regions_and_tickets() {
    let mut gate = Gate::open(3, 1).unwrap();
    run(&mut gate, "T3 T1");
    assert_eq!(gate.ticket(3), Some(Ticket::new(1, 0)));
    assert_eq!(gate.ticket(1), Some(Ticket::new(2, 0)));
    assert_eq!(gate.ticket(2), None);
    assert_eq!(gate.region(3), Some(Region::Waiting));
    run(&mut gate, "L3");
    assert_eq!(gate.region(3), Some(Region::Inside));
    assert_eq!(gate.ticket(3), Some(Ticket::new(1, 0)));
    run(&mut gate, "B3");
    assert_eq!(gate.region(3), Some(Region::Idle));
    assert_eq!(gate.ticket(3), None);
}

/// "N 2, k 1: T 1, L 1, B 1 leave VALID 0/1; T 2 then hands out 0/1, valid."
#[test]
fn two_plugins_one_slot() {
    let mut gate = Gate::open(2, 1).unwrap();
    run(&mut gate, "T1 L1 B1");
    assert_eq!(gate.valid(), Ticket::new(0, 1));
    check(
        &mut gate,
        &[
            ('T', 2, ticket(0, 1), "0/1", "0/1"),
            ('L', 2, Ok(Yes(1)), "0/1", "0/1"),
        ],
    );
}

/// "N 1, k 2: T 1, L 1, B 1, T 1 leave ticket 2/0, valid by its count."
#[test]
fn more_slots_than_plugins() {
    let mut gate = Gate::open(1, 2).unwrap();
    run(&mut gate, "T1 L1 B1 T1");
    assert_eq!(gate.ticket(1), Some(Ticket::new(2, 0)));
    assert_ne!(gate.valid().colour, Ticket::new(2, 0).colour);
    assert_eq!(gate.place(1), Ok(0));
    let rule = Rule::Counted {
        colour: Colour(0),
        count: 1,
    };
    assert_eq!(gate.look(1), Ok(Verdict::Yes(Slot(2), rule)));

    // The slots go out and come back in turn, whoever has them.
    let mut gate = Gate::open(3, 64).unwrap();
    let mut next = (1..=64).cycle();
    for round in 0..100 {
        for p in 1..=3 {
            gate.take(p).unwrap();
        }
        for p in [2, 3, 1] {
            let slot = next.next().map(Slot);
            assert_eq!(gate.look(p).unwrap().slot(), slot, "round {round}");
        }
        for p in [2, 3, 1] {
            gate.leave(p).unwrap();
        }
    }
}

/// N 3, k 2: M is 3 and the colours are 0 to 2. Plugin 1 stays inside with the
/// ticket 1/0, so that colour 0 is counted; ISSUE and VALID go to and fro between
/// the colours 1 and 2 until it has left.
#[test]
fn colours_come_round() {
    let mut gate = Gate::open(3, 2).unwrap();
    check(
        &mut gate,
        &[
            ('T', 1, ticket(1, 0), "1/0", "2/0"),
            ('L', 1, Ok(Yes(1)), "1/0", "2/0"),
            ('T', 2, ticket(2, 0), "2/0", "2/0"),
            ('L', 2, Ok(Yes(2)), "2/0", "2/0"),
            // VALID leads, colour 1 is the first that is free.
            ('B', 2, Ok(Done), "2/0", "0/1"),
            // ISSUE does not lead: VALID's colour.
            ('T', 2, ticket(0, 1), "0/1", "0/1"),
            ('L', 2, Ok(Yes(2)), "0/1", "0/1"),
            ('B', 2, Ok(Done), "0/1", "1/1"),
            ('T', 2, ticket(1, 1), "1/1", "1/1"),
            ('L', 2, Ok(Yes(2)), "1/1", "1/1"),
            ('B', 2, Ok(Done), "1/1", "2/1"),
            ('T', 2, ticket(2, 1), "2/1", "2/1"),
            ('L', 2, Ok(Yes(2)), "2/1", "2/1"),
            ('B', 2, Ok(Done), "2/1", "0/2"),
            ('T', 2, ticket(0, 2), "0/2", "0/2"),
            ('L', 2, Ok(Yes(2)), "0/2", "0/2"),
            ('B', 2, Ok(Done), "0/2", "1/2"),
            ('T', 2, ticket(1, 2), "1/2", "1/2"),
            ('L', 2, Ok(Yes(2)), "1/2", "1/2"),
            ('B', 2, Ok(Done), "1/2", "2/2"),
            ('T', 2, ticket(2, 2), "2/2", "2/2"),
            ('L', 2, Ok(Yes(2)), "2/2", "2/2"),
            // Upward from colour 2 comes 0, which plugin 1 still holds: 1.
            ('B', 2, Ok(Done), "2/2", "0/1"),
            ('T', 2, ticket(0, 1), "0/1", "0/1"),
            ('L', 2, Ok(Yes(2)), "0/1", "0/1"),
            // Plugin 1 leaves; after colour 1 comes 2, and after 2 now 0.
            ('B', 1, Ok(Done), "0/1", "1/1"),
            ('B', 2, Ok(Done), "0/1", "2/1"),
        ],
    );
    let (mut colours, mut slots) = (Vec::new(), Vec::new());
    for _ in 0..9 {
        let ticket = gate.take(1).unwrap();
        slots.extend(gate.look(1).unwrap().slot().map(|slot| slot.0));
        gate.leave(1).unwrap();
        colours.push(ticket.colour.0);
    }
    assert_eq!(colours, [1, 1, 2, 2, 2, 0, 0, 0, 1]);
    assert_eq!(slots, [1, 2, 1, 2, 1, 2, 1, 2, 1]);
}

/// Document 02, A.6: "Alike now means equal N and k; the same region and stop mark
/// for each plugin, and the same validity for each that holds a ticket; and the
/// same order among tickets not yet valid."
#[test]
fn alike() {
    let gate = Gate::open(3, 1).unwrap();
    assert!(gate.alike(&gate));
    assert!(!gate.alike(&Gate::open(4, 1).unwrap()));
    assert!(!gate.alike(&Gate::open(3, 2).unwrap()));

    let after = |k, calls| {
        let mut gate = Gate::open(3, k).unwrap();
        run(&mut gate, calls);
        gate
    };
    let judge = |k, one, other| {
        let (first, second) = (after(k, one), after(k, other));
        assert_eq!(first.alike(&second), second.alike(&first));
        first.alike(&second)
    };
    // Other tickets, of other colours: a turn or more was handed back before.
    assert!(judge(1, "T1 T2 T3", "T1 B1 T1 T2 T3"));
    assert!(judge(1, "T1 T2 T3", "T2 B2 T3 B3 T1 B1 T1 T2 T3"));
    assert_ne!(after(1, "T1 T2 T3"), after(1, "T1 B1 T1 T2 T3"));
    // Another order, among tickets not yet valid and among valid ones.
    assert!(!judge(1, "T1 T2 T3", "T1 T3 T2"));
    assert!(judge(2, "T1 T2 T3", "T2 T1 T3"));
    // Another validity, another stop mark, another region.
    assert!(!judge(1, "T1 T2", "T2 T1"));
    assert!(!judge(1, "T1", "T1 S2"));
    assert!(!judge(1, "T1", "T1 L1"));
}

/// The same plugins wait and are inside whatever the year: gates of the two years are
/// alike after the same calls, though no ticket is the same.
#[test]
fn alike_in_both_years() {
    let both = |calls: &str| {
        let [mut early, mut late] =
            [Year::Y1979, Year::Y1989].map(|year| Gate::open_year(year, 4, 2).unwrap());
        run(&mut early, calls);
        run(&mut late, calls);
        (early, late)
    };
    let calls = "T3 T1 L3 T2 T4 S2 B3 L1 W2 B1 L2 T3 B2 B4 T1";
    for (end, _) in calls.match_indices(' ') {
        let (early, late) = both(&calls[..end]);
        assert!(
            early.alike(&late) && late.alike(&early),
            "{}",
            &calls[..end]
        );
        assert_ne!(early, late);
        let other = both(&calls[..calls.rfind(' ').unwrap()]).1;
        assert_eq!(early.alike(&other), late.alike(&other));
    }
}

#[test]
fn numbers_of_refusals() {
    let numbers: Vec<_> = Refusal::ALL
        .iter()
        .map(|refusal| refusal.number())
        .collect();
    assert_eq!(numbers, [1, 2, 3, 4, 5, 6, 7, 9, 10, 11]);
    let of_numbers: Vec<_> = (0..=u8::MAX).filter_map(Refusal::of_number).collect();
    assert_eq!(of_numbers, Refusal::ALL);
    assert_eq!(Refusal::of_number(0), None);
    assert_eq!(Refusal::of_number(8), None);
    let error: Box<dyn std::error::Error> = Box::new(Refusal::Stopped);
    assert_eq!(error.to_string(), "the plugin is stopped");
}
