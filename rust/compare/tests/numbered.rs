//! Document 02, A.9, "The numbered gate as an engine": by hand, beside the gate of 1989 and
//! the queue over whole runs, at the end of the counters, what is sound, and the faults that
//! the comparison of single calls must find.

use compare::check::feed;
use compare::faults::{Fault, FaultyHost, FIVE};
use compare::gate::{IDLE, INSIDE, WAITING};
use compare::numbered::beside::{review, NumberedHost};
use compare::numbered::calls::{compare, Calls, Own, Tally};
use compare::numbered::faults::{Fault as NumberedFault, Faulty};
use compare::numbered::proved::Proved;
use compare::numbered::states::{legal_call, move_up, reached};
use compare::numbered::{call, open, sound, sound_but_for};
use compare::numbered::{Answer, Clause, PluginList, State, Words, GREATEST};
use compare::queue::{Queue, Region, Reply};
use compare::random::{schedules, Random};
use compare::schedule::{next_call, Call, Next};
use compare::transcript::GateHost;

use Answer::{Done, Place, Refused, Ticket, YesNo};

fn words(n: u16, k: u8, issue: u64, valid: u64) -> Words {
    Words { n, k, issue, valid }
}

/// Records, each with its region, mark and ticket.
fn list(records: &[(u8, u8, u64)]) -> PluginList {
    PluginList {
        regions: records.iter().map(|record| record.0).collect(),
        marks: records.iter().map(|record| record.1).collect(),
        tickets: records.iter().map(|record| record.2).collect(),
    }
}

fn is_sound((words, list): &State) -> bool {
    sound(words, &list.clone().lend())
}

/// Calls by hand: each with its answer, and ISSUE and VALID after it.
fn check(calls: &dyn Calls, state: &mut State, rows: &[(u8, u64, Answer, u64, u64)]) {
    for (i, &(letter, p, answer, issue, valid)) in rows.iter().enumerate() {
        let at = format!("row {}: {} {p}", i + 1, char::from(letter));
        let before = state.clone();
        let made = calls.call(letter, p, state);
        assert_eq!(made.answer, answer, "{at}");
        if let Some(by_name) = calls.by_name(letter, p, state) {
            assert_eq!(by_name, made, "{at}");
        }
        *state = made.left;
        assert_eq!((state.0.issue, state.0.valid), (issue, valid), "{at}");
        if answer.number() != 0 {
            assert_eq!(*state, before, "{at}");
        }
    }
}

/// By our own gate and by the proved one.
const BOTH: [&dyn Calls; 2] = [&Own, &Proved];

/// Document 01's whole case, with numbers in the place of coloured tickets.
#[test]
fn whole_case() {
    for calls in BOTH {
        let mut state = calls.open(3, 1, &PluginList::idle(3)).left;
        assert_eq!(state.0, words(3, 1, 0, 1));
        let rows = [
            (b'T', 1, Ticket(1), 1, 1),
            (b'T', 2, Ticket(2), 2, 1),
            (b'L', 2, YesNo(false), 2, 1),
            (b'T', 3, Ticket(3), 3, 1),
            (b'L', 1, YesNo(true), 3, 1),
            (b'L', 3, YesNo(false), 3, 1),
            (b'B', 1, Done, 3, 2),
            (b'L', 2, YesNo(true), 3, 2),
            (b'B', 2, Done, 3, 3),
            (b'T', 3, Refused(6), 3, 3),
            (b'L', 3, YesNo(true), 3, 3),
            (b'B', 3, Done, 3, 4),
        ];
        check(calls, &mut state, &rows);
        assert_eq!(state.1, PluginList::idle(3));
    }
}

/// Places, turns handed back, stops, and the refusals from 4 on, each before those after it.
#[test]
fn refusals_by_hand() {
    for calls in BOTH {
        let mut state = calls.open(4, 2, &PluginList::idle(4)).left;
        let rows = [
            (b'T', 4, Ticket(1), 1, 2),
            (b'T', 3, Ticket(2), 2, 2),
            (b'T', 2, Ticket(3), 3, 2),
            (b'T', 1, Ticket(4), 4, 2),
            (b'P', 3, Place(0), 4, 2),
            (b'P', 2, Place(1), 4, 2),
            (b'P', 1, Place(2), 4, 2),
            (b'T', 0, Refused(4), 4, 2),
            (b'T', 5, Refused(4), 4, 2),
            (b'T', u64::MAX, Refused(4), 4, 2),
            (b'B', 2, Refused(9), 4, 2),
            (b'B', 3, Done, 4, 3),
            (b'B', 3, Refused(6), 4, 3),
            (b'L', 3, Refused(6), 4, 3),
            (b'P', 3, Refused(6), 4, 3),
            (b'W', 1, Refused(7), 4, 3),
            (b'S', 1, Done, 4, 3),
            (b'S', 1, Refused(5), 4, 3),
            (b'T', 1, Refused(5), 4, 3),
            (b'L', 1, Refused(5), 4, 3),
            (b'B', 1, Refused(5), 4, 3),
            (b'P', 1, Refused(5), 4, 3),
            (b'W', 1, Done, 4, 3),
            (b'L', 2, YesNo(true), 4, 3),
            (b'P', 2, Refused(6), 4, 3),
            (b'X', 2, Refused(8), 4, 3),
        ];
        check(calls, &mut state, &rows);
        let wanted = list(&[(1, 0, 4), (2, 0, 3), (0, 0, 0), (1, 0, 1)]);
        assert_eq!(state.1, wanted);
    }
}

/// Open: 1, then 2; a refused one gives words that are all 0 and leaves the list.
#[test]
fn opens() {
    let used = list(&[(2, 1, 9), (3, 2, 8), (1, 0, 7)]);
    for calls in BOTH {
        for (n, k, number) in [
            (0, 1, 1),
            (1025, 1, 1),
            (3, 0, 1),
            (3, 65, 1),
            (4, 65, 1),
            (65_539, 1, 1),
            (2, 1, 2),
            (4, 64, 2),
            (3, 1, 0),
            (3, 64, 0),
        ] {
            let made = calls.open(n, k, &used);
            assert_eq!(made.answer.number(), number, "open {n} {k}");
            let wanted = match number {
                0 => (words(3, k as u8, 0, k), PluginList::idle(3)),
                _ => (Words::ZERO, used.clone()),
            };
            assert_eq!(made.left, wanted, "open {n} {k}");
        }
        let mut uneven = PluginList::idle(3);
        uneven.tickets.push(0);
        assert_eq!(calls.open(3, 1, &uneven).answer, Refused(2));
    }
}

/// "11 ... last in take and leave": the last ticket is handed out and made valid, and then
/// nothing would raise a counter; 4, 5, 6 and 9 come before it.
#[test]
fn end_of_the_counters() {
    let last = GREATEST;
    for calls in BOTH {
        let mut state = (
            words(2, 1, last - 1, last - 2),
            list(&[(2, 0, last - 2), (1, 0, last - 1)]),
        );
        let rows = [
            (b'B', 1, Done, last - 1, last - 1),
            (b'T', 1, Ticket(last), last, last - 1),
            (b'T', 1, Refused(6), last, last - 1),
            (b'T', 0, Refused(4), last, last - 1),
            (b'B', 1, Refused(9), last, last - 1),
            (b'P', 1, Place(1), last, last - 1),
            (b'B', 2, Done, last, last),
            (b'T', 2, Refused(11), last, last),
            (b'B', 2, Refused(6), last, last),
            (b'P', 1, Place(0), last, last),
            (b'B', 1, Refused(11), last, last),
            (b'L', 1, YesNo(true), last, last),
            (b'T', 1, Refused(6), last, last),
            (b'B', 1, Refused(11), last, last),
            (b'S', 1, Done, last, last),
            (b'B', 1, Refused(5), last, last),
            (b'S', 2, Done, last, last),
            (b'T', 2, Refused(5), last, last),
            (b'W', 2, Done, last, last),
            (b'T', 2, Refused(11), last, last),
        ];
        check(calls, &mut state, &rows);
    }
}

/// VALID ahead at the end: takes go on, and leaves are refused; 9 can't come before a leave's
/// 11 then, for no ticket is above VALID.
#[test]
fn valid_at_its_end() {
    for calls in BOTH {
        let start = (
            words(3, 2, GREATEST - 1, GREATEST),
            list(&[(2, 0, GREATEST - 1), (0, 0, 0), (0, 0, 0)]),
        );
        let mut state = start.clone();
        let rows = [
            (b'B', 1, Refused(11), GREATEST - 1, GREATEST),
            (b'B', 2, Refused(6), GREATEST - 1, GREATEST),
            (b'T', 2, Ticket(GREATEST), GREATEST, GREATEST),
            (b'T', 3, Refused(11), GREATEST, GREATEST),
            (b'L', 2, YesNo(true), GREATEST, GREATEST),
            (b'B', 2, Refused(11), GREATEST, GREATEST),
        ];
        check(calls, &mut state, &rows);
    }
}

/// 11 comes only where a counter that would be raised is the greatest number, and changes
/// nothing; a call that is accepted leaves what is sound. On states at and near the end.
#[test]
fn eleven_only_at_the_end() {
    let mut random = Random::new(911);
    let mut met = [0; 12];
    for _ in 0..1_000 {
        let mut state = reached(&mut random);
        for _ in 0..20 {
            assert!(is_sound(&state), "{state:?}");
            let (letter, p) = legal_call(&mut random, &state);
            let made = Own.call(letter, p, &state);
            met[usize::from(made.answer.number())] += 1;
            let at_end = match letter {
                b'T' => state.0.issue == GREATEST,
                b'B' => state.0.valid == GREATEST,
                _ => false,
            };
            match made.answer {
                Refused(11) => assert!(at_end && made.left == state),
                Refused(_) => assert_eq!(made.left, state),
                _ => assert!(!at_end),
            }
            state = made.left;
        }
    }
    assert!(met[0] > 5_000 && met[11] > 100, "{met:?}");
}

/// A state that calls reach is sound however far up all its numbers are moved, and answers the
/// same but for 11 and the numbers.
#[test]
fn moved_up() {
    let mut random = Random::new(64);
    for by in [1, 1 << 32, 1 << 63, GREATEST - 10_000] {
        let mut list = PluginList::idle(5);
        let words = open(5, 2, &mut list.lend()).words;
        let mut low = (words, list);
        let mut high = low.clone();
        move_up(&mut high, by);
        for _ in 0..500 {
            let (letter, p) = legal_call(&mut random, &low);
            let (made, above) = (Own.call(letter, p, &low), Own.call(letter, p, &high));
            let wanted = match made.answer {
                Ticket(ticket) => Ticket(ticket + by),
                other => other,
            };
            assert_eq!(above.answer, wanted);
            (low, high) = (made.left, above.left);
            let mut moved = low.clone();
            move_up(&mut moved, by);
            assert_eq!(high, moved);
        }
    }
}

/// The calls of an input, as far as it is read.
fn calls_of(mut part: &[u8]) -> Vec<Call> {
    let mut calls = Vec::new();
    while let (Next::Call(call), rest) = next_call(part) {
        calls.push(call);
        part = rest;
    }
    calls
}

/// "Given the same open and calls, it answers as the 1989 gate, tickets, slots and rules left
/// aside": every number, yes or no, place, region and stop mark; "the coloured value of ISSUE,
/// VALID and each ticket is the number's remainder by M".
#[test]
fn beside_the_gate_of_1989() {
    let mut seeds = Random::new(9);
    let (mut calls, mut blocks) = (0, 0);
    for i in 0..300 {
        let input = schedules::input(&mut Random::new(seeds.number()));
        let review = review(&input, &Own, &mut GateHost::default());
        assert_eq!(review.parted, Vec::<String>::new(), "schedule {i}");
        calls += review.calls;
        blocks += u64::from(review.lines.iter().any(|line| line.ends_with("/2")));
    }
    assert!(calls > 50_000 && blocks > 50, "{calls} {blocks}");
}

/// And as the plain queue, with the same regions and marks, each ticket valid just when its
/// holder is among the first k.
#[test]
fn is_the_queue() {
    let mut seeds = Random::new(10);
    let mut fed = 0;
    for _ in 0..150 {
        let input = schedules::input(&mut Random::new(seeds.number()));
        let mut host = NumberedHost::new(&Own);
        let mut queue = None;
        for call in calls_of(&input) {
            let answer = host.perform(call);
            if let (Call::Open(n, k), 0) = (call, answer.number()) {
                queue = Some(Queue::open(n.into(), k.into()));
            }
            let Some(queue) = &mut queue else { continue };
            if call.of_plugin().is_some() {
                let wanted = match feed(queue, call) {
                    Reply::Done => (0, false, 0),
                    Reply::YesNo(yes) => (0, yes, 0),
                    Reply::Place(place) => (0, false, place as u64),
                    Reply::Refused(number) => (number, false, 0),
                };
                let given = (answer.number(), answer.yes(), answer.place());
                assert_eq!(given, wanted, "{call}");
                fed += 1;
            }
            let (words, list) = &host.state;
            let mut among_first = vec![false; queue.n];
            for &p in queue.row.iter().take(queue.k) {
                among_first[p - 1] = true;
            }
            for p in 1..=queue.n {
                let region = match queue.region(p) {
                    Region::Idle => IDLE,
                    Region::Waiting => WAITING,
                    Region::Inside => INSIDE,
                };
                assert_eq!(list.regions[p - 1], region, "{call}");
                assert_eq!(list.marks[p - 1], u8::from(queue.stopped(p)), "{call}");
                let valid = region != IDLE && list.tickets[p - 1] <= words.valid;
                assert_eq!(valid, among_first[p - 1], "{call}");
            }
        }
    }
    assert!(fed > 20_000, "{fed}");
}

/// For each clause words and a list that nothing but this clause excludes.
#[test]
fn what_is_sound() {
    let cases = [
        (Clause::Sizes, words(0, 1, 0, 1), list(&[])),
        (Clause::Sizes, words(1, 65, 0, 65), list(&[(0, 0, 0)])),
        (Clause::Regions, words(1, 1, 1, 1), list(&[(3, 0, 1)])),
        (Clause::Marks, words(1, 1, 0, 1), list(&[(0, 2, 0)])),
        (Clause::Idle, words(1, 1, 0, 1), list(&[(0, 0, 1)])),
        (
            Clause::Distinct,
            words(2, 2, 1, 1),
            list(&[(2, 0, 1), (2, 0, 1)]),
        ),
        (Clause::Issued, words(1, 3, 0, 2), list(&[(2, 0, 1)])),
        // Only with more records than N.
        (
            Clause::Lead,
            words(1, 1, 2, 1),
            list(&[(2, 0, 1), (1, 0, 2)]),
        ),
        (
            Clause::Awaited,
            words(2, 1, 2, 1),
            list(&[(2, 0, 1), (2, 0, 2)]),
        ),
        (
            Clause::NumberK,
            words(2, 2, 1, 1),
            list(&[(2, 0, 1), (0, 0, 0)]),
        ),
        (Clause::ValidHeld, words(1, 1, 2, 2), list(&[(2, 0, 1)])),
    ];
    for (broken, words, mut list) in cases {
        let list = list.lend();
        for clause in Clause::ALL {
            assert_eq!(clause.holds(&words, &list), clause != broken, "{broken:?}");
        }
    }
}

/// No sentence forbids a ticket 0 that is held, nor counters that are far up.
#[test]
fn sound_though_no_run_reaches_it() {
    for at in [0, 1, 1 << 40, GREATEST] {
        let held = (words(1, 1, at, at), list(&[(1, 0, at)]));
        assert!(is_sound(&held));
    }
    let spread = [(2, 0, 3), (2, 0, GREATEST - 1), (1, 1, GREATEST)];
    assert!(is_sound(&(
        words(3, 2, GREATEST, GREATEST - 1),
        list(&spread)
    )));
}

/// Where the list has N records the lead's bounds follow from the other clauses: all words of
/// N and k up to 3, counters up to 6, and all lists. A lead of any size is met.
#[test]
fn bounds_of_the_lead_follow() {
    let mut sounds = 0;
    for n in 1..=3u16 {
        let records: Vec<(u8, u64)> = (0..=2).flat_map(|r| (0..=6).map(move |t| (r, t))).collect();
        for code in 0..records.len().pow(n.into()) {
            let each = (0..n).map(|i| {
                let (region, ticket) = records[code / records.len().pow(i.into()) % records.len()];
                (region, 0, ticket)
            });
            let mut list = list(&each.collect::<Vec<_>>());
            if !Clause::Idle.holds(&Words::ZERO, &list.lend()) {
                continue;
            }
            for (k, issue, valid) in (1..=3)
                .flat_map(|k| (0..=6).map(move |issue| (k, issue)))
                .flat_map(|(k, issue)| (0..=6).map(move |valid| (k, issue, valid)))
            {
                let words = words(n, k, issue, valid);
                let lent = list.lend();
                let without = sound_but_for(Some(Clause::Lead), &words, &lent);
                assert_eq!(without, sound(&words, &lent), "{words:?} {list:?}");
                sounds += u64::from(without);
            }
        }
    }
    assert!(sounds > 1_000, "{sounds}");
}

/// No single call tells a gate without the lead's bounds from the right one; every other fault
/// is found, and soon.
#[test]
fn faults_are_found() {
    for fault in NumberedFault::ALL {
        let mut tally = Tally::default();
        let found = compare(&Faulty(fault), 1989, 300_000, &mut tally);
        assert!(found.is_err(), "{} is not found", fault.name());
    }
    let lead = Faulty(NumberedFault::Without(Clause::Lead));
    assert_eq!(compare(&lead, 1989, 50_000, &mut Tally::default()), Ok(()));
}

/// The single calls meet every number and every kind of state.
#[test]
fn single_calls_are_of_all_kinds() {
    let mut tally = Tally::default();
    assert_eq!(compare(&Own, 5, 100_000, &mut tally), Ok(()));
    let met = |number: usize| tally.numbers[number] > 50;
    assert!(
        [0, 1, 2, 3, 4, 5, 6, 7, 8, 9, 11].into_iter().all(met),
        "{tally:?}"
    );
    assert_eq!(tally.numbers[10], 0);
    assert!(
        tally.letters.iter().all(|&calls| calls > 1_000),
        "{tally:?}"
    );
    assert!(tally.at_end > 10_000 && tally.near_end > 1_000, "{tally:?}");
    assert!(tally.damaged > 10_000 && tally.unequal > 1_000, "{tally:?}");
    assert!(tally.opens > 1_000 && tally.more_slots > 1_000, "{tally:?}");
    assert_eq!(tally.most_plugins, 1024);
}

/// The proved calls against ours, by their letters and by functions of their own.
#[test]
fn proved_single_calls() {
    let mut tally = Tally::default();
    assert_eq!(compare(&Proved, 7, 100_000, &mut tally), Ok(()));
    assert_eq!(tally.by_name, tally.letters.iter().sum::<u64>());
    assert!(
        tally.letters.iter().all(|&calls| calls > 1_000),
        "{tally:?}"
    );
}

/// Coloured gates with a fault part from the numbered gate, and a review says where. A count
/// taken down first shows in colours alone, which are left aside.
#[test]
fn faulty_gates_part() {
    let shown = |fault: &Fault| *fault != Fault::CountDownFirst;
    for fault in FIVE.into_iter().filter(shown) {
        let mut seeds = Random::new(89);
        let parts = (0..2000).any(|_| {
            let input = schedules::input(&mut Random::new(seeds.number()));
            let mut coloured = FaultyHost::new(Some(fault));
            !review(&input, &Own, &mut coloured).parted.is_empty()
        });
        assert!(parts, "{}", fault.name());
    }
    let input = b"O 3 1\nT 1\nT 2\nP 2\n";
    let faulty = Faulty(NumberedFault::PlaceCountsItself);
    let review = review(input, &faulty, &mut GateHost::default());
    assert_eq!(review.parted, ["call 4, P 2: place 2, not 1"]);
    assert_eq!(
        call(b'P', &Words::ZERO, &mut list(&[]).lend(), 1).answer,
        Refused(3)
    );
}
