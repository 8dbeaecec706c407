//! Document 02, A.8, "The 1979 block": the opening, the steps at the end of a block, what
//! is sound, and how gates open, by the gate and by the proved calls.

use compare::fast;
use compare::forms::{Calls, Form};
use compare::gate::steps::{self, Block};
use compare::gate::{self, Answer, Colour, PluginList, Rule, Slot, Ticket, Value, Words};
use compare::gate::{sound, sound_plainly, IDLE, INSIDE, WAITING};
use compare::proved;
use compare::queue::{Queue, Reply};
use compare::random::states::{legal_call, State};
use compare::random::Random;

/// "Under 1979 the block size is N, values run 1 to N". For k 1 and k N − 1 it is that of
/// 1989, and for no other k.
#[test]
fn blocks() {
    for n in 2..=64 {
        for k in 1..n {
            let [early, late] =
                [1979, 1989].map(|year| Block::of(&steps::opening(year, n, k as u8)));
            assert_eq!(
                (early.first, early.size, early.last()),
                (1, n.into(), n.into())
            );
            let size = 1 + u32::from(k.max(n - k));
            assert_eq!((late.first, late.size, late.last()), (0, size, size - 1));
            assert_eq!(early.size == late.size, k == 1 || k == n - 1);
        }
    }
}

/// "This request's start is ISSUE 1/0 and VALID (k + 1)/0", the count of colour 0 is k,
/// "idle records keep 0".
#[test]
fn opening() {
    let mut list = PluginList::idle(7);
    list.values.fill(5);
    let reply = gate::open(1979, 7, 3, &mut list.lend());
    let mut wanted = Words {
        year: 1979,
        n: 7,
        k: 3,
        issue: Ticket::new(1, 0),
        valid: Ticket::new(4, 0),
        ..Words::ZERO
    };
    wanted.counts[0] = 3;
    wanted.free[..3].copy_from_slice(&[1, 2, 3]);
    assert_eq!((reply.answer, reply.words), (Answer::Done, wanted));
    assert_eq!(list, PluginList::idle(7));
}

/// What a call left: its letter, plugin and number, the ticket that it answered, ISSUE
/// and VALID.
type Row = (u8, u64, u8, (u16, u8), (u16, u8), (u16, u8));

/// Every word and every record by hand: N 4, k 2, of which 1989's block has 3 tickets.
#[test]
fn by_hand() {
    let rows: [Row; 12] = [
        (b'T', 1, 0, (2, 0), (2, 0), (3, 0)),
        (b'T', 2, 0, (3, 0), (3, 0), (3, 0)),
        (b'T', 3, 0, (4, 0), (4, 0), (3, 0)),
        // "a new block's 1 follows N"; ISSUE leads, so it has a new colour.
        (b'T', 4, 0, (1, 1), (1, 1), (3, 0)),
        (b'T', 4, 6, (0, 0), (1, 1), (3, 0)),
        (b'L', 1, 0, (0, 0), (1, 1), (3, 0)),
        (b'B', 3, 9, (0, 0), (1, 1), (3, 0)),
        (b'B', 1, 0, (0, 0), (1, 1), (4, 0)),
        // VALID does not lead: it follows into ISSUE's block.
        (b'B', 2, 0, (0, 0), (1, 1), (1, 1)),
        (b'L', 4, 0, (0, 0), (1, 1), (1, 1)),
        (b'T', 1, 0, (2, 1), (2, 1), (1, 1)),
        (b'B', 3, 0, (0, 0), (2, 1), (2, 1)),
    ];
    let mut state: State = (steps::opening(1979, 4, 2), PluginList::idle(4));
    for (letter, p, number, ticket, issue, valid) in rows {
        let reply = gate::by_letter(letter)(&state.0, &mut state.1.lend(), p);
        state.0 = reply.words;
        let at = format!("{} {p}", char::from(letter));
        assert_eq!(reply.number(), number, "{at}");
        let of = |(value, colour)| Ticket::new(value, colour);
        assert_eq!(reply.answer.ticket(), of(ticket), "{at}");
        assert_eq!(
            (state.0.issue, state.0.valid),
            (of(issue), of(valid)),
            "{at}"
        );
    }
    let (words, list) = state;
    assert_eq!((words.year, &words.counts[..4]), (1979, &[0, 2, 0, 0][..]));
    assert_eq!(&words.free[..3], [1, 0, 0]);
    assert_eq!(list.regions, [WAITING, IDLE, IDLE, INSIDE]);
    assert_eq!(list.values, [2, 0, 0, 1]);
    assert_eq!(
        (list.colours, list.slots),
        (vec![1, 0, 0, 1], vec![0, 0, 0, 2])
    );
}

/// The run of 1979 that `crates/model/specs/Table.antt` has, with the answers in full. The
/// last look is a yes by the count of colour 0.
#[test]
fn worked_table() {
    let taken = |value, colour| Answer::Ticket(Ticket::new(value, colour));
    let yes = |slot, value, valid| {
        let rule = Rule::NotAbove(Value(value), Value(valid));
        Answer::Yes(Slot(slot), rule)
    };
    let rows = [
        (b'T', 1, taken(2, 0), "2/0 3/0"),
        (b'T', 2, taken(3, 0), "3/0 3/0"),
        (b'T', 3, taken(4, 0), "4/0 3/0"),
        (b'T', 4, taken(1, 1), "1/1 3/0"),
        (b'L', 1, yes(1, 2, 3), "1/1 3/0"),
        (
            b'L',
            3,
            Answer::No(Rule::Above(Value(4), Value(3))),
            "1/1 3/0",
        ),
        (b'P', 4, Answer::Place(2), "1/1 3/0"),
        (b'B', 1, Answer::Done, "1/1 4/0"),
        (b'L', 3, yes(2, 4, 4), "1/1 4/0"),
        (b'B', 3, Answer::Done, "1/1 1/1"),
        (b'T', 1, taken(2, 1), "2/1 1/1"),
        (b'L', 4, yes(1, 1, 1), "2/1 1/1"),
        (b'B', 4, Answer::Done, "2/1 2/1"),
        (
            b'L',
            2,
            Answer::Yes(Slot(2), Rule::Counted(Colour(0), 1)),
            "2/1 2/1",
        ),
    ];
    let opened: State = (steps::opening(1979, 4, 2), PluginList::idle(4));
    let mut by_proved = [opened.clone(), opened.clone()];
    let mut state = opened;
    for (letter, p, answer, left) in rows {
        let reply = gate::by_letter(letter)(&state.0, &mut state.1.lend(), p);
        state.0 = reply.words;
        let at = format!("{} {p}", char::from(letter));
        assert_eq!(reply.answer, answer, "{at}");
        assert_eq!(format!("{} {}", state.0.issue, state.0.valid), left, "{at}");
        for (form, own) in [Form::Slices, Form::Records].iter().zip(&mut by_proved) {
            let made = form.call(letter, p, own).unwrap();
            assert_eq!(proved::answer(made.shown), Some(answer), "{at}");
            *own = made.left;
            assert_eq!(*own, state, "{at}");
        }
    }
}

/// Places in 1979's block: at N 4, k 2 the ticket 1/1 is two places after 3/0, with 4/0
/// between them.
#[test]
fn distances() {
    let place = |valid, ticket: (u16, u8)| {
        let mut words = steps::opening(1979, 4, 2);
        words.valid = Ticket::new(valid, 0);
        steps::place(&words, Ticket::new(ticket.0, ticket.1))
    };
    assert_eq!(place(3, (4, 0)), 1);
    assert_eq!(place(3, (1, 1)), 2);
    assert_eq!(place(4, (1, 1)), 1);
    assert_eq!(place(2, (1, 1)), 3);
    assert_eq!(place(3, (3, 0)), 0);
}

fn judged((words, list): &State) -> bool {
    let mut list = list.clone();
    let lent = &list.lend();
    let plainly = sound_plainly(words, lent);
    assert_eq!(sound(words, lent), plainly, "{words:?}");
    assert_eq!(fast::sound(words, lent), plainly, "{words:?}");
    plainly
}

/// "Words of another year, or of 1979 with k not below N, are not sound." Values are 1 to
/// N, and an idle record's 0.
#[test]
fn soundness() {
    // N 4, k 2 after T 1, T 2: the tickets 2/0 and 3/0.
    let mut words = steps::opening(1979, 4, 2);
    words.issue = Ticket::new(3, 0);
    let mut list = PluginList::idle(4);
    for (i, value) in [(0, 2), (1, 3)] {
        let ticket = Ticket::new(value, 0);
        list.lend().set(i, WAITING, ticket, Slot::default());
    }
    let right = (words, list);
    assert!(judged(&right));
    let broken = |change: &dyn Fn(&mut Words, &mut PluginList)| {
        let mut state = right.clone();
        change(&mut state.0, &mut state.1);
        assert!(!judged(&state), "{state:?}");
    };
    for year in [0, 1978, 1980, 1988, 1989, 1990, u16::MAX] {
        broken(&|words, _| words.year = year);
    }
    // A held 0, an idle 1, and a value above N; and the words' values.
    broken(&|_, list| list.values[0] = 0);
    broken(&|_, list| list.values[2] = 1);
    broken(&|_, list| list.values[1] = 5);
    broken(&|words, _| words.issue.value.0 = 0);
    broken(&|words, _| words.issue.value.0 = 5);
    broken(&|words, _| words.valid.value.0 = 0);
    broken(&|words, _| words.valid.value.0 = 5);
    broken(&|words, _| words.counts[0] = 3);
    // 1/0 was never handed out, but a holder of it keeps the rules.
    let mut other = right.clone();
    other.1.values[0] = 1;
    assert!(judged(&other));
    // The report's own start is sound too: the first ticket is then 1/0.
    let mut start = steps::opening(1979, 4, 2);
    (start.issue, start.valid) = (Ticket::new(4, 1), Ticket::new(2, 0));
    assert!(judged(&(start, PluginList::idle(4))));
    assert_eq!(steps::take(&start).issue, Ticket::new(1, 0));

    // N 2, k 2: one holds 1/0, the spare ticket is 2/0. Of 1989 this is sound.
    let mut words = Words {
        issue: Ticket::new(1, 0),
        ..steps::opening(1989, 2, 2)
    };
    let mut list = PluginList::idle(2);
    let held = Ticket::new(1, 0);
    list.lend().set(1, WAITING, held, Slot::default());
    assert!(judged(&(words, list.clone())));
    words.year = 1979;
    assert!(!judged(&(words, list)));
}

/// "another year is refused as 1"; "10, open for 1979 with k not below N, after 1"; then
/// 2: every small N, k, year and length, by the gate and by the proved calls.
#[test]
fn opens() {
    let sizes = [0, 1, 2, 3, 4, 5, 64, 65, 1024, 1025];
    let years = [0, 1, 1978, 1979, 1980, 1988, 1989, 1990, 65_535];
    let far = [(1 << 16) + 1979, (1 << 32) + 1989, u64::MAX];
    let mut given = [0; 11];
    for (n, k) in sizes.iter().flat_map(|&n| sizes.map(|k| (n, k))) {
        for year in years.into_iter().chain(far) {
            for length in [0, 2, 3, 4, n as usize] {
                let in_range = (1..=1024).contains(&n) && (1..=64).contains(&k);
                let number = match year {
                    1979 | 1989 if !in_range => 1,
                    1979 if k >= n => 10,
                    1979 | 1989 if length as u64 != n => 2,
                    1979 | 1989 => 0,
                    _ => 1,
                };
                given[usize::from(number)] += 1;
                let list = PluginList::idle(length);
                let mut left = list.clone();
                let reply = gate::open(year, n, k, &mut left.lend());
                let at = format!("{year}, N {n}, k {k}, length {length}");
                assert_eq!(reply.number(), number, "{at}");
                match number {
                    0 => assert_eq!(u64::from(reply.words.year), year),
                    _ => assert_eq!((reply.words, &left), (Words::ZERO, &list)),
                }
                for form in [Form::Slices, Form::Records] {
                    let made = form.open(year, n, k, &list).unwrap();
                    assert_eq!(made.shown, proved::shown(reply.answer), "{at}");
                    assert_eq!(made.left, (reply.words, left.clone()), "{at}");
                }
            }
        }
    }
    assert!(
        [0, 1, 2, 10].iter().all(|&number| given[number] > 50),
        "{given:?}"
    );
}

/// Small gates of 1979 against the queue, which does not look at the year: every number,
/// yes or no and place; and which tickets are valid.
#[test]
fn the_queue() {
    let mut random = Random::new(1979);
    let mut seen = [false; 6];
    for (n, k) in (2..=6).flat_map(|n| (1..n).map(move |k| (n, k))) {
        let mut state = (steps::opening(1979, n, k as u8), PluginList::idle(n.into()));
        let mut queue = Queue::open(n.into(), k.into());
        for _ in 0..3_000 {
            let (letter, p) = legal_call(&mut random, &state);
            let reply = gate::by_letter(letter)(&state.0, &mut state.1.lend(), p);
            state.0 = reply.words;
            let q = p as usize;
            let said = match letter {
                b'T' => queue.take(q),
                b'L' => queue.look(q),
                b'B' => queue.leave(q),
                b'P' => queue.place(q),
                b'S' => queue.stop(q),
                _ => queue.wake(q),
            };
            let wanted = match said {
                Reply::Done => (0, false, 0),
                Reply::YesNo(yes) => (0, yes, 0),
                Reply::Place(place) => (0, false, place as u16),
                Reply::Refused(number) => (number, false, 0),
            };
            let answer = reply.answer;
            assert_eq!((answer.number(), answer.yes(), answer.place()), wanted);
            assert!(sound(&state.0, &state.1.lend()));
            for i in (0..n.into()).filter(|&i| state.1.regions[i] != IDLE) {
                let valid = steps::valid(&state.0, state.1.ticket(i));
                assert_eq!(valid, queue.among_first(i + 1), "N {n}, k {k}");
                assert!((1..=n).contains(&state.1.values[i]));
            }
            seen[usize::from(state.0.issue.colour.0)] = true;
        }
    }
    assert_eq!(seen, [true; 6]);
}
