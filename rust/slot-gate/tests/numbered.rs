//! `NumberedGate` and the calls on lent words against document 02's A.9: the worked table in
//! numbers, each refusal by name, the end of the counters, and beside a `Gate`.

use slot_gate::numbered::{self, Answer, ListMut, Words};
use slot_gate::{Call, Gate, NumberedGate, Refusal, Region, Verdict};

/// A call's answer as a number: a ticket, yes or no, a place, or 0.
fn perform(gate: &mut NumberedGate, letter: char, p: u64) -> Result<u64, Refusal> {
    match letter {
        'T' => gate.take(p),
        'L' => gate.look(p).map(u64::from),
        'B' => gate.leave(p).map(|()| 0),
        'P' => gate.place(p),
        'S' => gate.stop(p).map(|()| 0),
        'W' => gate.wake(p).map(|()| 0),
        other => panic!("{other} names no call"),
    }
}

type Line = (char, u64, Result<u64, Refusal>, u64, u64);

/// Makes the calls, and compares each answer and ISSUE and VALID after it.
fn check(gate: &mut NumberedGate, lines: &[Line]) {
    for (i, &(letter, p, answer, issue, valid)) in lines.iter().enumerate() {
        let at = format!("line {}: {letter} {p}", i + 1);
        let before = gate.clone();
        assert_eq!(perform(gate, letter, p), answer, "{at}");
        assert_eq!((gate.issue(), gate.valid()), (issue, valid), "{at}");
        assert!(answer.is_ok() || *gate == before, "{at}");
    }
}

#[test]
fn worked_table() {
    let mut gate = NumberedGate::open(3, 1).unwrap();
    assert_eq!((gate.plugins(), gate.slots()), (3, 1));
    check(
        &mut gate,
        &[
            ('T', 1, Ok(1), 1, 1),
            ('T', 2, Ok(2), 2, 1),
            ('L', 2, Ok(0), 2, 1),
            ('T', 3, Ok(3), 3, 1),
            ('L', 1, Ok(1), 3, 1),
            ('L', 3, Ok(0), 3, 1),
            ('B', 1, Ok(0), 3, 2),
            ('L', 2, Ok(1), 3, 2),
            ('B', 2, Ok(0), 3, 3),
            ('T', 3, Err(Refusal::WrongRegion), 3, 3),
            ('L', 3, Ok(1), 3, 3),
            ('B', 3, Ok(0), 3, 4),
        ],
    );
    assert!((1..=3).all(|p| gate.region(p) == Some(Region::Idle)));
}

#[test]
fn refusals() {
    for (n, k) in [(0, 1), (1025, 1), (3, 0), (3, 65), (u64::MAX, 1)] {
        assert_eq!(NumberedGate::open(n, k), Err(Refusal::OutOfRange));
    }
    let mut gate = NumberedGate::open(3, 1).unwrap();
    check(
        &mut gate,
        &[
            ('T', 3, Ok(1), 1, 1),
            ('T', 1, Ok(2), 2, 1),
            ('P', 3, Ok(0), 2, 1),
            ('P', 1, Ok(1), 2, 1),
            ('T', 0, Err(Refusal::NoSuchPlugin), 2, 1),
            ('P', 4, Err(Refusal::NoSuchPlugin), 2, 1),
            ('B', 1, Err(Refusal::NotYetValid), 2, 1),
            ('B', 2, Err(Refusal::WrongRegion), 2, 1),
            ('P', 2, Err(Refusal::WrongRegion), 2, 1),
            ('L', 2, Err(Refusal::WrongRegion), 2, 1),
            ('W', 1, Err(Refusal::NotStopped), 2, 1),
            ('S', 1, Ok(0), 2, 1),
            ('S', 1, Err(Refusal::Stopped), 2, 1),
            ('T', 1, Err(Refusal::Stopped), 2, 1),
            ('L', 1, Err(Refusal::Stopped), 2, 1),
            ('B', 1, Err(Refusal::Stopped), 2, 1),
            ('P', 1, Err(Refusal::Stopped), 2, 1),
        ],
    );
    let told = |p| (gate.region(p), gate.is_stopped(p), gate.ticket(p));
    assert_eq!(told(1), (Some(Region::Waiting), Some(true), Some(2)));
    assert_eq!(told(2), (Some(Region::Idle), Some(false), None));
    assert_eq!([told(0), told(4), told(u64::MAX)], [(None, None, None); 3]);
}

/// A list of two plugins, lent to a call.
struct Lent {
    words: Words,
    regions: [u8; 2],
    marks: [u8; 2],
    tickets: [u64; 2],
}

impl Lent {
    fn call(&mut self, call: Call, p: u64) -> Result<Answer, Refusal> {
        let list = ListMut {
            regions: &mut self.regions,
            marks: &mut self.marks,
            tickets: &mut self.tickets,
        };
        numbered::call(call, &mut self.words, list, p)
    }

    fn left(&self) -> (Words, [u8; 2], [u8; 2], [u64; 2]) {
        (self.words, self.regions, self.marks, self.tickets)
    }
}

/// 11 is the last of the refusals, and changes nothing.
#[test]
fn end_of_the_counters() {
    let last = u64::MAX;
    let (issue, valid) = (last, last);
    let mut lent = Lent {
        words: Words {
            n: 2,
            k: 1,
            issue,
            valid,
        },
        regions: [2, 0],
        marks: [0, 0],
        tickets: [last, 0],
    };
    let before = lent.left();
    for (call, p, refusal) in [
        (Call::Take, 3, Refusal::NoSuchPlugin),
        (Call::Take, 1, Refusal::WrongRegion),
        (Call::Take, 2, Refusal::CounterAtEnd),
        (Call::Leave, 2, Refusal::WrongRegion),
        (Call::Leave, 1, Refusal::CounterAtEnd),
    ] {
        assert_eq!(lent.call(call, p), Err(refusal), "{call:?} {p}");
        assert_eq!(lent.left(), before);
    }
    lent.words.valid = last - 1;
    assert_eq!(lent.call(Call::Take, 2), Err(Refusal::NotSound));
    lent.words.n = 3;
    assert_eq!(lent.call(Call::Take, 2), Err(Refusal::WrongLength));
}

/// Opens on lent lists.
#[test]
fn open_on_lent_lists() {
    let (mut regions, mut marks, mut tickets) = ([2; 3], [1; 3], [9; 3]);
    let mut list = ListMut {
        regions: &mut regions,
        marks: &mut marks,
        tickets: &mut tickets,
    };
    for (n, k, refusal) in [(4, 65, Refusal::OutOfRange), (4, 1, Refusal::WrongLength)] {
        assert_eq!(numbered::open(n, k, list.lend()), Err(refusal));
        assert_eq!(list.tickets, [9; 3]);
    }
    let words = numbered::open(3, 2, list.lend()).unwrap();
    let (n, k, issue, valid) = (3, 2, 0, 2);
    assert_eq!(words, Words { n, k, issue, valid });
    assert_eq!((regions, marks, tickets), ([0; 3], [0; 3], [0; 3]));
}

/// The same calls on both: each answer is the same, and a ticket's value is its number's
/// remainder. Plugins take turns, and each fifth is stopped for a while.
#[test]
fn beside_a_gate() {
    for (n, k) in [(1, 1), (2, 1), (4, 2), (5, 8), (9, 3)] {
        let mut coloured = Gate::open(n, k).unwrap();
        let mut readable = NumberedGate::open(n, k).unwrap();
        let size = 1 + k.max(n.saturating_sub(k));
        for step in 0..4_000u64 {
            let p = 1 + step.wrapping_mul(0x9e37_79b9).rotate_left(17) % n;
            match (step / n) % 5 {
                0 | 3 => {
                    let number = readable.take(p);
                    let value = number.map(|number| number % size);
                    let wanted = coloured.take(p).map(|ticket| ticket.value.0.into());
                    assert_eq!(value, wanted);
                }
                1 => {
                    let yes = |verdict| matches!(verdict, Verdict::Yes(..));
                    assert_eq!(readable.look(p), coloured.look(p).map(yes));
                }
                2 => assert_eq!(readable.leave(p), coloured.leave(p)),
                _ if step % 7 == 0 => assert_eq!(readable.stop(p), coloured.stop(p)),
                _ => assert_eq!(readable.wake(p), coloured.wake(p)),
            }
            assert_eq!(readable.place(p), coloured.place(p).map(u64::from));
            assert_eq!(readable.region(p), coloured.region(p));
            assert_eq!(readable.is_stopped(p), coloured.is_stopped(p));
        }
        assert!(readable.issue() > 100, "{n} {k}: {}", readable.issue());
    }
}
