//! The calls on words and a list of records that a host keeps.

use slot_gate::{records, Answer, Call, Record, Refusal, Rule, Slot, Ticket, Value};
use slot_gate::{Verdict, Words, Year};

const NOISE: Record = Record::new(9, 9, Ticket::new(9, 9), Slot(9));

fn opened(n: usize, k: u64) -> (Words, Vec<Record>) {
    let mut list = vec![NOISE; n];
    let words = records::open(Year::Y1989, n as u64, k, &mut list).unwrap();
    (words, list)
}

/// "Else the words are as at opening, all records idle and unmarked." Document 02,
/// A.4: "at opening they lie in rising order".
#[test]
fn open_writes_all() {
    let (words, list) = opened(2, 64);
    let mut wanted = Words::ZERO;
    (wanted.year, wanted.n, wanted.k) = (1989, 2, 64);
    wanted.counts[0] = 64;
    wanted.valid = Ticket::new(64, 0);
    for (place, slot) in wanted.free.iter_mut().zip(1..) {
        *place = slot;
    }
    assert_eq!((words, list), (wanted, vec![Record::IDLE; 2]));
}

#[test]
fn refused_open_changes_nothing() {
    for length in [0, 2, 4, 1025] {
        let mut list = vec![NOISE; length];
        let wrong_length = records::open(Year::Y1989, 3, 1, &mut list);
        assert_eq!(wrong_length, Err(Refusal::WrongLength), "{length}");
        for (plugins, slots) in [(1025, 1), (0, 1), (3, 0), (3, 65)] {
            let out_of_range = records::open(Year::Y1989, plugins, slots, &mut list);
            assert_eq!(out_of_range, Err(Refusal::OutOfRange), "{length}");
        }
        assert_eq!(list, vec![NOISE; length]);
    }
}

/// Each kind of answer, and what each call leaves.
#[test]
fn answers() {
    let (mut words, mut list) = opened(3, 1);
    let mut make = |call, p| records::call(call, &mut words, &mut list, p);
    let ticket = |value, colour| Ok(Answer::Ticket(Ticket::new(value, colour)));
    assert_eq!(make(Call::Take, 1), ticket(1, 0));
    assert_eq!(make(Call::Take, 3), ticket(2, 0));
    assert_eq!(make(Call::Take, 2), ticket(0, 1));
    assert_eq!(make(Call::Place, 2), Ok(Answer::Place(2)));
    let (value, valid) = (Value(2), Value(1));
    let no = Verdict::No(Rule::Above { value, valid });
    assert_eq!(make(Call::Look, 3), Ok(Answer::Verdict(no)));
    let value = Value(1);
    let yes = Verdict::Yes(Slot(1), Rule::NotAbove { value, valid });
    assert_eq!(make(Call::Look, 1), Ok(Answer::Verdict(yes)));
    assert_eq!(make(Call::Look, 1), Err(Refusal::WrongRegion));
    assert_eq!(make(Call::Stop, 3), Ok(Answer::Done));
    assert_eq!(make(Call::Look, 3), Err(Refusal::Stopped));
    assert_eq!(make(Call::Leave, 1), Ok(Answer::Done));
    assert_eq!(make(Call::Wake, 1), Err(Refusal::NotStopped));
    assert_eq!(make(Call::Take, 4), Err(Refusal::NoSuchPlugin));
    assert_eq!(
        (words.issue, words.valid),
        (Ticket::new(0, 1), Ticket::new(2, 0))
    );
    let waiting = |mark, ticket| Record::new(1, mark, ticket, Slot(0));
    let left = [
        Record::IDLE,
        waiting(0, Ticket::new(0, 1)),
        waiting(1, Ticket::new(2, 0)),
    ];
    assert_eq!(list, left);
}

/// "2: the list's length differs from the word N. 3: not sound." More than 1,024
/// records are no list of a sound gate.
#[test]
fn wrong_lengths_and_words() {
    let (words, list) = opened(1024, 64);
    let longer = vec![Record::IDLE; 1025];
    let mut too_many = words;
    too_many.n = 1025;
    let mut marked = list.clone();
    marked[1023].mark = 2;
    let mut kept = list.clone();
    kept[1023].slot = Slot(64);
    let cases = [
        (words, longer.clone(), Refusal::WrongLength),
        (words, Vec::new(), Refusal::WrongLength),
        (too_many, longer, Refusal::NotSound),
        (too_many, Vec::new(), Refusal::WrongLength),
        (words, marked, Refusal::NotSound),
        (words, kept, Refusal::NotSound),
        (Words::ZERO, Vec::new(), Refusal::NotSound),
    ];
    for (words, list, refusal) in cases {
        for &call in Call::ALL {
            let (mut left, mut lent) = (words, list.clone());
            let given = records::call(call, &mut left, &mut lent, 1);
            assert_eq!(given, Err(refusal), "{call:?} on {} records", list.len());
            assert_eq!((left, &lent), (words, &list));
        }
    }
}

/// Document 02, A.4: the slot stands in the record while the plugin is inside.
#[test]
fn slots() {
    let (mut words, mut list) = opened(2, 3);
    let mut slots_after = |calls: &[(Call, u64)]| {
        for &(call, p) in calls {
            records::call(call, &mut words, &mut list, p).unwrap();
        }
        (list.clone(), words.free)
    };
    let slots = |list: &[Record]| -> Vec<u8> { list.iter().map(|record| record.slot.0).collect() };
    let enter = |p| [(Call::Take, p), (Call::Look, p)];
    let (list, free) = slots_after(&[enter(1), enter(2)].concat());
    assert_eq!((slots(&list), &free[..4]), (vec![1, 2], &[3, 0, 0, 0][..]));
    let (list, free) = slots_after(&[(Call::Leave, 1), (Call::Leave, 2)]);
    assert_eq!((slots(&list), &free[..4]), (vec![0, 0], &[3, 1, 2, 0][..]));
    let (list, free) = slots_after(&enter(1));
    assert_eq!((slots(&list), &free[..4]), (vec![3, 0], &[1, 2, 0, 0][..]));
}

/// Document 02, A.8: a gate of 1979 begins at 1/0 and its idle records keep 0; 1, then 10,
/// then 2; and words of another year are not sound.
#[test]
fn years() {
    let mut list = vec![NOISE; 4];
    let mut words = records::open(Year::Y1979, 4, 2, &mut list).unwrap();
    assert_eq!((words.year, &list[..]), (1979, &[Record::IDLE; 4][..]));
    assert_eq!(
        (words.issue, words.valid),
        (Ticket::new(1, 0), Ticket::new(3, 0))
    );
    let mut open = |year, k| records::open(year, 4, k, &mut list[..3]);
    assert_eq!(open(Year::Y1979, 0), Err(Refusal::OutOfRange));
    assert_eq!(open(Year::Y1979, 4), Err(Refusal::TooManySlots));
    assert_eq!(open(Year::Y1979, 3), Err(Refusal::WrongLength));
    assert_eq!(open(Year::Y1989, 4), Err(Refusal::WrongLength));
    for ticket in [(2, 0), (3, 0), (4, 0), (1, 1)].map(|(v, c)| Ticket::new(v, c)) {
        let p = list.iter().position(|record| record.region == 0).unwrap();
        let taken = records::call(Call::Take, &mut words, &mut list, p as u64 + 1);
        assert_eq!(taken, Ok(Answer::Ticket(ticket)));
        assert_eq!(list[p], Record::new(1, 0, ticket, Slot(0)));
    }
    let last = records::call(Call::Place, &mut words, &mut list, 4);
    assert_eq!(last, Ok(Answer::Place(2)));
    for year in [0, 1978, 1980, 1989, 1990, u16::MAX] {
        let mut other = Words { year, ..words };
        let given = records::call(Call::Look, &mut other, &mut list, 1);
        assert_eq!(given, Err(Refusal::NotSound), "{year}");
    }
}

#[test]
fn alike() {
    let (words, list) = opened(3, 1);
    let (mut other, mut other_list) = opened(3, 1);
    let mut alike = |call, p| {
        records::call(call, &mut other, &mut other_list, p).unwrap();
        let first = (&words, &list[..]);
        records::alike(first, (&other, &other_list))
    };
    assert_eq!(alike(Call::Stop, 2), Ok(false));
    assert_eq!(alike(Call::Wake, 2), Ok(true));
    assert_eq!(alike(Call::Take, 1), Ok(false));
    assert_eq!(alike(Call::Leave, 1), Ok(true));
    let (sound, short) = ((&words, &list[..]), (&words, &list[..2]));
    let no_gate = (&Words::ZERO, &list[..0]);
    assert_eq!(records::alike(sound, short), Err(Refusal::WrongLength));
    assert_eq!(records::alike(short, sound), Err(Refusal::WrongLength));
    assert_eq!(records::alike(no_gate, short), Err(Refusal::WrongLength));
    assert_eq!(records::alike(no_gate, sound), Err(Refusal::NotSound));
    assert_eq!(records::alike(sound, no_gate), Err(Refusal::NotSound));
}
