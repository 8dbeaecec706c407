//! The calls on words and number slices that a host keeps, where a `Gate` never
//! comes: lists of a wrong length and words that are not sound.

use slot_gate::lent::{self, ListMut, ListRef};
use slot_gate::{Answer, Call, Refusal, Rule, Slot, Ticket, Value, Verdict, Words, Year};

/// Five slices of these lengths, all 0.
#[derive(Clone, Debug, PartialEq, Eq)]
struct List(Vec<u8>, Vec<u8>, Vec<u16>, Vec<u8>, Vec<u8>);

impl List {
    fn of(lengths: [usize; 5]) -> List {
        let [regions, marks, values, colours, slots] = lengths;
        List(
            vec![0; regions],
            vec![0; marks],
            vec![0; values],
            vec![0; colours],
            vec![0; slots],
        )
    }

    fn lend(&mut self) -> ListMut<'_> {
        ListMut {
            regions: &mut self.0,
            marks: &mut self.1,
            values: &mut self.2,
            colours: &mut self.3,
            slots: &mut self.4,
        }
    }

    fn show(&self) -> ListRef<'_> {
        ListRef {
            regions: &self.0,
            marks: &self.1,
            values: &self.2,
            colours: &self.3,
            slots: &self.4,
        }
    }
}

fn opened() -> (Words, List) {
    let mut list = List::of([3; 5]);
    let words = lent::open(Year::Y1989, 3, 1, list.lend()).unwrap();
    (words, list)
}

/// The lists of which just one slice is longer or shorter than 3.
fn uneven() -> impl Iterator<Item = List> {
    (0..5).flat_map(|i| {
        [0, 2, 4].map(|length| {
            let mut lengths = [3; 5];
            lengths[i] = length;
            List::of(lengths)
        })
    })
}

/// "Else the words are as at opening, all records idle and unmarked." Document 02,
/// A.4: "at opening they lie in rising order", "0 after the last".
#[test]
fn open_writes_all() {
    let mut list = List::of([2; 5]);
    list.lend().regions.fill(9);
    list.lend().marks.fill(9);
    list.lend().values.fill(9);
    list.lend().colours.fill(9);
    list.lend().slots.fill(9);
    let words = lent::open(Year::Y1989, 2, 5, list.lend());
    let (mut counts, mut free) = ([0; 65], [0; 64]);
    counts[0] = 5;
    free[..5].copy_from_slice(&[1, 2, 3, 4, 5]);
    let wanted = Words {
        year: 1989,
        n: 2,
        k: 5,
        issue: Ticket::new(0, 0),
        valid: Ticket::new(5, 0),
        counts,
        free,
    };
    assert_eq!((words, list), (Ok(wanted), List::of([2; 5])));
}

#[test]
fn refused_open_changes_nothing() {
    for mut list in uneven().chain([List::of([2; 5]), List::of([0; 5])]) {
        list.0.fill(7);
        list.2.fill(7);
        list.4.fill(7);
        for (plugins, refusal) in [(3, Refusal::WrongLength), (1025, Refusal::OutOfRange)] {
            let mut lent_list = list.clone();
            let given = lent::open(Year::Y1989, plugins, 1, lent_list.lend());
            assert_eq!(given, Err(refusal), "{list:?}");
            assert_eq!(lent_list, list);
        }
    }
}

/// Each kind of answer, and what each call leaves.
#[test]
fn answers() {
    let (mut words, mut list) = opened();
    let mut make = |call, p| lent::call(call, &mut words, list.lend(), p);
    let ticket = |value, colour| Ok(Answer::Ticket(Ticket::new(value, colour)));
    assert_eq!(make(Call::Take, 1), ticket(1, 0));
    assert_eq!(make(Call::Take, 3), ticket(2, 0));
    assert_eq!(make(Call::Take, 2), ticket(0, 1));
    assert_eq!(make(Call::Place, 2), Ok(Answer::Place(2)));
    let (value, valid) = (Value(2), Value(1));
    let no = Verdict::No(Rule::Above { value, valid });
    assert_eq!(make(Call::Look, 3), Ok(Answer::Verdict(no)));
    let value = Value(1);
    let yes = Verdict::Yes(Slot(1), Rule::NotAbove { value, valid });
    assert_eq!(make(Call::Look, 1), Ok(Answer::Verdict(yes)));
    assert_eq!(make(Call::Look, 1), Err(Refusal::WrongRegion));
    assert_eq!(make(Call::Stop, 3), Ok(Answer::Done));
    assert_eq!(make(Call::Look, 3), Err(Refusal::Stopped));
    assert_eq!(make(Call::Leave, 1), Ok(Answer::Done));
    assert_eq!(make(Call::Wake, 1), Err(Refusal::NotStopped));
    assert_eq!(make(Call::Take, 4), Err(Refusal::NoSuchPlugin));
    assert_eq!(
        (words.issue, words.valid),
        (Ticket::new(0, 1), Ticket::new(2, 0))
    );
    let left = List(
        vec![0, 1, 1],
        vec![0, 0, 1],
        vec![0, 0, 2],
        vec![0, 1, 0],
        vec![0, 0, 0],
    );
    assert_eq!(list, left);
    assert_eq!(words.free[..2], [1, 0]);
    assert_eq!(lent::place(&words, list.show(), 2), Ok(1));
    let stopped = lent::place(&words, list.show(), 3);
    assert_eq!(stopped, Err(Refusal::Stopped));
    assert_eq!(
        lent::place(&words, list.show(), 1),
        Err(Refusal::WrongRegion)
    );
}

/// "2: the list's length differs from the word N. 3: not sound." They come before
/// 4, and "a refused call ... changes nothing lent".
#[test]
fn wrong_lengths_and_words() {
    let (words, list) = opened();
    let zero = (Words::ZERO, List::of([0; 5]), Refusal::NotSound);
    let mut counted = words;
    counted.counts[1] = 1;
    let mut lost = words;
    lost.free[0] = 0;
    let mut kept = list.clone();
    kept.4[2] = 1;
    let not_sound = [(counted, list.clone()), (lost, list), (words, kept)];
    let cases = uneven()
        .map(|list| (words, list, Refusal::WrongLength))
        .chain([zero])
        .chain(not_sound.map(|(words, list)| (words, list, Refusal::NotSound)));
    for (words, list, refusal) in cases {
        for p in [0, 1, u64::MAX] {
            for &call in Call::ALL {
                let (mut left, mut lent_list) = (words, list.clone());
                let given = lent::call(call, &mut left, lent_list.lend(), p);
                assert_eq!(given, Err(refusal), "{call:?} {p} on {words:?} {list:?}");
                assert_eq!((left, &lent_list), (words, &list));
            }
            let place = lent::place(&words, list.show(), p);
            assert_eq!(place, Err(refusal), "place {p} on {words:?} {list:?}");
        }
    }
}

/// Document 02, A.8: the year is kept; 1, then 10, then 2; and words of another year, or
/// of 1979 with k not below N, are not sound.
#[test]
fn years() {
    let mut list = List::of([4; 5]);
    list.2.fill(9);
    let open = |year, k, list: &mut List| lent::open(year, 4, k, list.lend());
    let early = open(Year::Y1979, 2, &mut list).unwrap();
    assert_eq!((early.year, early.n, early.k), (1979, 4, 2));
    assert_eq!(
        (early.issue, early.valid),
        (Ticket::new(1, 0), Ticket::new(3, 0))
    );
    assert_eq!((early.counts[0], list.clone()), (2, List::of([4; 5])));
    let mut short = List::of([4, 4, 3, 4, 4]);
    assert_eq!(open(Year::Y1979, 65, &mut short), Err(Refusal::OutOfRange));
    assert_eq!(open(Year::Y1979, 4, &mut short), Err(Refusal::TooManySlots));
    assert_eq!(open(Year::Y1989, 4, &mut short), Err(Refusal::WrongLength));
    assert_eq!(open(Year::Y1979, 3, &mut short), Err(Refusal::WrongLength));

    let late = open(Year::Y1989, 4, &mut list).unwrap();
    for (words, year) in [(early, 1989), (late, 1979)]
        .into_iter()
        .chain([0, 1978, 1980, 1990, u16::MAX].map(|year| (late, year)))
    {
        let mut other = Words { year, ..words };
        let before = other;
        let given = lent::call(Call::Take, &mut other, list.lend(), 1);
        assert_eq!(given, Err(Refusal::NotSound), "{year}");
        assert_eq!(lent::place(&other, list.show(), 1), Err(Refusal::NotSound));
        assert_eq!(other, before);
    }
    assert_eq!(list, List::of([4; 5]));

    let mut words = early;
    for (p, value) in [(2, 2), (4, 3), (1, 4)] {
        let taken = lent::call(Call::Take, &mut words, list.lend(), p);
        assert_eq!(taken, Ok(Answer::Ticket(Ticket::new(value, 0))));
    }
    assert_eq!((words.year, &list.2[..]), (1979, &[4, 2, 0, 3][..]));
    assert_eq!(lent::place(&words, list.show(), 1), Ok(1));
    // A held 0 and an idle 1 are not of this block.
    for (i, value) in [(1, 0), (2, 1)] {
        let mut damaged = list.clone();
        damaged.2[i] = value;
        let given = lent::call(Call::Stop, &mut words, damaged.lend(), 1);
        assert_eq!(given, Err(Refusal::NotSound));
    }
}

/// "2 for the first, 2 for the second, 3 for the first, 3 for the second."
#[test]
fn alike() {
    let (words, list) = opened();
    let mut counted = words;
    counted.counts[1] = 1;
    let short = List::of([3, 3, 3, 3, 2]);
    let alike = |first: (&Words, &List), second: (&Words, &List)| {
        lent::alike((first.0, first.1.show()), (second.0, second.1.show()))
    };
    let sound = (&words, &list);
    assert_eq!(alike(sound, sound), Ok(true));
    let (mut other, mut other_list) = (words, list.clone());
    lent::call(Call::Take, &mut other, other_list.lend(), 1).unwrap();
    assert_eq!(alike(sound, (&other, &other_list)), Ok(false));
    let wrong_length = Err(Refusal::WrongLength);
    assert_eq!(alike((&words, &short), sound), wrong_length);
    assert_eq!(alike(sound, (&words, &short)), wrong_length);
    assert_eq!(alike((&counted, &list), (&words, &short)), wrong_length);
    assert_eq!(alike((&counted, &list), sound), Err(Refusal::NotSound));
    assert_eq!(alike(sound, (&counted, &list)), Err(Refusal::NotSound));
}
