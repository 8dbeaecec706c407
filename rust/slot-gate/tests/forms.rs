//! What only comparisons need: the exported functions as they are, take and leave
//! on a lent gate, look, stop and wake on words that are passed, next call, the replay
//! of a list of calls, and the numbered gate's take to wake.

use slot_gate::forms::{self, ended, kind, rule, Results, RuleShown, Shown};
use slot_gate::lent::ListMut;
use slot_gate::{numbered, Record, Ticket, Words};

/// The slices of a list of N plugins, all 0.
struct List {
    bytes: [Vec<u8>; 4],
    values: Vec<u16>,
}

impl List {
    fn of(n: usize) -> List {
        List {
            bytes: [vec![0; n], vec![0; n], vec![0; n], vec![0; n]],
            values: vec![0; n],
        }
    }

    fn lend(&mut self) -> ListMut<'_> {
        let [regions, marks, colours, slots] = &mut self.bytes;
        ListMut {
            regions,
            marks,
            values: &mut self.values,
            colours,
            slots,
        }
    }
}

fn opened(n: usize, k: u64) -> (Words, List) {
    let mut list = List::of(n);
    let told = forms::open(1989, n as u64, k, list.lend());
    assert_eq!(told.shown, shown(0, kind::DONE));
    (told.gate, list)
}

fn shown(number: u8, kind: u8) -> Shown {
    Shown {
        number,
        kind,
        yes: 0,
        slot: 0,
        ticket: Ticket::new(0, 0),
        place: 0,
        rule: RuleShown::NONE,
    }
}

/// "A refused call ... returns only its number"; a refused open's words are all 0.
#[test]
fn what_a_refusal_shows() {
    let (words, mut list) = opened(3, 1);
    let told = forms::open(1989, 4, 1, list.lend());
    assert_eq!(
        (told.gate, told.shown),
        (Words::ZERO, shown(2, kind::REFUSED))
    );
    let told = forms::records_open(1989, 4, 1, &mut [Record::IDLE; 3]);
    assert_eq!(
        (told.gate, told.shown),
        (Words::ZERO, shown(2, kind::REFUSED))
    );
    let told = forms::call(b'L', words, list.lend(), 1);
    assert_eq!((told.gate, told.shown), (words, shown(6, kind::REFUSED)));
    let place = forms::place(words, list.lend().show(), 0);
    assert_eq!(place, shown(4, kind::REFUSED));
}

/// A letter that names no call is refused with 8, and nothing changes.
#[test]
fn no_such_call() {
    let (words, mut list) = opened(3, 1);
    let mut records = [Record::IDLE; 3];
    for letter in (0..=u8::MAX).filter(|letter| !b"TLBPSW".contains(letter)) {
        for told in [
            forms::call(letter, words, list.lend(), 1),
            forms::records_call(letter, words, &mut records, 1),
        ] {
            assert_eq!((told.gate, told.shown), (words, shown(8, kind::REFUSED)));
        }
        assert_eq!(list.bytes.concat(), [0; 12]);
        assert_eq!(
            (&list.values[..], records),
            (&[0; 3][..], [Record::IDLE; 3])
        );
    }
}

#[test]
fn take_and_leave_move_the_lent_words() {
    let (mut words, mut list) = opened(3, 1);
    let mut wanted = shown(0, kind::TICKET);
    wanted.ticket = Ticket::new(1, 0);
    assert_eq!(forms::in_place_take(&mut words, list.lend(), 2), wanted);
    assert_eq!(
        (words.issue, words.valid),
        (Ticket::new(1, 0), Ticket::new(1, 0))
    );
    assert_eq!(
        (&list.bytes[0][..], &list.values[..]),
        (&[0, 1, 0][..], &[0, 1, 0][..])
    );

    let before = words;
    let refused = shown(6, kind::REFUSED);
    assert_eq!(forms::in_place_take(&mut words, list.lend(), 2), refused);
    assert_eq!(forms::in_place_leave(&mut words, list.lend(), 1), refused);
    assert_eq!(words, before);

    let told = forms::call(b'L', words, list.lend(), 2);
    assert_eq!((told.shown.yes, told.shown.slot), (1, 1));
    let rule = RuleShown {
        number: rule::NOT_ABOVE,
        of_ticket: 1,
        against: 1,
    };
    assert_eq!(told.shown.rule, rule);
    assert_eq!((told.gate.free[0], list.bytes[3][1]), (0, 1));
    words = told.gate;
    let done = shown(0, kind::DONE);
    assert_eq!(forms::in_place_leave(&mut words, list.lend(), 2), done);
    assert_eq!((words.valid, words.free[0]), (Ticket::new(2, 0), 1));
    assert_eq!(
        (list.bytes.concat(), &list.values[..]),
        (vec![0; 12], &[0; 3][..])
    );

    // Two wait: the first hands back its turn, the second's has not come before.
    for p in [3, 1] {
        forms::in_place_take(&mut words, list.lend(), p);
    }
    let early = shown(9, kind::REFUSED);
    assert_eq!(forms::in_place_leave(&mut words, list.lend(), 1), early);
    assert_eq!(forms::in_place_leave(&mut words, list.lend(), 3), done);
    assert_eq!(words.valid, Ticket::new(0, 1));
    assert_eq!(list.bytes[0], [1, 0, 0]);
    assert_eq!(words.free[..2], [1, 0]);
}

#[test]
fn look_stop_and_wake_on_passed_words() {
    let (mut words, mut list) = opened(2, 1);
    forms::in_place_take(&mut words, list.lend(), 2);
    let told = forms::passed_stop(words, list.lend(), 2);
    assert_eq!((told.gate, told.shown), (words, shown(0, kind::DONE)));
    assert_eq!(list.bytes[1], [0, 1]);
    let told = forms::passed_look(words, list.lend(), 2);
    assert_eq!((told.gate, told.shown), (words, shown(5, kind::REFUSED)));
    assert_eq!(list.bytes[0], [0, 1]);
    let told = forms::passed_wake(words, list.lend(), 2);
    assert_eq!((told.gate, told.shown), (words, shown(0, kind::DONE)));
    assert_eq!(list.bytes[1], [0, 0]);
    let told = forms::passed_look(words, list.lend(), 2);
    assert_eq!((told.shown.yes, told.shown.slot), (1, 1));
    assert_eq!((&list.bytes[0], &list.bytes[3]), (&vec![0, 2], &vec![0, 1]));
    assert_eq!(told.gate.free[0], 0);
}

/// Each field of what is shown lies where it is read: a ticket, a yes, done and a refusal.
#[test]
fn numbered_calls_on_passed_words() {
    let (mut regions, mut marks, mut tickets) = ([0; 2], [0; 2], [0; 2]);
    let mut list = numbered::ListMut {
        regions: &mut regions,
        marks: &mut marks,
        tickets: &mut tickets,
    };
    let mut words = forms::numbered_open(2, 1, list.lend()).gate;
    let calls = [
        forms::numbered_passed_take,
        forms::numbered_passed_stop,
        forms::numbered_passed_look,
        forms::numbered_passed_wake,
        forms::numbered_passed_look,
        forms::numbered_passed_leave,
    ];
    let answers = calls.map(|call| {
        let told = call(words, list.lend(), 2);
        words = told.gate;
        let shown = told.shown;
        (shown.number, shown.kind, shown.yes, shown.ticket)
    });
    let wanted = [
        (0, kind::TICKET, 0, 1),
        (0, kind::DONE, 0, 0),
        (5, kind::REFUSED, 0, 0),
        (0, kind::DONE, 0, 0),
        (0, kind::YES_OR_NO, 1, 0),
        (0, kind::DONE, 0, 0),
    ];
    assert_eq!(answers, wanted);
    assert_eq!((words.issue, words.valid), (1, 2));
    assert_eq!((regions, marks, tickets), ([0; 2], [0; 2], [0; 2]));
}

/// "returns the rest of the caller's own buffer after the line"; on 8 "the whole
/// part is returned".
#[test]
fn next_line_returns_the_callers_own_buffer() {
    let part = b"O 3 1\nT 1\nT 01\n";
    let (line, rest) = forms::next_line(part);
    assert_eq!(line, [1, 0, 3, 1]);
    assert_eq!(rest.as_ptr_range(), part[6..].as_ptr_range());
    let (line, rest) = forms::next_line(rest);
    assert_eq!(line, [2, u64::from(b'T'), 1, 0]);
    let (line, same) = forms::next_line(rest);
    assert_eq!(line, [3, 0, 0, 0]);
    assert_eq!(same.as_ptr_range(), rest.as_ptr_range());
    let (line, rest) = forms::next_line(b"");
    assert_eq!((line, rest.len()), ([0; 4], 0));
}

/// Document 01's worked table as one replay, with room to spare; and how a replay
/// ends that is not run.
#[test]
fn replays() {
    let calls = b"TTLTLLBLBTLB";
    let plugins = [1, 2, 2, 3, 1, 3, 1, 2, 2, 3, 3, 3];
    let (mut numbers, mut verdicts) = ([9; 13], [9; 12]);
    let (mut places, mut tickets, mut shades) = ([9; 12], [9; 12], [9; 12]);
    let (mut given, mut rules) = ([9; 13], [9; 12]);
    let (mut of_tickets, mut against) = ([9; 12], [9; 13]);
    let mut list = List::of(3);
    let mut replay = |n, calls: &[u8], plugins: &[u64]| {
        let results = Results {
            numbers: &mut numbers,
            verdicts: &mut verdicts,
            places: &mut places,
            tickets: &mut tickets,
            shades: &mut shades,
            given: &mut given,
            rules: &mut rules,
            of_tickets: &mut of_tickets,
            against: &mut against,
        };
        let replay = forms::replay(1989, n, 1, calls, plugins, list.lend(), results);
        (replay.ended, replay.number, replay.gate.valid)
    };
    let nothing = Ticket::new(0, 0);
    assert_eq!(
        replay(3, calls, &plugins[1..]),
        (ended::TOO_SHORT, 0, nothing)
    );
    assert_eq!(
        replay(3, b"TO", &plugins),
        (ended::NO_SUCH_CALL, 0, nothing)
    );
    assert_eq!(replay(4, calls, &plugins), (ended::NOT_OPENED, 2, nothing));
    assert_eq!(
        replay(3, calls, &plugins),
        (ended::RAN, 0, Ticket::new(1, 1))
    );
    assert_eq!(numbers, [0, 0, 0, 0, 0, 0, 0, 0, 0, 6, 0, 0, 9]);
    assert_eq!(verdicts, [0, 0, 0, 0, 1, 0, 0, 1, 0, 0, 1, 0]);
    assert_eq!(places, [0; 12]);
    assert_eq!(tickets, [1, 2, 0, 0, 0, 0, 0, 0, 0, 0, 0, 0]);
    assert_eq!(shades, [0, 0, 0, 1, 0, 0, 0, 0, 0, 0, 0, 0]);
    assert_eq!(given, [0, 0, 0, 0, 1, 0, 0, 1, 0, 0, 1, 0, 9]);
    // L 2 with 2/0 and L 1 with 1/0, while VALID is 1/0; L 3 with 0/1, which is not
    // counted; then L 2 while VALID is 2/0, and L 3 while it is 0/1.
    assert_eq!(rules, [0, 0, 2, 0, 1, 4, 0, 1, 0, 0, 1, 0]);
    assert_eq!(of_tickets, [0, 0, 2, 0, 1, 1, 0, 2, 0, 0, 0, 0]);
    assert_eq!(against, [0, 0, 1, 0, 1, 0, 0, 2, 0, 0, 0, 0, 9]);
}

/// Document 02, A.8: another year is 1, as an N or k out of range; 10 comes after 1, and
/// before 2. A refused open's words are all 0, the year too.
#[test]
fn years() {
    let mut records = [Record::IDLE; 3];
    for (year, n, k, number) in [
        (1979, 3, 2, 0),
        (1989, 3, 2, 0),
        (1989, 3, 3, 0),
        (1979, 3, 3, 10),
        (1979, 4, 4, 10),
        (1979, 4, 3, 2),
        (1989, 4, 4, 2),
        (1979, 3, 65, 1),
        (1979, 0, 1, 1),
        (0, 3, 2, 1),
        (1978, 3, 3, 1),
        (1980, 3, 2, 1),
        (1990, 4, 2, 1),
        ((1 << 16) + 1979, 3, 2, 1),
        ((1 << 32) + 1989, 3, 2, 1),
        (u64::MAX, 3, 3, 1),
    ] {
        let mut list = List::of(3);
        let by_slices = forms::open(year, n, k, list.lend());
        let by_records = forms::records_open(year, n, k, &mut records);
        for told in [by_slices, by_records] {
            let kind = if number == 0 {
                kind::DONE
            } else {
                kind::REFUSED
            };
            assert_eq!(told.shown, shown(number, kind), "{year} {n} {k}");
            if number == 0 {
                assert_eq!(u64::from(told.gate.year), year);
            } else {
                assert_eq!(told.gate, Words::ZERO);
            }
        }
    }
}

/// The same of a replay; and one of 1979, in which a new block's 1 follows N.
#[test]
fn replays_in_both_years() {
    let (calls, plugins) = (b"TTTTPLBBLB", [1, 2, 3, 4, 4, 1, 1, 2, 4, 3]);
    let (mut tickets, mut shades, mut places) = ([9; 10], [9; 10], [9; 10]);
    let mut replay = |year, k| {
        let mut list = List::of(4);
        let results = Results {
            numbers: &mut [9; 10],
            verdicts: &mut [9; 10],
            places: &mut places,
            tickets: &mut tickets,
            shades: &mut shades,
            given: &mut [9; 10],
            rules: &mut [9; 10],
            of_tickets: &mut [9; 10],
            against: &mut [9; 10],
        };
        let replay = forms::replay(year, 4, k, calls, &plugins, list.lend(), results);
        let regions = list.bytes[0].clone();
        (
            (replay.ended, replay.number),
            replay.gate,
            regions,
            tickets,
            shades,
            places,
        )
    };
    for (year, k, number) in [(1990, 4, 1), (0, 2, 1), (1979, 65, 1), (1979, 4, 10)] {
        let (end, gate, regions, tickets, ..) = replay(year, k);
        assert_eq!((end, gate), ((ended::NOT_OPENED, number), Words::ZERO));
        assert_eq!((regions, tickets), (vec![0; 4], [9; 10]));
    }
    let (end, gate, regions, tickets, shades, places) = replay(1979, 2);
    assert_eq!((end, gate.year), ((ended::RAN, 0), 1979));
    assert_eq!(
        (gate.issue, gate.valid),
        (Ticket::new(1, 1), Ticket::new(2, 1))
    );
    assert_eq!(tickets, [2, 3, 4, 1, 0, 0, 0, 0, 0, 0]);
    assert_eq!(shades, [0, 0, 0, 1, 0, 0, 0, 0, 0, 0]);
    assert_eq!(places, [0, 0, 0, 0, 2, 0, 0, 0, 0, 0]);
    let (late_end, late, late_regions, late_tickets, _, late_places) = replay(1989, 2);
    assert_eq!((late_end, late.year), ((ended::RAN, 0), 1989));
    assert_eq!((late_regions, late_places), (regions, places));
    assert_eq!(late_tickets, [1, 2, 0, 1, 0, 0, 0, 0, 0, 0]);
}

/// Document 02, A.4: two in, two out, one in. Then a turn is handed back, and the
/// slot returned longest ago goes out.
#[test]
fn replays_give_slots() {
    let calls = b"TLTLBBTLTBTL";
    let plugins = [1, 1, 2, 2, 1, 2, 1, 1, 2, 2, 2, 2];
    let (mut list, mut given) = (List::of(2), [9; 12]);
    let results = Results {
        numbers: &mut [9; 12],
        verdicts: &mut [9; 12],
        places: &mut [9; 12],
        tickets: &mut [9; 12],
        shades: &mut [9; 12],
        given: &mut given,
        rules: &mut [9; 12],
        of_tickets: &mut [9; 12],
        against: &mut [9; 12],
    };
    let replay = forms::replay(1989, 2, 3, calls, &plugins, list.lend(), results);
    assert_eq!(replay.ended, ended::RAN);
    assert_eq!(given, [0, 1, 0, 2, 0, 0, 0, 3, 0, 0, 0, 1]);
    assert_eq!(replay.gate.free[..2], [2, 0]);
    assert_eq!(list.bytes[3], [3, 1]);
}
