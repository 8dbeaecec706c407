//! The refusals in the document's order, and calls on any words and lists.

use compare::gate::{
    self, Answer, Lent, PluginList, Refusal, Reply, Slot, Ticket, Words, INSIDE, WAITING,
};
use compare::random::Random;

type CallOn = fn(&Words, &mut Lent, u64) -> Reply;

const CALLS: [CallOn; 6] = [
    gate::take,
    gate::look,
    gate::leave,
    gate::place,
    gate::stop,
    gate::wake,
];

fn opened(n: u64, k: u64) -> (Words, PluginList) {
    let mut list = PluginList::idle(n as usize);
    let reply = gate::open(1989, n, k, &mut list.lend());
    assert_eq!(reply.answer, Answer::Done);
    (reply.words, list)
}

/// "1: N or k out of range. 2: the list's length is not N."
#[test]
fn open() {
    let number = |n, k, length| {
        let mut list = PluginList::idle(length);
        list.marks.fill(1);
        let before = list.clone();
        let reply = gate::open(1989, n, k, &mut list.lend());
        if reply.number() != 0 {
            assert_eq!(reply.words, Words::ZERO);
            assert_eq!(list, before);
        }
        reply.number()
    };
    assert_eq!(number(3, 1, 3), 0);
    assert_eq!(number(3, 1, 4), 2);
    assert_eq!(number(3, 1, 0), 2);
    assert_eq!(number(0, 1, 0), 1);
    assert_eq!(number(0, 1, 5), 1);
    assert_eq!(number(1025, 1, 1025), 1);
    assert_eq!(number(1024, 64, 1024), 0);
    assert_eq!(number(1024, 65, 7), 1);
    assert_eq!(number(1, 0, 1), 1);
    assert_eq!(number(u64::MAX, u64::MAX, 1), 1);
    assert_eq!(number(1 << 16 | 3, 1, 3), 1);
    assert_eq!(number(3, 257, 3), 1);
}

/// "2: the list's length differs from the word N. 3: not sound." Then 4, 5, 6
/// and 7 in that order: a state that has all the faults gives the first.
#[test]
fn order() {
    let (words, list) = opened(2, 1);
    let number = |call: CallOn, words: &Words, list: &PluginList, p| {
        call(words, &mut list.clone().lend(), p).number()
    };
    let mut unsound = words;
    unsound.counts[0] = 0;
    for call in CALLS {
        assert_eq!(number(call, &unsound, &PluginList::idle(3), 9), 2);
        assert_eq!(number(call, &unsound, &list, 9), 3);
        assert_eq!(number(call, &words, &list, 0), 4);
        assert_eq!(number(call, &words, &list, 3), 4);
        assert_eq!(number(call, &words, &list, u64::MAX), 4);
        assert_eq!(number(call, &words, &list, (1 << 32) + 1), 4);
    }
    let mut stopped = list.clone();
    stopped.marks[0] = 1;
    for call in &CALLS[..5] {
        assert_eq!(number(*call, &words, &stopped, 1), 5);
    }
    assert_eq!(number(gate::wake, &words, &stopped, 1), 0);
    assert_eq!(number(gate::wake, &words, &list, 1), 7);
    for call in [gate::look, gate::leave, gate::place] {
        assert_eq!(number(call, &words, &list, 1), 6);
    }
}

/// Regions: which calls a waiting plugin and one inside may make.
#[test]
fn regions() {
    let (words, mut list) = opened(1, 1);
    let words = gate::take(&words, &mut list.lend(), 1).words;
    assert_eq!(list.regions[0], WAITING);
    assert_eq!(gate::take(&words, &mut list.lend(), 1).number(), 6);
    assert_eq!(
        gate::place(&words, &mut list.lend(), 1).answer,
        Answer::Place(0)
    );
    let entered = gate::look(&words, &mut list.lend(), 1);
    assert_eq!(entered.answer.slot(), Slot(1));
    assert_eq!((list.regions[0], list.slots[0]), (INSIDE, 1));
    let words = entered.words;
    for call in [gate::take, gate::look, gate::place] {
        assert_eq!(call(&words, &mut list.lend(), 1).number(), 6);
    }
    assert_eq!(
        gate::leave(&words, &mut list.lend(), 1).answer,
        Answer::Done
    );
    assert_eq!(list, PluginList::idle(1));
}

/// Document 02, A.2: a waiting plugin's leave is accepted if its ticket is valid,
/// and then is a look and a leave, but for the slot; else it is 9, and 5 if the
/// plugin is stopped.
#[test]
fn handing_back() {
    let (mut words, mut list) = opened(3, 1);
    for p in [2, 1] {
        words = gate::take(&words, &mut list.lend(), p).words;
    }
    let leave = |list: &PluginList, p| {
        let mut list = list.clone();
        let reply = gate::leave(&words, &mut list.lend(), p);
        (reply.answer, reply.words, list)
    };
    let refused = |list: &PluginList, number| (Answer::Refused(number), words, list.clone());
    assert_eq!(leave(&list, 3), refused(&list, 6));
    assert_eq!(leave(&list, 1), refused(&list, 9));
    let mut stopped = list.clone();
    stopped.marks = vec![1, 1, 0];
    assert_eq!(leave(&stopped, 1), refused(&stopped, 5));
    assert_eq!(leave(&stopped, 2), refused(&stopped, 5));
    let mut inside = list.clone();
    let entered = gate::look(&words, &mut inside.lend(), 2);
    assert_eq!(entered.answer.slot(), Slot(1));
    let left = leave(&list, 2);
    assert_eq!(left.0, Answer::Done);
    // With one slot the row is the same whether it goes round or not.
    let returned = gate::leave(&entered.words, &mut inside.lend(), 2);
    assert_eq!(left, (returned.answer, returned.words, inside));
}

/// Five slices of unequal length are a list whose length is not N.
#[test]
fn unequal_slices() {
    let (words, list) = opened(2, 1);
    for shorter in 0..5 {
        let mut list = list.clone();
        match shorter {
            0 => drop(list.regions.pop()),
            1 => drop(list.marks.pop()),
            2 => drop(list.values.pop()),
            3 => drop(list.colours.pop()),
            _ => drop(list.slots.pop()),
        }
        for call in CALLS {
            assert_eq!(call(&words, &mut list.lend(), 1).number(), 2);
        }
        assert_eq!(gate::open(1989, 2, 1, &mut list.lend()).number(), 2);
    }
}

#[test]
fn alike() {
    let judge = |a: &(Words, PluginList), b: &(Words, PluginList)| -> Result<bool, Refusal> {
        let (mut first, mut second) = (a.1.clone(), b.1.clone());
        gate::alike((&a.0, &first.lend()), (&b.0, &second.lend()))
    };
    let plain = opened(2, 1);
    let with_calls = |mut state: (Words, PluginList), calls: &[(CallOn, u64)]| {
        for (call, p) in calls {
            state.0 = call(&state.0, &mut state.1.lend(), *p).words;
        }
        state
    };
    let came_round = with_calls(
        opened(2, 1),
        &[(gate::take, 1), (gate::look, 1), (gate::leave, 1)],
    );
    let taken = with_calls(opened(2, 1), &[(gate::take, 2)]);
    let stopped = with_calls(opened(2, 1), &[(gate::stop, 2)]);
    assert_ne!(plain.0, came_round.0);
    assert_eq!(judge(&plain, &came_round), Ok(true));
    assert_eq!(judge(&plain, &taken), Ok(false));
    assert_eq!(judge(&plain, &stopped), Ok(false));
    assert_eq!(judge(&plain, &opened(2, 2)), Ok(false));
    assert_eq!(judge(&plain, &opened(3, 1)), Ok(false));
    // The order of tickets not yet valid, and which is valid.
    let taken_by =
        |order: [u64; 3]| with_calls(opened(3, 1), &order.map(|p| (gate::take as CallOn, p)));
    let in_order = taken_by([1, 2, 3]);
    assert_eq!(judge(&in_order, &taken_by([1, 3, 2])), Ok(false));
    assert_eq!(judge(&in_order, &taken_by([2, 1, 3])), Ok(false));
    // Slots are not compared.
    let entered = |calls| with_calls(opened(2, 2), calls);
    let first = entered(&[
        (gate::take, 1),
        (gate::look, 1),
        (gate::take, 2),
        (gate::look, 2),
    ]);
    let second = entered(&[
        (gate::take, 2),
        (gate::look, 2),
        (gate::take, 1),
        (gate::look, 1),
    ]);
    assert_eq!(
        (&first.1.slots[..], &second.1.slots[..]),
        (&[1, 2][..], &[2, 1][..])
    );
    assert_eq!(judge(&first, &second), Ok(true));

    // 2 for either comes before 3 for either.
    let short = (plain.0, PluginList::idle(1));
    let mut unsound = plain.clone();
    unsound.0.issue = Ticket::new(9, 9);
    assert_eq!(judge(&short, &plain), Err(2));
    assert_eq!(judge(&plain, &short), Err(2));
    assert_eq!(judge(&unsound, &short), Err(2));
    assert_eq!(judge(&short, &unsound), Err(2));
    assert_eq!(judge(&unsound, &plain), Err(3));
    assert_eq!(judge(&plain, &unsound), Err(3));
}

/// Any words and any lists: a call answers, and a refused one changes nothing
/// and shows 0/0, no and 0.
#[test]
fn total() {
    let mut random = Random::new(3);
    for round in 0..20_000 {
        let n = random.pick(&[0, 1, 2, 3, 1024, 1025, 65_535]);
        let length = if n > 3 && round % 50 != 0 {
            2
        } else {
            usize::from(n)
        };
        let ticket = |random: &mut Random| {
            if random.chance(500) {
                Ticket::new(random.below(4) as u16, random.below(3) as u8)
            } else {
                Ticket::new(random.number() as u16, random.number() as u8)
            }
        };
        let mut words = Words {
            year: random.pick(&[1979, 1979, 1989, 1989, 0, 1990]),
            n,
            k: random.pick(&[0, 1, 2, 64, 65, 255]),
            issue: ticket(&mut random),
            valid: ticket(&mut random),
            ..Words::ZERO
        };
        for count in words.counts.iter_mut().take(3) {
            *count = random.pick(&[0, 1, 2, 255]);
        }
        for place in words.free.iter_mut().take(3) {
            *place = random.pick(&[0, 1, 2, 255]);
        }
        let mut list = PluginList::idle(length);
        for i in 0..length {
            let ticket = ticket(&mut random);
            let slot = Slot(random.pick(&[0, 0, 1, 2, 65]));
            let region = random.pick(&[0, 1, 2, 3, 255]);
            list.lend().set(i, region, ticket, slot);
            list.marks[i] = random.pick(&[0, 0, 0, 1, 2]);
        }
        for call in CALLS {
            let mut after = list.clone();
            let reply = call(&words, &mut after.lend(), random.pick(&[0, 1, 2, u64::MAX]));
            if reply.number() != 0 {
                assert_eq!((reply.words, &after), (words, &list));
                assert_eq!(reply.answer.ticket(), Ticket::default());
                assert_eq!((reply.answer.yes(), reply.answer.place()), (false, 0));
                assert_eq!(reply.answer.slot(), Slot::default());
                assert_eq!(reply.answer.rule(), None);
            }
        }
    }
}
