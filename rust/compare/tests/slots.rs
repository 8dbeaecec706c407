//! The rule of the slots by itself, and the gate's free row beside it.

use compare::check::feed;
use compare::gate::{FREE_PLACES, INSIDE};
use compare::queue::{Queue, Reply};
use compare::random::{schedules, Random};
use compare::schedule::{next_call, Call, Next};
use compare::slot_rule::SlotRule;
use compare::transcript::{GateHost, Host};

fn row(rule: &SlotRule) -> Vec<u8> {
    rule.free().collect()
}

/// "The slot returned longest ago goes out first; at opening they lie in rising
/// order." Two in, two out, one in: neither the slot returned last nor the lowest.
#[test]
fn first_in_first_out() {
    let mut rule = SlotRule::open(2, 3);
    assert_eq!((rule.slots(), row(&rule)), (&[0, 0][..], vec![1, 2, 3]));
    let yes = Reply::YesNo(true);
    assert_eq!(rule.feed(b'L', 2, yes), 1);
    assert_eq!(rule.feed(b'L', 1, yes), 2);
    assert_eq!((rule.slots(), row(&rule)), (&[2, 1][..], vec![3]));
    assert_eq!(rule.feed(b'B', 1, Reply::Done), 0);
    assert_eq!(rule.feed(b'B', 2, Reply::Done), 0);
    assert_eq!((rule.slots(), row(&rule)), (&[0, 0][..], vec![3, 2, 1]));
    assert_eq!(rule.feed(b'L', 1, yes), 3);
    assert_eq!((rule.slots(), row(&rule)), (&[3, 0][..], vec![2, 1]));
}

/// "A handed-back turn returns no slot"; nothing but a yes and an accepted leave
/// moves one.
#[test]
fn what_moves_no_slot() {
    let mut rule = SlotRule::open(2, 2);
    rule.feed(b'L', 2, Reply::YesNo(true));
    for (letter, said) in [
        (b'B', Reply::Done),
        (b'B', Reply::Refused(9)),
        (b'T', Reply::Done),
        (b'L', Reply::YesNo(false)),
        (b'L', Reply::Refused(6)),
        (b'P', Reply::Place(0)),
        (b'S', Reply::Done),
        (b'W', Reply::Done),
    ] {
        assert_eq!(rule.feed(letter, 1, said), 0);
        assert_eq!((rule.slots(), row(&rule)), (&[0, 1][..], vec![2]));
    }
    assert_eq!(rule.feed(b'B', 2, Reply::Refused(5)), 0);
    assert_eq!((rule.slots(), row(&rule)), (&[0, 1][..], vec![2]));
}

/// After each call the gate's row is the rule's, followed by zeros, and as long as
/// there are slots that no plugin inside has.
#[test]
fn the_row_in_the_words() {
    let mut random = Random::new(4);
    let mut rows = 0;
    for _ in 0..200 {
        let input = schedules::input(&mut random);
        let mut host = GateHost::default();
        let mut beside: Option<(Queue, SlotRule)> = None;
        let mut part = &input[..];
        while let (Next::Call(call), rest) = next_call(part) {
            part = rest;
            let accepted = host.perform(call).number() == 0;
            match (call, call.of_plugin(), &mut beside) {
                (Call::Open(n, k), ..) if accepted => {
                    let (n, k) = (n.into(), k.into());
                    beside = Some((Queue::open(n, k), SlotRule::open(n, k)));
                }
                (_, Some((letter, p)), Some((queue, rule))) => {
                    let said = feed(queue, call);
                    rule.feed(letter, p.into(), said);
                }
                _ => {}
            }
            let Some((queue, rule)) = &beside else {
                continue;
            };
            let mut wanted = row(rule);
            let regions = host.list().regions.iter();
            let inside = regions.filter(|&&region| region == INSIDE).count();
            assert_eq!(wanted.len() + inside, queue.k, "{call}");
            wanted.resize(FREE_PLACES, 0);
            assert_eq!(host.words().free.to_vec(), wanted, "{call}");
            rows += 1;
        }
    }
    assert!(rows > 50_000, "{rows}");
}
