//! The rules by which looks are answered: on every small words and ticket, sound or not.

use compare::gate::rules::{met, rule};
use compare::gate::steps::valid;
use compare::gate::{Colour, Rule, Ticket, Words};

/// Words with these values, colours and counts, and tickets of them.
fn every(mut visit: impl FnMut(&Words, Ticket)) {
    const VALUES: [u16; 5] = [0, 1, 2, 1023, u16::MAX];
    const COLOURS: [u8; 5] = [0, 1, 64, 65, u8::MAX];
    const COUNTS: [u8; 4] = [0, 1, 64, u8::MAX];
    let tickets = || {
        VALUES
            .into_iter()
            .flat_map(|v| COLOURS.map(|c| Ticket::new(v, c)))
    };
    for valid in tickets() {
        for ticket in tickets() {
            for count in COUNTS {
                for other in COUNTS {
                    let mut words = Words {
                        valid,
                        ..Words::ZERO
                    };
                    words.counts.fill(other);
                    if let Some(of_ticket) = words.counts.get_mut(usize::from(ticket.colour.0)) {
                        *of_ticket = count;
                    }
                    visit(&words, ticket);
                }
            }
        }
    }
}

/// "show that the four exclude one another": one is met, it is the rule, and it is a
/// yes, the first or the third, just where document 01's Valid holds.
#[test]
fn one_is_met() {
    let mut found = [0; 4];
    every(|words, ticket| {
        let all = met(words, ticket);
        let count = all.iter().flatten().count();
        assert_eq!(count, 1, "{ticket}, VALID {}: {all:?}", words.valid);
        let rule = rule(words, ticket);
        let at = usize::from(rule.number()) - 1;
        assert_eq!(all[at], Some(rule));
        assert_eq!([0, 2].contains(&at), valid(words, ticket));
        found[at] += 1;
    });
    assert!(found.iter().all(|&count| count > 100), "{found:?}");
}

/// "The first two carry both values, the last two the colour and its count."
#[test]
fn what_they_carry() {
    every(|words, ticket| match rule(words, ticket) {
        Rule::NotAbove(value, valid) | Rule::Above(value, valid) => {
            assert_eq!(ticket.colour, words.valid.colour);
            assert_eq!((value, valid), (ticket.value, words.valid.value));
        }
        Rule::Counted(colour, count) | Rule::NotCounted(colour, count) => {
            assert_ne!(ticket.colour, words.valid.colour);
            let counts = |Colour(colour)| words.counts.get(usize::from(colour));
            assert_eq!(colour, ticket.colour);
            assert_eq!(count, counts(colour).copied().unwrap_or(0));
        }
    });
}

/// A rule is told by its number and what it carries.
#[test]
fn numbers() {
    every(|words, ticket| {
        let rule = rule(words, ticket);
        assert_eq!(Rule::of(rule.number(), rule.carries()), Some(rule));
    });
    for number in [0, 5, u8::MAX] {
        assert_eq!(Rule::of(number, (0, 0)), None);
    }
    for carries in [(256, 0), (0, 256)] {
        assert_eq!([3, 4].map(|number| Rule::of(number, carries)), [None; 2]);
    }
}
