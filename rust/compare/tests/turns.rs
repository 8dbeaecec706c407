//! Turns come at the return that a place says; and the run of equal tickets, in which
//! "keeps that ticket" must not be read as "holds an equal one".

use compare::forms::{Calls, Form};
use compare::gate::{steps, PluginList, Ticket};
use compare::random::states::State;
use compare::turns;

#[test]
fn turns_come_when_the_places_say() {
    let mut tally = turns::Tally::default();
    turns::check(7, 400, &mut tally).unwrap();
    assert!(tally.turns > 100 && tally.handed_back > 100, "{tally:?}");
    assert!(tally.refused > 500 && tally.given > 500, "{tally:?}");
    assert!(tally.early > 50, "{tally:?}");
}

/// After `O 2 1` plugin 2 takes 0/1 and is told 1. Both leave and take twice: it holds
/// 0/1 again, four leaves were accepted, and the ticket is not valid.
#[test]
fn an_equal_ticket_is_another() {
    let mut state: State = (steps::opening(1989, 2, 1), PluginList::idle(2));
    let mut make = |calls: &[(u8, u64)]| {
        let mut last = 0;
        for &(letter, p) in calls {
            let made = Form::Slices.call(letter, p, &state).unwrap();
            assert_eq!(made.shown.number, 0);
            last = made.shown.place;
            state = made.left;
        }
        let valid = steps::valid(&state.0, state.1.ticket(1));
        (state.1.ticket(1), valid, last)
    };
    let equal = Ticket::new(0, 1);
    let first = make(&[(b'T', 1), (b'T', 2), (b'P', 2)]);
    assert_eq!(first, (equal, false, 1));
    let round = [(b'B', 1), (b'B', 2), (b'T', 1), (b'T', 2)];
    assert_eq!(make(&round), (Ticket::new(0, 0), false, 0));
    assert_eq!(make(&round), (equal, false, 0));
}
