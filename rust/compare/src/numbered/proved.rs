//! The proved calls of the numbered gate, from the package `slot-gate`, on this crate's words
//! and lists.

use slot_gate::forms::{self, kind, NumberedShown, NumberedTold};
use slot_gate::numbered::{ListMut, Words};

use super::calls::{Calls, Made};
use super::{Answer, PluginList, State};
use crate::random::states::LETTERS;

/// The calls as they are exported.
pub struct Proved;

impl Calls for Proved {
    fn name(&self) -> &'static str {
        "the proved numbered gate"
    }

    fn open(&self, n: u64, k: u64, list: &PluginList) -> Made {
        made(list, |lent| forms::numbered_open(n, k, lent))
    }

    fn call(&self, letter: u8, p: u64, (words, list): &State) -> Made {
        let words = lent_words(words);
        made(list, |lent| forms::numbered_call(letter, words, lent, p))
    }

    /// With those slices lent for writing that the call changes: none in a place.
    fn by_name(&self, letter: u8, p: u64, (words, list): &State) -> Option<Made> {
        let words = lent_words(words);
        LETTERS.contains(&letter).then(|| {
            made(list, |lent| match letter {
                b'T' => forms::numbered_passed_take(words, lent, p),
                b'L' => forms::numbered_passed_look(words, lent, p),
                b'B' => forms::numbered_passed_leave(words, lent, p),
                b'S' => forms::numbered_passed_stop(words, lent, p),
                b'W' => forms::numbered_passed_wake(words, lent, p),
                _ => {
                    let (gate, shown) = (words, forms::numbered_place(words, lent.show(), p));
                    NumberedTold { gate, shown }
                }
            })
        })
    }
}

fn lent_words(words: &super::Words) -> Words {
    Words {
        n: words.n,
        k: words.k,
        issue: words.issue,
        valid: words.valid,
    }
}

fn made(list: &PluginList, call: impl FnOnce(ListMut<'_>) -> NumberedTold) -> Made {
    let mut list = list.clone();
    let told = call(ListMut {
        regions: &mut list.regions,
        marks: &mut list.marks,
        tickets: &mut list.tickets,
    });
    let words = super::Words {
        n: told.gate.n,
        k: told.gate.k,
        issue: told.gate.issue,
        valid: told.gate.valid,
    };
    Made {
        answer: answer(told.shown),
        left: (words, list),
    }
}

/// The answer that shows this.
fn answer(given: NumberedShown) -> Answer {
    let answer = match given.kind {
        kind::TICKET => Answer::Ticket(given.ticket),
        kind::YES_OR_NO => Answer::YesNo(given.yes == 1),
        kind::PLACE => Answer::Place(given.place),
        kind::DONE => Answer::Done,
        _ => Answer::Refused(given.number),
    };
    assert_eq!(given, shown(answer), "what is shown is no answer");
    answer
}

/// What an answer shows. "A refused call ... returns only its number", and of an accepted one
/// only what it answers is not 0.
fn shown(answer: Answer) -> NumberedShown {
    NumberedShown {
        number: answer.number(),
        kind: match answer {
            Answer::Ticket(_) => kind::TICKET,
            Answer::YesNo(_) => kind::YES_OR_NO,
            Answer::Place(_) => kind::PLACE,
            Answer::Done => kind::DONE,
            Answer::Refused(_) => kind::REFUSED,
        },
        yes: answer.yes().into(),
        ticket: answer.ticket(),
        place: answer.place(),
    }
}
