//! What makes calls on this crate's words and lists: the proved calls in each of the
//! forms in which they are exported. A gate with a fault can stand in their place.

use slot_gate::forms::{self, Shown, Told};

use crate::gate::{PluginList, Words};
use crate::proved;
use crate::random::states::State;

/// The calls that are compared with those of the gate. There is none of a call that it
/// does not have, or not on such a list.
pub trait Calls {
    fn name(&self) -> &'static str;

    /// An open of a year over a list.
    fn open(&self, year: u64, n: u64, k: u64, list: &PluginList) -> Option<Made>;

    /// The call of a letter, which may name none.
    fn call(&self, letter: u8, p: u64, state: &State) -> Option<Made>;

    /// Alike of two gates.
    fn alike(&self, first: &State, second: &State) -> Option<Shown>;
}

/// A form of the proved calls.
#[derive(Clone, Copy, Debug, PartialEq, Eq)]
pub enum Form {
    /// The list as five number slices.
    Slices,
    /// The list as records: only of a list whose slices have one length.
    Records,
    /// Take and leave with the gate words changed where they lie.
    InPlace,
    /// Look, stop and wake, with those slices lent for writing that the call changes.
    Passed,
    /// Place on a list that is only read.
    ReadOnly,
}

/// What a call shows and leaves.
#[derive(Clone, Debug, PartialEq, Eq)]
pub struct Made {
    pub shown: Shown,
    pub left: State,
}

impl Form {
    pub const ALL: [Form; 5] = [
        Form::Slices,
        Form::Records,
        Form::InPlace,
        Form::Passed,
        Form::ReadOnly,
    ];
}

impl Calls for Form {
    fn name(&self) -> &'static str {
        match self {
            Form::Slices => "number slices",
            Form::Records => "records",
            Form::InPlace => "words in place",
            Form::Passed => "words passed",
            Form::ReadOnly => "a list only read",
        }
    }

    fn open(&self, year: u64, n: u64, k: u64, list: &PluginList) -> Option<Made> {
        match self {
            Form::Slices => Some(on_slices(list, |lent| forms::open(year, n, k, lent))),
            Form::Records => on_records(list, |records| forms::records_open(year, n, k, records)),
            Form::InPlace | Form::Passed | Form::ReadOnly => None,
        }
    }

    fn call(&self, letter: u8, p: u64, (words, list): &State) -> Option<Made> {
        let mut words = proved::lent_words(words);
        match (self, letter) {
            (Form::Slices, _) => Some(on_slices(list, |lent| forms::call(letter, words, lent, p))),
            (Form::Records, _) => on_records(list, |records| {
                forms::records_call(letter, words, records, p)
            }),
            (Form::InPlace, b'T' | b'B') => Some(on_slices(list, |lent| {
                let shown = match letter {
                    b'T' => forms::in_place_take(&mut words, lent, p),
                    _ => forms::in_place_leave(&mut words, lent, p),
                };
                let gate = words;
                Told { gate, shown }
            })),
            (Form::Passed, b'L' | b'S' | b'W') => Some(on_slices(list, |lent| match letter {
                b'L' => forms::passed_look(words, lent, p),
                b'S' => forms::passed_stop(words, lent, p),
                _ => forms::passed_wake(words, lent, p),
            })),
            (Form::ReadOnly, b'P') => Some(on_slices(list, |lent| {
                let (gate, shown) = (words, forms::place(words, lent.show(), p));
                Told { gate, shown }
            })),
            (Form::InPlace | Form::Passed | Form::ReadOnly, _) => None,
        }
    }

    fn alike(&self, first: &State, second: &State) -> Option<Shown> {
        let words = [first, second].map(|(words, _)| proved::lent_words(words));
        match self {
            Form::Slices => {
                let (mut list, mut list2) = (first.1.clone(), second.1.clone());
                let (lent, lent2) = (list.lend(), list2.lend());
                let lists = [proved::shown_list(&lent), proved::shown_list(&lent2)];
                Some(forms::alike(words[0], lists[0], words[1], lists[1]))
            }
            Form::Records if has_one_length(&first.1) && has_one_length(&second.1) => {
                let lists = [first, second].map(|(_, list)| proved::records(list));
                Some(forms::records_alike(
                    words[0], &lists[0], words[1], &lists[1],
                ))
            }
            Form::Records | Form::InPlace | Form::Passed | Form::ReadOnly => None,
        }
    }
}

fn on_slices(list: &PluginList, call: impl FnOnce(slot_gate::lent::ListMut<'_>) -> Told) -> Made {
    let mut list = list.clone();
    let told = call(proved::lent_list(&mut list.lend()));
    made(told, list)
}

fn on_records(
    list: &PluginList,
    call: impl FnOnce(&mut [slot_gate::Record]) -> Told,
) -> Option<Made> {
    has_one_length(list).then(|| {
        let mut records = proved::records(list);
        let told = call(&mut records);
        made(told, proved::own_list(&records))
    })
}

fn made(told: Told, list: PluginList) -> Made {
    let words: Words = proved::own_words(&told.gate);
    Made {
        shown: told.shown,
        left: (words, list),
    }
}

fn has_one_length(list: &PluginList) -> bool {
    let length = list.regions.len();
    let others = [
        list.marks.len(),
        list.values.len(),
        list.colours.len(),
        list.slots.len(),
    ];
    others == [length; 4]
}
