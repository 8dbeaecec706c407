//! The proved calls on a gate that keeps its words and its list, in a form that has every
//! call: what a schedule is run on.

use crate::forms::{Calls, Form};
use crate::gate::{steps, Answer, PluginList, Ticket, Words, MOST_PLUGINS};
use crate::proved;
use crate::schedule::Call;
use crate::transcript::Host;

pub struct ProvedHost {
    form: Form,
    words: Words,
    list: PluginList,
}

impl ProvedHost {
    pub fn new(form: Form) -> ProvedHost {
        ProvedHost {
            form,
            words: Words::ZERO,
            list: PluginList::idle(0),
        }
    }
}

impl Host for ProvedHost {
    fn perform(&mut self, call: Call) -> Answer {
        let made = match (call, call.of_plugin()) {
            (Call::Open(n, k), _) => {
                let length = if u64::from(n) <= MOST_PLUGINS { n } else { 0 };
                let list = PluginList::idle(length.into());
                self.form.open(1989, n.into(), k.into(), &list)
            }
            (_, named) => {
                let (letter, p) = named.expect("all but an open name a plugin");
                let state = (self.words, self.list.clone());
                self.form.call(letter, p.into(), &state)
            }
        };
        let made = made.expect("the form has every call");
        let answer = proved::answer(made.shown).expect("what is shown is an answer");
        // "a refused open leaves the gate and list it had."
        if !matches!(call, Call::Open(..)) || answer.number() == 0 {
            (self.words, self.list) = made.left;
        }
        answer
    }

    fn words(&self) -> &Words {
        &self.words
    }

    fn list(&self) -> &PluginList {
        &self.list
    }

    fn valid(&self, ticket: Ticket) -> bool {
        steps::valid(&self.words, ticket)
    }
}
