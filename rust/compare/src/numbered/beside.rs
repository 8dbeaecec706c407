//! The numbered gate beside the coloured one of 1989. "Given the same open and calls, it
//! answers as the 1989 gate, tickets, slots and rules left aside, until its first 11; up to
//! then the coloured value of ISSUE, VALID and each ticket is the number's remainder by M."

use super::calls::Calls;
use super::{Answer, PluginList, State, Words};
use crate::gate::steps::block_size;
use crate::gate::{self, MOST_PLUGINS};
use crate::schedule::{next_call, Call, Next};
use crate::transcript::{shown, Host, LONGEST};

/// What calls a numbered gate, with its words and its list. As `gaterun` it starts with all
/// words 0 and an empty list, and a refused open leaves what it had.
pub struct NumberedHost<'a> {
    calls: &'a dyn Calls,
    pub state: State,
}

impl NumberedHost<'_> {
    pub fn new(calls: &dyn Calls) -> NumberedHost<'_> {
        NumberedHost {
            calls,
            state: (Words::ZERO, PluginList::idle(0)),
        }
    }

    pub fn perform(&mut self, call: Call) -> Answer {
        let made = match (call, call.of_plugin()) {
            (_, Some((letter, p))) => self.calls.call(letter, p.into(), &self.state),
            (Call::Open(n, k), None) => {
                let length = if u64::from(n) <= MOST_PLUGINS { n } else { 0 };
                let list = PluginList::idle(length.into());
                self.calls.open(n.into(), k.into(), &list)
            }
            (other, None) => unreachable!("{other} names a plugin"),
        };
        if call.of_plugin().is_some() || made.answer == Answer::Done {
            self.state = made.left;
        }
        made.answer
    }
}

/// Where the two part after a call that they answered so; nothing if they do not.
pub fn parted(
    (answer, (words, list)): (Answer, &State),
    (coloured_answer, coloured): (gate::Answer, &dyn Host),
) -> Option<String> {
    let (words2, list2) = (coloured.words(), coloured.list());
    let size = u64::from(block_size(words2.n, words2.k));
    let told = [
        (
            "number",
            answer.number().into(),
            coloured_answer.number().into(),
        ),
        ("yes", answer.yes().into(), coloured_answer.yes().into()),
        ("place", answer.place(), coloured_answer.place().into()),
        (
            "ISSUE by M",
            words.issue % size,
            words2.issue.value.0.into(),
        ),
        (
            "VALID by M",
            words.valid % size,
            words2.valid.value.0.into(),
        ),
        (
            "length",
            list.regions.len() as u64,
            list2.regions.len() as u64,
        ),
    ];
    let record = |i: usize| {
        [
            ("region", list.regions[i].into(), list2.regions[i].into()),
            ("stop mark", list.marks[i].into(), list2.marks[i].into()),
            (
                "ticket by M",
                list.tickets[i] % size,
                list2.values[i].into(),
            ),
        ]
    };
    let records = (0..list.regions.len()).flat_map(record);
    let mut all = told.into_iter().chain(records);
    let (what, numbered, coloured): (_, u64, u64) = all.find(|(_, a, b)| a != b)?;
    Some(format!("{what} {numbered}, not {coloured}"))
}

/// What the calls of a schedule came to on both.
#[derive(Clone, Debug, Default)]
pub struct Review {
    pub calls: u64,
    /// The calls at which they part, each with how.
    pub parted: Vec<String>,
    /// What is printed: a line for each call.
    pub lines: Vec<String>,
}

impl Review {
    /// What stands above the lines.
    pub const HEAD: &'static str =
        "call     | numbered gate            | gate of 1989: number, answer, ISSUE, VALID";

    /// What stands below them.
    pub fn verdict(&self) -> String {
        let calls = self.calls;
        match &self.parted[..] {
            [] => format!("{calls} calls: the two gates part nowhere"),
            [first, ..] => format!(
                "{calls} calls: the two gates part at {} of them, first at {first}",
                self.parted.len()
            ),
        }
    }
}

/// Plays a schedule on both. A line has the call; then of each gate the number, the answer,
/// ISSUE and VALID, as `gaterun` prints them; and how they part, if they do.
pub fn review(input: &[u8], calls: &dyn Calls, coloured: &mut dyn Host) -> Review {
    let mut review = Review::default();
    if input.len() > LONGEST {
        review.lines.push("long".to_string());
        return review;
    }
    let mut numbered = NumberedHost::new(calls);
    let mut part = input;
    loop {
        let (next, rest) = next_call(part);
        let call = match next {
            Next::End => return review,
            Next::Bad => {
                review.lines.push("bad".to_string());
                return review;
            }
            Next::Call(call) => call,
        };
        part = rest;
        review.calls += 1;
        let (answer, coloured_answer) = (numbered.perform(call), coloured.perform(call));
        let (words, c_words) = (&numbered.state.0, coloured.words());
        let mut line = format!(
            "{:<8} | {:<24} | {} {} {} {}",
            call.to_string(),
            format!(
                "{} {answer} {} {}",
                answer.number(),
                words.issue,
                words.valid
            ),
            coloured_answer.number(),
            shown(coloured_answer),
            c_words.issue,
            c_words.valid
        );
        let told = ((answer, &numbered.state), (coloured_answer, &*coloured));
        if let Some(parted) = parted(told.0, told.1) {
            line.push_str(&format!(" | parted: {parted}"));
            review
                .parted
                .push(format!("call {}, {call}: {parted}", review.calls));
        }
        review.lines.push(line);
    }
}
