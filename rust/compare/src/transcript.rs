//! "What gaterun prints", as a function from input bytes to output bytes.

use std::io::Write;

use crate::gate::{self, Answer, PluginList, Ticket, Words, MOST_PLUGINS};
use crate::schedule::{next_call, Call, Next};

/// "It reads a schedule of at most 64 KiB".
pub const LONGEST: usize = 65_536;

/// A gate with its list, as a host keeps it: what a schedule is run on.
pub trait Host {
    fn perform(&mut self, call: Call) -> Answer;
    fn words(&self) -> &Words;
    fn list(&self) -> &PluginList;
    /// The rule Valid on the words that the host has.
    fn valid(&self, ticket: Ticket) -> bool;
}

/// The host of the gate of document 01. It "starts with all words 0 and an empty
/// list".
pub struct GateHost {
    words: Words,
    list: PluginList,
}

impl Default for GateHost {
    fn default() -> GateHost {
        GateHost {
            words: Words::ZERO,
            list: PluginList::idle(0),
        }
    }
}

impl Host for GateHost {
    /// "It lends an open of N up to 1,024 a list of N records, and the calls
    /// after it that list; a refused open leaves the gate and list it had." A
    /// larger N, which gives 1 whatever the list, is lent an empty one.
    fn perform(&mut self, call: Call) -> Answer {
        if let Call::Open(n, _) = call {
            let length = if u64::from(n) <= MOST_PLUGINS { n } else { 0 };
            let mut list = PluginList::idle(length.into());
            let reply = gate::perform(call, &Words::ZERO, &mut list.lend());
            if reply.number() == 0 {
                *self = GateHost {
                    words: reply.words,
                    list,
                };
            }
            return reply.answer;
        }
        let reply = gate::perform(call, &self.words, &mut self.list.lend());
        self.words = reply.words;
        reply.answer
    }

    fn words(&self) -> &Words {
        &self.words
    }

    fn list(&self) -> &PluginList {
        &self.list
    }

    fn valid(&self, ticket: Ticket) -> bool {
        gate::steps::valid(&self.words, ticket)
    }
}

/// What `gaterun` prints for an input, by the gate of this crate.
pub fn transcript(input: &[u8]) -> Vec<u8> {
    transcript_by(&mut GateHost::default(), input)
}

/// The same by another host. "A bad line prints `bad` and the run ends; a longer
/// input prints only `long`."
pub fn transcript_by(host: &mut impl Host, input: &[u8]) -> Vec<u8> {
    if input.len() > LONGEST {
        return b"long\n".to_vec();
    }
    let mut output = Vec::new();
    let mut part = input;
    loop {
        let (next, rest) = next_call(part);
        match next {
            Next::End => return output,
            Next::Bad => {
                output.extend_from_slice(b"bad\n");
                return output;
            }
            Next::Call(call) => {
                let answer = host.perform(call);
                print_line(&mut output, call, answer, host.words());
            }
        }
        part = rest;
    }
}

/// "Each call gives a line: letter, plugin, number, answer, ISSUE, VALID, parted
/// by single spaces. An open prints `O N k` and its number."
fn print_line(output: &mut Vec<u8>, call: Call, answer: Answer, words: &Words) {
    let number = answer.number();
    let printed = match call {
        Call::Open(..) => writeln!(output, "{call} {number}"),
        _ => writeln!(
            output,
            "{call} {number} {} {} {}",
            shown(answer),
            words.issue,
            words.valid
        ),
    };
    printed.expect("writing to memory does not fail");
}

/// "answer (`-` if none; always `-` for a refusal) ... with a ticket as
/// value/colour, yes as 1 and no as 0."
pub fn shown(answer: Answer) -> String {
    match answer {
        Answer::Ticket(ticket) => ticket.to_string(),
        Answer::Yes(..) => "1".to_string(),
        Answer::No(_) => "0".to_string(),
        Answer::Place(place) => place.to_string(),
        Answer::Done | Answer::Refused(_) => "-".to_string(),
    }
}
