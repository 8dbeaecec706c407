//! The results of calls in words.

use slot_gate::{Answer, Call, Refusal, Verdict};

use crate::run::{Cell, Made, Standing};
use crate::schedule::Line;

/// The signs of the regions and of a stop, which the legend explains.
pub const WAITS: &str = "○";
pub const TURN: &str = "◐";
pub const INSIDE: &str = "●";
pub const STOPPED: &str = "■";

/// The call as its line in the schedule.
pub fn call(call: Line) -> String {
    match call {
        Line::Open(n, k) => format!("O {n} {k}"),
        Line::Call(call, p) => format!("{} {p}", char::from(call.letter())),
    }
}

/// The result in a word or two, and what is to be said about it: a look's rule, or
/// why the call was refused.
pub fn result(made: &Made) -> (String, String) {
    let refusal = match made.result {
        Ok(answer) => return accepted(made, answer),
        Err(refusal) => refusal,
    };
    let number = refusal.number();
    (format!("refused {number}"), why(made.call, refusal))
}

fn accepted(made: &Made, answer: Answer) -> (String, String) {
    let nothing = String::new();
    match answer {
        Answer::Ticket(ticket) => (format!("ticket {ticket}"), nothing),
        Answer::Verdict(Verdict::Yes(slot, rule)) => {
            (format!("yes, slot {slot}"), rule.to_string())
        }
        Answer::Verdict(verdict) => ("no".into(), verdict.rule().to_string()),
        Answer::Place(0) => ("place 0".into(), "its turn has come".into()),
        Answer::Place(place) => (format!("place {place}"), nothing),
        _ => (done(made).into(), nothing),
    }
}

fn done(made: &Made) -> &'static str {
    match made.call {
        Line::Call(Call::Leave, _) if made.waited => "turn handed back",
        Line::Call(Call::Leave, _) => "left",
        Line::Call(Call::Stop, _) => "stopped",
        Line::Call(Call::Wake, _) => "awake",
        _ => "done",
    }
}

fn why(call: Line, refusal: Refusal) -> String {
    let Line::Call(call, p) = call else {
        return "N is not 1 to 1,024, or k is not 1 to 64".into();
    };
    match (refusal, call) {
        (Refusal::NotSound, _) => "no gate is open".into(),
        (Refusal::NoSuchPlugin, _) => format!("there is no plugin {p}"),
        (Refusal::Stopped, Call::Stop) => format!("plugin {p} is stopped already"),
        (Refusal::Stopped, _) => format!("plugin {p} is stopped"),
        (Refusal::WrongRegion, Call::Take) => format!("plugin {p} is not idle"),
        (Refusal::WrongRegion, Call::Leave) => format!("plugin {p} is idle"),
        (Refusal::WrongRegion, _) => format!("plugin {p} does not wait"),
        (Refusal::NotStopped, _) => format!("plugin {p} is not stopped"),
        (Refusal::NotYetValid, _) => format!("plugin {p}'s turn has not come"),
        (other, _) => other.to_string(),
    }
}

/// What a cell shows.
pub fn cell(cell: &Cell) -> String {
    let standing = match cell.standing {
        Standing::Idle => String::new(),
        Standing::Waiting(0) => format!("{TURN} 0"),
        Standing::Waiting(place) => format!("{WAITS} {place}"),
        Standing::Inside(slot) => format!("{INSIDE} slot {slot}"),
    };
    match (cell.stopped, standing.is_empty()) {
        (false, _) => standing,
        (true, true) => STOPPED.into(),
        (true, false) => format!("{STOPPED} {standing}"),
    }
}
