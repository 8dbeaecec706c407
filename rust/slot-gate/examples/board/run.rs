//! Plays a schedule through the proved calls, and keeps what a board shows of it.

use slot_gate::lent::{self, ListMut};
use slot_gate::{Answer, Call, Gate, Refusal, Region, Slot, Words};

use crate::schedule::{next_line, Line};

/// A longer schedule is not played, as `gaterun` does not.
pub const LONGEST: usize = 65_536;

/// A schedule as it was played.
#[derive(Default)]
pub struct Run {
    /// The calls before the first gate was open, all refused.
    pub before: Vec<Made>,
    /// A board for each gate that was opened.
    pub boards: Vec<Board>,
    /// Why the schedule was not played to its end.
    pub ended: Option<Ended>,
}

/// Why a schedule was not played to its end.
pub enum Ended {
    /// This line, with the bytes that stand there, is none of the grammar.
    Bad(usize, Vec<u8>),
    /// The schedule is longer than [`LONGEST`], and no line of it was played.
    Long,
}

/// One gate, from its open to the next that was accepted.
pub struct Board {
    /// The line of its open.
    pub line: usize,
    pub plugins: u16,
    pub slots: u8,
    pub columns: Vec<Column>,
}

/// A call, and how it left all plugins.
pub struct Column {
    pub made: Made,
    /// Plugin 1's first.
    pub cells: Vec<Cell>,
}

/// A call with its result. An open is here only if it was refused.
pub struct Made {
    /// Its line in the schedule.
    pub line: usize,
    pub call: Line,
    /// Whether the caller waited before it: a leave then hands back a turn.
    pub waited: bool,
    pub result: Result<Answer, Refusal>,
}

/// How a plugin stands.
#[derive(Clone, Copy, Debug, PartialEq, Eq)]
pub struct Cell {
    pub standing: Standing,
    pub stopped: bool,
}

#[derive(Clone, Copy, Debug, PartialEq, Eq)]
pub enum Standing {
    Idle,
    /// How many returns it still waits for.
    Waiting(u16),
    Inside(Slot),
}

/// Plays a schedule. An accepted open begins a new board; a refused one leaves the
/// gate that there was.
pub fn play(schedule: &[u8]) -> Run {
    let mut run = Run::default();
    if schedule.len() > LONGEST {
        run.ended = Some(Ended::Long);
        return run;
    }
    let mut gate: Option<Gate> = None;
    let mut part = schedule;
    for line in 1.. {
        if part.is_empty() {
            break;
        }
        let Some((call, rest)) = next_line(part) else {
            let length = part.iter().position(|&byte| byte == b'\n');
            let bytes = &part[..length.unwrap_or(part.len())];
            run.ended = Some(Ended::Bad(line, bytes.to_vec()));
            break;
        };
        part = rest;
        let waited = match (call, &gate) {
            (Line::Call(_, p), Some(gate)) => gate.region(p) == Some(Region::Waiting),
            _ => false,
        };
        let result = match call {
            Line::Open(plugins, slots) => match Gate::open(plugins, slots) {
                Ok(opened) => {
                    run.boards.push(Board {
                        line,
                        plugins: opened.plugins(),
                        slots: opened.slots(),
                        columns: Vec::new(),
                    });
                    gate = Some(opened);
                    continue;
                }
                Err(refusal) => Err(refusal),
            },
            Line::Call(call, p) => match &mut gate {
                Some(gate) => perform(gate, call, p),
                None => without_gate(call, p),
            },
        };
        let made = Made {
            line,
            call,
            waited,
            result,
        };
        match (run.boards.last_mut(), &gate) {
            (Some(board), Some(gate)) => {
                let plugins = 1..=u64::from(gate.plugins());
                let cells = plugins.map(|p| cell(gate, p)).collect();
                board.columns.push(Column { made, cells });
            }
            _ => run.before.push(made),
        }
    }
    run
}

fn perform(gate: &mut Gate, call: Call, p: u64) -> Result<Answer, Refusal> {
    match call {
        Call::Take => gate.take(p).map(Answer::Ticket),
        Call::Look => gate.look(p).map(Answer::Verdict),
        Call::Leave => gate.leave(p).map(|()| Answer::Done),
        Call::Place => gate.place(p).map(Answer::Place),
        Call::Stop => gate.stop(p).map(|()| Answer::Done),
        Call::Wake => gate.wake(p).map(|()| Answer::Done),
        other => unreachable!("a schedule has no letter for {other:?}"),
    }
}

/// A call before the first gate is open: all words are 0 and the list is empty.
fn without_gate(call: Call, p: u64) -> Result<Answer, Refusal> {
    let list = ListMut {
        regions: &mut [],
        marks: &mut [],
        values: &mut [],
        colours: &mut [],
        slots: &mut [],
    };
    let mut words = Words::ZERO;
    lent::call(call, &mut words, list, p)
}

/// How plugin p stands. The place of a stopped plugin, which may not ask for it, is
/// asked of a copy of the gate in which it is awake.
fn cell(gate: &Gate, p: u64) -> Cell {
    let stopped = gate.is_stopped(p) == Some(true);
    let standing = match (gate.region(p), gate.slot(p)) {
        (Some(Region::Inside), Some(slot)) => Standing::Inside(slot),
        (Some(Region::Waiting), _) => Standing::Waiting(match stopped {
            false => gate.place(p).expect("a plugin that waits has a place"),
            true => {
                let mut copy = gate.clone();
                copy.wake(p).expect("a stopped plugin can be woken");
                copy.place(p).expect("a plugin that waits has a place")
            }
        }),
        _ => Standing::Idle,
    };
    Cell { standing, stopped }
}
