//! The proved reader of schedules, compared with this crate's own.

use slot_gate::forms::{next_line, Line};

use crate::schedule::{next_call, Call, Next};

/// Every line of a schedule by both readers, up to the end or the first line that is
/// none; says how many were read.
pub fn compare_all(schedule: &[u8]) -> Result<u64, String> {
    let mut part = schedule;
    for lines in 1.. {
        match compare_one(part) {
            Ok(Some(rest)) => part = rest,
            Ok(None) => return Ok(lines),
            Err(difference) => {
                let at = schedule.len() - part.len();
                return Err(format!("next call at byte {at}: {difference}"));
            }
        }
    }
    unreachable!("a schedule ends")
}

/// What a part of a schedule begins with, by both readers; gives what follows a call.
pub fn compare_one(part: &[u8]) -> Result<Option<&[u8]>, String> {
    let (next, rest) = next_call(part);
    let (line, proved_rest) = next_line(part);
    if line != numbers(next) || proved_rest.as_ptr_range() != rest.as_ptr_range() {
        return Err(format!(
            "the reader has {next:?} and {} bytes after it, the proved one {line:?} and {}",
            rest.len(),
            proved_rest.len()
        ));
    }
    Ok(matches!(next, Next::Call(_)).then_some(rest))
}

/// What next call answers, as numbers.
fn numbers(next: Next) -> Line {
    match next {
        Next::End => [0; 4],
        Next::Call(Call::Open(n, k)) => [1, 0, n.into(), k.into()],
        Next::Call(call) => {
            let (letter, p) = call.of_plugin().expect("all but an open name a plugin");
            [2, letter.into(), p.into(), 0]
        }
        Next::Bad => [3, 0, 0, 0],
    }
}
