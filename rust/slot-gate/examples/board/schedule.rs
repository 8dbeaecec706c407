//! The reader of schedules: a line of the grammar and nothing wider.

use slot_gate::Call;

/// A line of a schedule.
#[derive(Clone, Copy, Debug, PartialEq, Eq)]
pub enum Line {
    /// `O N k`.
    Open(u64, u64),
    /// A letter and a plugin number.
    Call(Call, u64),
}

/// The line that a part of a schedule begins with, and the rest after it; none where
/// the part begins with no line of the grammar.
pub fn next_line(part: &[u8]) -> Option<(Line, &[u8])> {
    let (&letter, rest) = part.split_first()?;
    let (first, rest) = number(rest.strip_prefix(b" ")?)?;
    let (line, rest) = if letter == b'O' {
        let (second, rest) = number(rest.strip_prefix(b" ")?)?;
        (Line::Open(first, second), rest)
    } else {
        let call = Call::ALL.iter().find(|call| call.letter() == letter)?;
        (Line::Call(*call, first), rest)
    };
    Some((line, rest.strip_prefix(b"\n")?))
}

/// 1 to 4 digits, and no leading zero but in 0 itself.
fn number(part: &[u8]) -> Option<(u64, &[u8])> {
    let digits = part.iter().take_while(|byte| byte.is_ascii_digit()).count();
    let leading_zero = digits > 1 && part[0] == b'0';
    if !(1..=4).contains(&digits) || leading_zero {
        return None;
    }
    let (digits, rest) = part.split_at(digits);
    let add = |value, digit: &u8| value * 10 + u64::from(digit - b'0');
    Some((digits.iter().fold(0, add), rest))
}
