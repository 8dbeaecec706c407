//! "Next call (a part of a schedule)": the reader of schedules.

/// A call as a line of a schedule names it. A number has at most 4 digits.
#[derive(Clone, Copy, Debug, PartialEq, Eq, Hash)]
pub enum Call {
    Open(u16, u16),
    Take(u16),
    Look(u16),
    Leave(u16),
    Place(u16),
    Stop(u16),
    Wake(u16),
}

impl Call {
    /// The letter and the plugin; none for an open, which names no plugin.
    pub fn of_plugin(self) -> Option<(u8, u16)> {
        match self {
            Call::Open(..) => None,
            Call::Take(p) => Some((b'T', p)),
            Call::Look(p) => Some((b'L', p)),
            Call::Leave(p) => Some((b'B', p)),
            Call::Place(p) => Some((b'P', p)),
            Call::Stop(p) => Some((b'S', p)),
            Call::Wake(p) => Some((b'W', p)),
        }
    }
}

/// A call as its line, without the line feed.
impl std::fmt::Display for Call {
    fn fmt(&self, out: &mut std::fmt::Formatter<'_>) -> std::fmt::Result {
        match self {
            Call::Open(n, k) => write!(out, "O {n} {k}"),
            Call::Take(p) => write!(out, "T {p}"),
            Call::Look(p) => write!(out, "L {p}"),
            Call::Leave(p) => write!(out, "B {p}"),
            Call::Place(p) => write!(out, "P {p}"),
            Call::Stop(p) => write!(out, "S {p}"),
            Call::Wake(p) => write!(out, "W {p}"),
        }
    }
}

/// What a part of a schedule begins with.
#[derive(Clone, Copy, Debug, PartialEq, Eq)]
pub enum Next {
    End,
    Call(Call),
    /// Refusal 8.
    Bad,
}

/// "An empty part answers 'end' and returns that part. Otherwise it answers the
/// call and returns the rest of the caller's own buffer after the line. 8: the
/// part doesn't begin with a line of the grammar; the whole part is returned."
pub fn next_call(part: &[u8]) -> (Next, &[u8]) {
    if part.is_empty() {
        return (Next::End, part);
    }
    match line(part) {
        Some((call, rest)) => (Next::Call(call), rest),
        None => (Next::Bad, part),
    }
}

/// "A line is `O N k` or a letter, one space and a plugin number, then a line
/// feed. Letters: T take, L look, B leave, P place, S stop, W wake."
fn line(part: &[u8]) -> Option<(Call, &[u8])> {
    let (&letter, rest) = part.split_first()?;
    let (first, rest) = number(after(b' ', rest)?)?;
    let (call, rest) = match letter {
        b'O' => {
            let (second, rest) = number(after(b' ', rest)?)?;
            (Call::Open(first, second), rest)
        }
        b'T' => (Call::Take(first), rest),
        b'L' => (Call::Look(first), rest),
        b'B' => (Call::Leave(first), rest),
        b'P' => (Call::Place(first), rest),
        b'S' => (Call::Stop(first), rest),
        b'W' => (Call::Wake(first), rest),
        _ => return None,
    };
    Some((call, after(b'\n', rest)?))
}

/// "A number has 1 to 4 digits, no leading zero except 0 itself." All digits
/// that stand together are one number, so a fifth digit makes it none.
fn number(part: &[u8]) -> Option<(u16, &[u8])> {
    let digits = part.iter().take_while(|byte| byte.is_ascii_digit()).count();
    let leading_zero = digits > 1 && part[0] == b'0';
    if digits == 0 || digits > 4 || leading_zero {
        return None;
    }
    let (number, rest) = part.split_at(digits);
    let value = number
        .iter()
        .fold(0, |value, digit| value * 10 + u16::from(digit - b'0'));
    Some((value, rest))
}

/// What comes after a byte that must stand first.
fn after(byte: u8, part: &[u8]) -> Option<&[u8]> {
    part.strip_prefix(&[byte])
}
