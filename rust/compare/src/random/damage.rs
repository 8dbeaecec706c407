//! Damaged texts: most are no longer lines of the grammar from some line on.

use super::Random;

/// A text damaged in one to three places.
pub fn damaged(random: &mut Random, mut text: Vec<u8>) -> Vec<u8> {
    for _ in 0..random.between(1, 3) {
        damage(random, &mut text);
    }
    text
}

fn damage(random: &mut Random, text: &mut Vec<u8>) {
    if text.is_empty() {
        text.push(random.number() as u8);
        return;
    }
    let at = random.below(text.len());
    let space = place_of(text, at, b' ');
    let line_feed = place_of(text, at, b'\n');
    match random.below(14) {
        // A byte changed, put in or taken out.
        0 => text[at] = random.number() as u8,
        1 => text[at] = random.pick(b"OTLBPSW 0123456789\n\r\t+-/:otlbpsw\0"),
        2 => text.insert(at, random.pick(b"OTLBPSW 0123456789\n")),
        3 => drop(text.remove(at)),
        // A leading zero.
        4 => text.insert(space + 1, b'0'),
        // Two spaces.
        5 => text.insert(space, b' '),
        // A missing space.
        6 => drop(text.remove(space)),
        // A missing line feed, here or at the end.
        7 => drop(text.remove(line_feed)),
        8 => drop(text.pop()),
        // Five digits, or just four.
        9 => drop(text.splice(space + 1..space + 1, *b"1111")),
        10 => drop(text.splice(space + 1..space + 1, *b"111")),
        // A carriage return or a space before the line feed, or an empty line.
        11 => text.insert(line_feed, random.pick(b"\r \n")),
        // A plugin 0 where a number began, which may be `0` and so a line.
        12 => drop(text.splice(space + 1..line_feed.max(space + 1), *b"0")),
        // A text cut short.
        _ => text.truncate(at),
    }
}

/// Where a byte stands next, from a place on; else the last place.
fn place_of(text: &[u8], from: usize, byte: u8) -> usize {
    text[from..]
        .iter()
        .position(|&other| other == byte)
        .map_or(text.len() - 1, |i| from + i)
}

/// A text of just this length: lines are taken off or put on at the end. All of
/// it remains lines of the grammar if the text was.
pub fn of_length(mut text: Vec<u8>, length: usize) -> Vec<u8> {
    while text.len() > length || (text.len() < length && length - text.len() < 4) {
        text.pop();
        while text.last().is_some_and(|&byte| byte != b'\n') {
            text.pop();
        }
    }
    while text.len() < length {
        let line: &[u8] = match length - text.len() {
            5 => b"P 10\n",
            6 => b"P 100\n",
            7 => b"P 1000\n",
            _ => b"P 1\n",
        };
        text.extend_from_slice(line);
    }
    text
}
