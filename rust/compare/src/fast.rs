//! The calls written for speed, to measure the proved ones against: document
//! 01's "A sound gate" in one pass over the list, with tables on the stack, no
//! allocation and no record compared with another. The tests hold it to the
//! clause-by-clause judgement, and its calls to those of [`crate::gate`].

use crate::gate::{rules, steps};
use crate::gate::{Answer, Lent, Refusal, Slot, Ticket, Words, IDLE, INSIDE, WAITING};
use crate::gate::{COLOURS, FREE_PLACES, MOST_PLUGINS, MOST_SLOTS};

/// The call of plugin p that a letter of "T take, L look, B leave, P place, S stop,
/// W wake" names, on words and a list that it changes in place. A refused one
/// changes nothing.
pub fn call(letter: u8, words: &mut Words, list: &mut Lent, p: u64) -> Answer {
    if list.length() != Some(usize::from(words.n)) {
        return Answer::Refused(2);
    }
    if !sound(words, list) {
        return Answer::Refused(3);
    }
    if p == 0 || p > u64::from(words.n) {
        return Answer::Refused(4);
    }
    let i = p as usize - 1;
    let stopped = list.marks[i] != 0;
    if letter == b'W' {
        if !stopped {
            return Answer::Refused(7);
        }
        list.marks[i] = 0;
        return Answer::Done;
    }
    if stopped {
        return Answer::Refused(5);
    }
    match (letter, list.regions[i]) {
        (b'T', IDLE) => {
            *words = steps::take(words);
            list.set(i, WAITING, words.issue, Slot::default());
            Answer::Ticket(words.issue)
        }
        (b'L', WAITING) if !steps::valid(words, list.ticket(i)) => {
            Answer::No(rules::rule(words, list.ticket(i)))
        }
        (b'L', WAITING) => {
            let rule = rules::rule(words, list.ticket(i));
            let slot = words.free[0];
            words.free.copy_within(1.., 0);
            words.free[FREE_PLACES - 1] = 0;
            list.regions[i] = INSIDE;
            list.slots[i] = slot;
            Answer::Yes(Slot(slot), rule)
        }
        (b'B', WAITING) if !steps::valid(words, list.ticket(i)) => Answer::Refused(9),
        (b'B', region @ (WAITING | INSIDE)) => {
            *words = steps::leave(words, list.ticket(i));
            if region == INSIDE {
                // The gate is sound: the row has a place for every slot.
                let length = words.free.iter().take_while(|&&slot| slot != 0).count();
                words.free[length] = list.slots[i];
            }
            list.set(i, IDLE, Ticket::default(), Slot::default());
            Answer::Done
        }
        (b'P', WAITING) => Answer::Place(steps::place(words, list.ticket(i))),
        (b'S', _) => {
            list.marks[i] = 1;
            Answer::Done
        }
        _ => Answer::Refused(6),
    }
}

/// "Alike (two gates)": whether each plugin has the same region, stop mark and
/// place in both. A ticket that is not valid has place less 1 such tickets before it.
pub fn alike(first: (&Words, &Lent), second: (&Words, &Lent)) -> Result<bool, Refusal> {
    for (words, list) in [first, second] {
        if list.length() != Some(usize::from(words.n)) {
            return Err(2);
        }
    }
    for (words, list) in [first, second] {
        if !sound(words, list) {
            return Err(3);
        }
    }
    let one_size = first.0.n == second.0.n && first.0.k == second.0.k;
    let place = |(words, list): (&Words, &Lent), i| steps::place(words, list.ticket(i));
    let (one, other) = (first.1, second.1);
    let same = |i| {
        let (region, other_region) = (one.regions[i], other.regions[i]);
        region == other_region
            && one.marks[i] == other.marks[i]
            && (region == IDLE || place(first, i) == place(second, i))
    };
    Ok(one_size && (0..one.regions.len()).all(same))
}

/// "Words and list are sound when all of this is true." Each year's block has a judgement
/// of its own.
pub fn sound(words: &Words, list: &Lent) -> bool {
    let (n, k) = (words.n, u16::from(words.k));
    match words.year {
        1989 => sound_from::<0>(words, list, 1u16.saturating_add(k.max(n.saturating_sub(k)))),
        1979 if k < n => sound_from::<1>(words, list, n),
        _ => false,
    }
}

/// The same in a block of m values, which are counted here from its first on: one below
/// that goes round, and is not below m either. Out of line it is the faster.
#[inline(never)]
fn sound_from<const FIRST: u16>(words: &Words, list: &Lent, m: u16) -> bool {
    let counted = |value: u16| value.wrapping_sub(FIRST);
    // N, k, ISSUE and VALID in range.
    let (n, k) = (words.n, u16::from(words.k));
    if n == 0 || u64::from(n) > MOST_PLUGINS || k == 0 || u64::from(k) > MOST_SLOTS {
        return false;
    }
    if list.length() != Some(usize::from(n)) {
        return false;
    }
    let (issue, valid) = (words.issue, words.valid);
    let (iv, vv) = (counted(issue.value.0), counted(valid.value.0));
    for (value, colour) in [(iv, issue.colour.0), (vv, valid.colour.0)] {
        if value >= m || u16::from(colour) > k {
            return false;
        }
    }

    // The lead: VALID is so many places ahead of ISSUE, or so many behind it.
    let one_colour = issue.colour == valid.colour;
    let (ahead, behind) = match (one_colour, vv < iv) {
        (true, false) => (vv - iv, 0),
        (true, true) => (0, iv - vv),
        (false, true) => (vv + m - iv, 0),
        (false, false) => (0, iv + m - vv),
    };
    if ahead > k || behind > n.saturating_sub(k) {
        return false;
    }
    // "If VALID leads and the colours differ, no held ticket has VALID's colour."
    let unheld = ahead > 0 && !one_colour;
    // "All other held tickets number k, less d if d is positive."
    let number = usize::from(k - ahead);

    // The list. A held ticket is one of the places after VALID, told apart by a
    // bit each, or another, told apart by a table. A slot is a bit.
    let mut places = [0u64; MOST_PLUGINS as usize / 64];
    let mut others = Others::new();
    let mut counts = [0u8; COLOURS];
    let mut waiting = 0;
    let (mut inside, mut taken) = (0, 0u64);
    let records = list.regions.iter().zip(list.marks.iter());
    let tickets = list.values.iter().zip(list.colours.iter());
    let records = records.zip(list.slots.iter());
    for (((&region, &mark), &slot), (&value, &colour)) in records.zip(tickets) {
        if region > INSIDE || mark > 1 {
            return false;
        }
        if region == INSIDE {
            let Some(bit) = slot_bit(slot, words.k) else {
                return false;
            };
            taken |= bit;
            inside += 1;
        } else if slot != 0 {
            return false;
        }
        if region == IDLE {
            if value != 0 || colour != 0 {
                return false;
            }
            continue;
        }
        let value = counted(value);
        if value >= m || u16::from(colour) > k {
            return false;
        }
        let in_issues = colour == issue.colour.0;
        let in_valids = colour == valid.colour.0;
        if (in_issues && value > iv) || (unheld && in_valids) {
            return false;
        }
        // How far after VALID's value, going round the block.
        let after = if value > vv {
            value - vv
        } else {
            value + m - vv
        };
        let right_colour = if value > vv { in_valids } else { in_issues };
        if after <= behind && right_colour {
            if region == INSIDE {
                return false;
            }
            let (word, bit) = (usize::from(after - 1) / 64, (after - 1) % 64);
            if places[word] >> bit & 1 == 1 {
                return false;
            }
            places[word] |= 1 << bit;
            waiting += 1;
        } else {
            if others.length == number || !others.insert(value, colour) {
                return false;
            }
            counts[usize::from(colour)] += 1;
        }
    }
    // No place is held twice, so all are held when as many are.
    if waiting != behind || others.length != number {
        return false;
    }
    // "If d is 0 or less, VALID's own ticket is held."
    if ahead == 0 && !others.contains(vv, valid.colour.0) {
        return false;
    }
    // The counts, with the places after ISSUE up to VALID.
    let within = ahead.min(m - 1 - iv);
    counts[usize::from(issue.colour.0)] += within as u8;
    counts[usize::from(valid.colour.0)] += (ahead - within) as u8;
    counts == words.counts && slots_sound(words, inside, taken)
}

/// "each slot is free once or with one plugin inside": the row has as many slots as
/// are not with the plugins inside, and no place after them has one. All k slots are
/// then found, and k places were looked at, so each was found once.
fn slots_sound(words: &Words, inside: usize, mut found: u64) -> bool {
    // No more than k are inside: none of them has a place after VALID.
    let (row, rest) = words.free.split_at(usize::from(words.k) - inside);
    for &slot in row {
        match slot_bit(slot, words.k) {
            Some(bit) => found |= bit,
            None => return false,
        }
    }
    found == u64::MAX >> (64 - words.k) && rest.iter().fold(0, |all, &slot| all | slot) == 0
}

/// The bit of a slot 1 to k.
fn slot_bit(slot: u8, k: u8) -> Option<u64> {
    let at = slot.wrapping_sub(1);
    (at < k).then(|| 1 << at)
}

/// The held tickets that are none of the places after VALID, at most 64: a hash
/// table with open addressing, never more than half full.
struct Others {
    /// A ticket's code, or 0 where there is none.
    table: [u32; Others::ROOM],
    length: usize,
}

impl Others {
    const BITS: u32 = 7;
    const ROOM: usize = 1 << Others::BITS;
    /// 2 to the 32nd by the golden ratio: it spreads codes that lie close or
    /// share a remainder.
    const FACTOR: u32 = 0x9E37_79B9;

    fn new() -> Others {
        Others {
            table: [0; Others::ROOM],
            length: 0,
        }
    }

    /// Where a ticket is in the table, or where it would be put; and its code.
    fn seek(&self, value: u16, colour: u8) -> (usize, u32) {
        let code = u32::from(value) << 8 | u32::from(colour + 1);
        let mut at = (code.wrapping_mul(Others::FACTOR) >> (32 - Others::BITS)) as usize;
        while self.table[at] != 0 && self.table[at] != code {
            at = (at + 1) % Others::ROOM;
        }
        (at, code)
    }

    /// Puts a ticket in; says whether it was new.
    fn insert(&mut self, value: u16, colour: u8) -> bool {
        let (at, code) = self.seek(value, colour);
        let new = self.table[at] == 0;
        self.table[at] = code;
        self.length += usize::from(new);
        new
    }

    fn contains(&self, value: u16, colour: u8) -> bool {
        let (at, _) = self.seek(value, colour);
        self.table[at] != 0
    }
}
