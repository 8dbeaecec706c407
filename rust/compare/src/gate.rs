//! The gate of document 01: "The calls". Each call runs on given words and a
//! lent list, gives back its answer and the words, and changes the list in
//! place; a refused one "changes nothing lent".

mod list;
pub mod rules;
pub mod slots;
mod sound;
pub mod steps;
mod words;

pub use list::{Lent, PluginList, IDLE, INSIDE, WAITING};
pub use rules::Rule;
pub use sound::{lead, sound, sound_but_for_year, sound_plainly, year_is_sound};
pub use words::{Answer, Colour, Reply, Slot, Ticket, Value, Words};
pub use words::{COLOURS, FREE_PLACES, MOST_PLUGINS, MOST_SLOTS, YEARS};

use crate::schedule::Call;
use steps::Block;

/// A refusal's number.
pub type Refusal = u8;

/// "Open (N, k). 1: N or k out of range. 2: the list's length is not N. Else the
/// words are as at opening, all records idle and unmarked." Document 02, A.8:
/// "Opening names the year, 1979 or 1989 ... another year is refused as 1"; "10, open
/// for 1979 with k not below N, after 1." A refused open gives back words that are
/// all 0.
pub fn open(year: u64, n: u64, k: u64, list: &mut Lent) -> Reply {
    let in_range = (1..=MOST_PLUGINS).contains(&n) && (1..=MOST_SLOTS).contains(&k);
    let refusal = if !in_range || !YEARS.map(u64::from).contains(&year) {
        1
    } else if year == 1979 && k >= n {
        10
    } else if list.length() != Some(n as usize) {
        2
    } else {
        for i in 0..list.regions.len() {
            list.set(i, IDLE, Ticket::default(), Slot::default());
            list.marks[i] = 0;
        }
        return Reply {
            answer: Answer::Done,
            words: steps::opening(year as u16, n as u16, k as u8),
        };
    };
    Reply {
        answer: Answer::Refused(refusal),
        words: Words::ZERO,
    }
}

/// "Take (p). Then 4: p is 0 or above N. 5: p is stopped. 6: p is not idle. Else
/// p waits."
pub fn take(words: &Words, list: &mut Lent, p: u64) -> Reply {
    reply(words, list, |list| {
        let i = awake(list, plugin(words, p)?)?;
        in_region(list, i, IDLE)?;
        let taken = steps::take(words);
        list.set(i, WAITING, taken.issue, Slot::default());
        Ok((Answer::Ticket(taken.issue), taken))
    })
}

/// "Look (p). 4, 5, then 6: p is not waiting. Yes puts p inside; no changes
/// nothing and is not a refusal." Document 02, A.4: "A look that answers yes gives
/// the slot." A.5: it "shall answer with the rule that applied".
pub fn look(words: &Words, list: &mut Lent, p: u64) -> Reply {
    reply(words, list, |list| {
        let i = awake(list, plugin(words, p)?)?;
        in_region(list, i, WAITING)?;
        let ticket = list.ticket(i);
        let rule = rules::rule(words, ticket);
        if !steps::valid(words, ticket) {
            return Ok((Answer::No(rule), *words));
        }
        let (slot, left) = slots::give(words);
        list.set(i, INSIDE, ticket, slot);
        Ok((Answer::Yes(slot, rule), left))
    })
}

/// "Leave (p). 4, 5, then 6 ... Else p is idle, its ticket gone." Document 02,
/// A.2: "accepted also from a waiting plugin with a valid ticket, with the same
/// effect." A.4: "A handed-back turn returns no slot."
pub fn leave(words: &Words, list: &mut Lent, p: u64) -> Reply {
    reply(words, list, |list| {
        let i = awake(list, plugin(words, p)?)?;
        may_leave(words, list, i)?;
        let mut left = steps::leave(words, list.ticket(i));
        if list.regions[i] == INSIDE {
            left = slots::take_back(&left, Slot(list.slots[i]));
        }
        list.set(i, IDLE, Ticket::default(), Slot::default());
        Ok((Answer::Done, left))
    })
}

/// "Place (p). 4, 5, then 6: p is not waiting."
pub fn place(words: &Words, list: &mut Lent, p: u64) -> Reply {
    reply(words, list, |list| {
        let i = awake(list, plugin(words, p)?)?;
        in_region(list, i, WAITING)?;
        Ok((Answer::Place(steps::place(words, list.ticket(i))), *words))
    })
}

/// "Stop (p). 4, then 5: already stopped. Sets the mark; ticket and region
/// remain."
pub fn stop(words: &Words, list: &mut Lent, p: u64) -> Reply {
    reply(words, list, |list| {
        let i = awake(list, plugin(words, p)?)?;
        list.marks[i] = 1;
        Ok((Answer::Done, *words))
    })
}

/// "Wake (p). 4, then 7: not stopped. Clears the mark."
pub fn wake(words: &Words, list: &mut Lent, p: u64) -> Reply {
    reply(words, list, |list| {
        let i = plugin(words, p)?;
        if list.marks[i] == 0 {
            return Err(7);
        }
        list.marks[i] = 0;
        Ok((Answer::Done, *words))
    })
}

/// "Alike (two gates). 2 for the first, 2 for the second, 3 for the first, 3 for
/// the second", then as document 02's A.6 says.
pub fn alike(first: (&Words, &Lent), second: (&Words, &Lent)) -> Result<bool, Refusal> {
    for (words, list) in [first, second] {
        length(words, list)?;
    }
    for (words, list) in [first, second] {
        if !sound(words, list) {
            return Err(3);
        }
    }
    Ok(stand_alike(first, second))
}

/// Document 02, A.6: "Alike now means equal N and k; the same region and stop mark
/// for each plugin, and the same validity for each that holds a ticket; and the
/// same order among tickets not yet valid." Two tickets are in the order of their
/// distances, each gate's in its own block: the years may differ.
fn stand_alike(first: (&Words, &Lent), second: (&Words, &Lent)) -> bool {
    if (first.0.n, first.0.k) != (second.0.n, second.0.k) {
        return false;
    }
    if first.1.regions != second.1.regions || first.1.marks != second.1.marks {
        return false;
    }
    let told = |(words, list): (&Words, &Lent), i| {
        let (ticket, block) = (list.ticket(i), Block::of(words));
        let distance = steps::distance(block.size, ticket.value, words.valid.value);
        (steps::valid(words, ticket), distance)
    };
    let mut not_yet_valid = Vec::new();
    for i in (0..first.1.regions.len()).filter(|&i| first.1.regions[i] != IDLE) {
        let ((valid, distance), (valid2, distance2)) = (told(first, i), told(second, i));
        if valid != valid2 {
            return false;
        }
        if !valid {
            not_yet_valid.push((distance, distance2));
        }
    }
    let pairs = |a: &(u16, u16)| not_yet_valid.iter().all(|b| (a.0 < b.0) == (a.1 < b.1));
    not_yet_valid.iter().all(pairs)
}

/// Any call of a schedule on given words and a given list. For an open the words
/// are not read; document 02, A.8: "`gaterun` opens 1989".
pub fn perform(call: Call, words: &Words, list: &mut Lent) -> Reply {
    match call {
        Call::Open(n, k) => open(1989, n.into(), k.into(), list),
        Call::Take(p) => take(words, list, p.into()),
        Call::Look(p) => look(words, list, p.into()),
        Call::Leave(p) => leave(words, list, p.into()),
        Call::Place(p) => place(words, list, p.into()),
        Call::Stop(p) => stop(words, list, p.into()),
        Call::Wake(p) => wake(words, list, p.into()),
    }
}

/// A call that names a plugin, by its letter: "T take, L look, B leave, P place,
/// S stop, W wake". Any other letter is taken for W.
pub fn by_letter(letter: u8) -> fn(&Words, &mut Lent, u64) -> Reply {
    match letter {
        b'T' => take,
        b'L' => look,
        b'B' => leave,
        b'P' => place,
        b'S' => stop,
        _ => wake,
    }
}

/// "Every later call but the last two begins with these": 2, 3; then what the
/// call itself does. A refusal gives back the words that came.
fn reply(
    words: &Words,
    list: &mut Lent,
    act: impl FnOnce(&mut Lent) -> Result<(Answer, Words), Refusal>,
) -> Reply {
    let begun = length(words, list).and_then(|()| {
        if sound(words, list) {
            act(list)
        } else {
            Err(3)
        }
    });
    let (answer, words) = begun.unwrap_or_else(|number| (Answer::Refused(number), *words));
    Reply { answer, words }
}

/// "2: the list's length differs from the word N."
fn length(words: &Words, list: &Lent) -> Result<(), Refusal> {
    if list.length() == Some(usize::from(words.n)) {
        Ok(())
    } else {
        Err(2)
    }
}

/// "4: p is 0 or above N." Else the index of p's record: "Plugins are numbered
/// from 1."
fn plugin(words: &Words, p: u64) -> Result<usize, Refusal> {
    if p == 0 || p > u64::from(words.n) {
        Err(4)
    } else {
        Ok(p as usize - 1)
    }
}

/// "5: p is stopped."
fn awake(list: &Lent, i: usize) -> Result<usize, Refusal> {
    if list.marks[i] == 0 {
        Ok(i)
    } else {
        Err(5)
    }
}

/// "6: p is not" in the region that the call wants.
fn in_region(list: &Lent, i: usize, region: u8) -> Result<(), Refusal> {
    if list.regions[i] == region {
        Ok(())
    } else {
        Err(6)
    }
}

/// Document 02, A.2: "9, leave by a waiting plugin with an invalid ticket, after
/// 5; leave's 6 is now for idle plugins only."
fn may_leave(words: &Words, list: &Lent, i: usize) -> Result<(), Refusal> {
    match list.regions[i] {
        IDLE => Err(6),
        WAITING if !steps::valid(words, list.ticket(i)) => Err(9),
        _ => Ok(()),
    }
}
