//! The readable gate: the Numbered Ticket Algorithm of document 001 (Figures 2 and 3) with
//! the calls that document 02's A.9 gives it, written from these papers alone. "ISSUE and
//! VALID are 64-bit counters starting at 0 and k, tickets are counter values, and a ticket
//! is valid when not above VALID. It has open, which names no year, and the calls take to
//! wake, and no slots."

pub mod beside;
pub mod calls;
pub mod faults;
mod list;
pub mod proved;
mod sound;
pub mod states;
mod words;

pub use list::{Lent, PluginList};
pub use sound::{sound, sound_but_for, Clause};
pub use words::{Answer, Reply, Words, GREATEST};

use crate::gate::{Refusal, IDLE, INSIDE, MOST_PLUGINS, MOST_SLOTS, WAITING};

/// A gate's words with its list.
pub type State = (Words, PluginList);

/// "Open (N, k). 1: N or k out of range. 2: the list's length is not N." A.9: it "names no
/// year". Figure 3: "ISSUE = 0, VALID = k". A refused open gives back words that are all 0.
pub fn open(n: u64, k: u64, list: &mut Lent) -> Reply {
    let in_range = (1..=MOST_PLUGINS).contains(&n) && (1..=MOST_SLOTS).contains(&k);
    let refusal = if !in_range {
        1
    } else if list.length() != Some(n as usize) {
        2
    } else {
        for i in 0..list.regions.len() {
            list.set(i, IDLE, 0);
            list.marks[i] = 0;
        }
        let words = Words {
            n: n as u16,
            k: k as u8,
            issue: 0,
            valid: k,
        };
        return Reply::new(Answer::Done, words);
    };
    Reply::new(Answer::Refused(refusal), Words::ZERO)
}

/// A call that names a plugin, by its letter: "T take, L look, B leave, P place, S stop, W
/// wake"; any other letter is refused as 8. "2: the list's length differs from the word N.
/// 3: not sound. Then 4: p is 0 or above N."
pub fn call(letter: u8, words: &Words, list: &mut Lent, p: u64) -> Reply {
    call_but_for(None, letter, words, list, p)
}

/// The same where one clause of what is sound is not asked.
pub fn call_but_for(
    dropped: Option<Clause>,
    letter: u8,
    words: &Words,
    list: &mut Lent,
    p: u64,
) -> Reply {
    let act = match letter {
        b'T' => take,
        b'L' => look,
        b'B' => leave,
        b'P' => place,
        b'S' => stop,
        b'W' => wake,
        _ => return Reply::new(Answer::Refused(8), *words),
    };
    let done = if list.length() != Some(words.n.into()) {
        Err(2)
    } else if !sound_but_for(dropped, words, list) {
        Err(3)
    } else if p == 0 || p > u64::from(words.n) {
        Err(4)
    } else {
        act(words, list, p as usize - 1)
    };
    match done {
        Ok((answer, words)) => Reply::new(answer, words),
        Err(number) => Reply::new(Answer::Refused(number), *words),
    }
}

/// What a call answers and what words it leaves, or why it is refused. Its plugin's record is
/// at an index of the list.
type Acted = Result<(Answer, Words), Refusal>;

/// Figure 3, TAKE_NEXT_TICKET: "ISSUE := ISSUE + 1; return ISSUE". "5: p is stopped. 6: p is
/// not idle." A.9: "11, a counter is already 18,446,744,073,709,551,615 and the call would
/// raise it, last in take and leave."
fn take(words: &Words, list: &mut Lent, i: usize) -> Acted {
    awake(list, i)?;
    in_region(list, i, IDLE)?;
    let issue = raised(words.issue)?;
    list.set(i, WAITING, issue);
    Ok((Answer::Ticket(issue), Words { issue, ..*words }))
}

/// Figure 3, IS_VALID. "5, then 6: p is not waiting. Yes puts p inside; no changes nothing and
/// is not a refusal."
fn look(words: &Words, list: &mut Lent, i: usize) -> Acted {
    awake(list, i)?;
    in_region(list, i, WAITING)?;
    let yes = valid(words, list.tickets[i]);
    if yes {
        list.regions[i] = INSIDE;
    }
    Ok((Answer::YesNo(yes), *words))
}

/// Figure 3, VALIDATE_NEXT_TICKET: "VALID := VALID + 1". "Else p is idle, its ticket gone."
/// A.2: "9, leave by a waiting plugin with an invalid ticket, after 5; leave's 6 is now for
/// idle plugins only."
fn leave(words: &Words, list: &mut Lent, i: usize) -> Acted {
    awake(list, i)?;
    match list.regions[i] {
        IDLE => return Err(6),
        WAITING if !valid(words, list.tickets[i]) => return Err(9),
        _ => {}
    }
    let valid = raised(words.valid)?;
    list.set(i, IDLE, 0);
    Ok((Answer::Done, Words { valid, ..*words }))
}

/// "5, then 6: p is not waiting." A.1: "the number of returns until the ticket is valid: 0 for
/// a valid ticket, the distance for another".
fn place(words: &Words, list: &mut Lent, i: usize) -> Acted {
    awake(list, i)?;
    in_region(list, i, WAITING)?;
    let returns = list.tickets[i].saturating_sub(words.valid);
    Ok((Answer::Place(returns), *words))
}

/// "5: already stopped. Sets the mark; ticket and region remain."
fn stop(words: &Words, list: &mut Lent, i: usize) -> Acted {
    awake(list, i)?;
    list.marks[i] = 1;
    Ok((Answer::Done, *words))
}

/// "7: not stopped. Clears the mark."
fn wake(words: &Words, list: &mut Lent, i: usize) -> Acted {
    if list.marks[i] == 0 {
        return Err(7);
    }
    list.marks[i] = 0;
    Ok((Answer::Done, *words))
}

/// "a ticket is valid when not above VALID".
pub fn valid(words: &Words, ticket: u64) -> bool {
    ticket <= words.valid
}

/// A counter 1 higher, or 11 where there is no higher one.
fn raised(counter: u64) -> Result<u64, Refusal> {
    counter.checked_add(1).ok_or(11)
}

fn awake(list: &Lent, i: usize) -> Result<(), Refusal> {
    if list.marks[i] == 0 {
        Ok(())
    } else {
        Err(5)
    }
}

fn in_region(list: &Lent, i: usize, region: u8) -> Result<(), Refusal> {
    if list.regions[i] == region {
        Ok(())
    } else {
        Err(6)
    }
}
