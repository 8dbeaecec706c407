//! "A sound gate", twice: `sound_plainly` renders the text clause by clause,
//! `sound` is the same judgement by the ranges and then one pass over the list.
//! The tests compare the two.

use super::list::{Lent, IDLE, INSIDE, WAITING};
use super::steps::{leads, Block};
use super::words::{Colour, Ticket, Value, Words};
use super::words::{COLOURS, FREE_PLACES, MOST_PLUGINS, MOST_SLOTS, YEARS};

/// "The lead d is VALID's value less ISSUE's, if the colours are equal. With
/// different colours, add M if VALID's value is the smaller, else subtract M."
pub fn lead(words: &Words) -> i64 {
    let m = i64::from(Block::of(words).size);
    let (issue, valid) = (words.issue, words.valid);
    let difference = i64::from(valid.value.0) - i64::from(issue.value.0);
    if valid.colour == issue.colour {
        difference
    } else if valid.value < issue.value {
        difference + m
    } else {
        difference - m
    }
}

/// "The places after one word up to the other go up by 1; the last value of a
/// block is followed by 0 in the other word's colour", under 1979 by 1. Gives the
/// first `number` of them.
fn places_after(word: Ticket, other: Ticket, number: i64, block: Block) -> Vec<Ticket> {
    let mut places = Vec::new();
    let mut place = word;
    for _ in 0..number {
        place = if u32::from(place.value.0) == block.last() {
            Ticket {
                value: Value(block.first),
                colour: other.colour,
            }
        } else {
            Ticket {
                value: Value(place.value.0 + 1),
                colour: place.colour,
            }
        };
        places.push(place);
    }
    places
}

/// Document 02, A.8: "Words of another year, or of 1979 with k not below N, are not
/// sound."
pub fn year_is_sound(words: &Words) -> bool {
    YEARS.contains(&words.year) && !(words.year == 1979 && u16::from(words.k) >= words.n)
}

/// "N, k, values, colours, regions and marks are in range; counts above colour
/// k are 0; an idle record's value and colour are 0", which under 1979 no held
/// ticket's value is. A list whose length is not N has no sound reading.
fn in_range(words: &Words, list: &Lent) -> bool {
    let (n, k) = (u64::from(words.n), u64::from(words.k));
    if !(1..=MOST_PLUGINS).contains(&n) || !(1..=MOST_SLOTS).contains(&k) {
        return false;
    }
    let block = Block::of(words);
    let ticket_in_range = |ticket: Ticket| block.has(ticket.value) && ticket.colour.0 <= words.k;
    list.length() == Some(usize::from(words.n))
        && ticket_in_range(words.issue)
        && ticket_in_range(words.valid)
        && words.counts[usize::from(words.k) + 1..]
            .iter()
            .all(|&count| count == 0)
        && list.regions.iter().all(|&region| region <= INSIDE)
        && list.marks.iter().all(|&mark| mark <= 1)
        && (0..list.regions.len()).all(|i| match list.regions[i] {
            IDLE => list.ticket(i) == Ticket::default(),
            _ => ticket_in_range(list.ticket(i)),
        })
}

/// "d is at most k and at least −(N − k), or at least 0 if N is not above k."
fn lead_in_range(words: &Words) -> bool {
    let d = lead(words);
    let (n, k) = (i64::from(words.n), i64::from(words.k));
    let least = if n > k { -(n - k) } else { 0 };
    least <= d && d <= k
}

/// What the later clauses speak of.
struct State<'a> {
    words: &'a Words,
    d: i64,
    /// The held tickets, each with its holder's region. An idle record holds none.
    held: Vec<(Ticket, u8)>,
    /// "the −d places after VALID up to ISSUE", if d is negative.
    after_valid: Vec<Ticket>,
    /// The "places after ISSUE up to VALID where d is positive".
    after_issue: Vec<Ticket>,
}

impl State<'_> {
    /// The held tickets that are not among the places after VALID.
    fn other_held(&self) -> impl Iterator<Item = Ticket> + '_ {
        self.held
            .iter()
            .map(|&(ticket, _)| ticket)
            .filter(|ticket| !self.after_valid.contains(ticket))
    }

    /// "No two records hold one ticket."
    fn no_two_hold_one(&self) -> bool {
        let ticket = |i: usize| self.held[i].0;
        (0..self.held.len()).all(|i| (0..i).all(|j| ticket(i) != ticket(j)))
    }

    /// "A held ticket of ISSUE's colour has a value not above ISSUE's."
    fn none_above_issue(&self) -> bool {
        let issue = self.words.issue;
        self.held
            .iter()
            .all(|&(ticket, _)| ticket.colour != issue.colour || ticket.value <= issue.value)
    }

    /// "If VALID leads and the colours differ, no held ticket has VALID's colour."
    fn none_in_valids_block(&self) -> bool {
        let (issue, valid) = (self.words.issue, self.words.valid);
        !(leads(valid, issue) && valid.colour != issue.colour)
            || self
                .held
                .iter()
                .all(|&(ticket, _)| ticket.colour != valid.colour)
    }

    /// "If d is negative, each of the −d places after VALID up to ISSUE is held
    /// by a waiting plugin."
    fn places_after_valid_wait(&self) -> bool {
        self.after_valid
            .iter()
            .all(|&place| self.held.contains(&(place, WAITING)))
    }

    /// "All other held tickets number k, less d if d is positive."
    fn others_number_k(&self) -> bool {
        self.other_held().count() as i64 == i64::from(self.words.k) - self.d.max(0)
    }

    /// "If d is 0 or less, VALID's own ticket is held."
    fn valid_is_held(&self) -> bool {
        self.d > 0
            || self
                .held
                .iter()
                .any(|&(ticket, _)| ticket == self.words.valid)
    }

    /// "No plugin inside holds one of those places after VALID."
    fn none_inside_after_valid(&self) -> bool {
        !self
            .held
            .iter()
            .any(|(ticket, region)| *region == INSIDE && self.after_valid.contains(ticket))
    }

    /// "The count of a colour is its held tickets outside those places, plus its
    /// places after ISSUE up to VALID where d is positive."
    fn counts_agree(&self) -> bool {
        let mut counts = [0usize; COLOURS];
        for ticket in self.other_held() {
            counts[usize::from(ticket.colour.0)] += 1;
        }
        for place in &self.after_issue {
            counts[usize::from(place.colour.0)] += 1;
        }
        (0..=self.words.k).all(|colour| {
            usize::from(self.words.count(Colour(colour))) == counts[usize::from(colour)]
        })
    }
}

/// Document 02, A.4: "In a sound gate places and slots are as said here, each plugin
/// inside has one of the slots 1 to k, and each slot is free once or with one plugin
/// inside": one of the two, not both.
struct Slots<'a> {
    k: u8,
    free: &'a [u8; FREE_PLACES],
    /// Each record's region and slot.
    records: Vec<(u8, u8)>,
}

impl Slots<'_> {
    /// "64 places for the free slots in order, 0 after the last": slots 1 to k, and
    /// after the first 0 no slot.
    fn places_as_said(&self) -> bool {
        let mut after = self.free.iter().skip_while(|&&slot| slot != 0);
        self.free.iter().all(|&slot| slot <= self.k) && after.all(|&slot| slot == 0)
    }

    /// "a record gains its slot, 0 unless inside".
    fn none_outside(&self) -> bool {
        self.records
            .iter()
            .all(|&(region, slot)| region == INSIDE || slot == 0)
    }

    /// "each plugin inside has one of the slots 1 to k".
    fn each_inside_has_one(&self) -> bool {
        self.records
            .iter()
            .all(|&(region, slot)| region != INSIDE || (1..=self.k).contains(&slot))
    }

    /// "each slot is free once or with one plugin inside".
    fn each_is_in_one_place(&self) -> bool {
        (1..=self.k).all(|slot| {
            let free = self.free.iter().filter(|&&other| other == slot).count();
            let with = self.records.iter();
            let with = with.filter(|&&record| record == (INSIDE, slot)).count();
            (free, with) == (1, 0) || (free, with) == (0, 1)
        })
    }
}

/// "Words and list are sound when all of this is true", clause by clause.
pub fn sound_plainly(words: &Words, list: &Lent) -> bool {
    if !year_is_sound(words) || !in_range(words, list) || !lead_in_range(words) {
        return false;
    }
    let slots = Slots {
        k: words.k,
        free: &words.free,
        records: (0..list.regions.len())
            .map(|i| (list.regions[i], list.slots[i]))
            .collect(),
    };
    let block = Block::of(words);
    let d = lead(words);
    let state = State {
        words,
        d,
        held: (0..list.regions.len())
            .filter(|&i| list.regions[i] != IDLE)
            .map(|i| (list.ticket(i), list.regions[i]))
            .collect(),
        after_valid: places_after(words.valid, words.issue, -d, block),
        after_issue: places_after(words.issue, words.valid, d, block),
    };
    state.no_two_hold_one()
        && state.none_above_issue()
        && state.none_in_valids_block()
        && state.places_after_valid_wait()
        && state.others_number_k()
        && state.valid_is_held()
        && state.none_inside_after_valid()
        && state.counts_agree()
        && slots.places_as_said()
        && slots.none_outside()
        && slots.each_inside_has_one()
        && slots.each_is_in_one_place()
}

/// The same judgement: the year, then the rest.
pub fn sound(words: &Words, list: &Lent) -> bool {
    year_is_sound(words) && sound_but_for_year(words, list)
}

/// Whether nothing is wrong but, perhaps, the year: the ranges, then one pass. Held
/// tickets are told apart by a bit each; whether a ticket is one of the places after
/// VALID is read off its value and colour. As no two records hold one ticket, all of
/// those −d places are held just when −d held tickets are among them. Each slot is
/// counted where it is found, in the row or with a plugin inside.
pub fn sound_but_for_year(words: &Words, list: &Lent) -> bool {
    if !in_range(words, list) || !lead_in_range(words) {
        return false;
    }
    let d = lead(words);
    let block = Block::of(words);
    let m = block.size as usize;
    let (issue, valid) = (words.issue, words.valid);
    let one_colour = issue.colour == valid.colour;
    let after_valid = |ticket: Ticket| {
        let above_valid = ticket.colour == valid.colour && ticket.value > valid.value;
        let up_to_issue = ticket.colour == issue.colour && ticket.value <= issue.value;
        d < 0
            && (if one_colour {
                above_valid && up_to_issue
            } else {
                above_valid || up_to_issue
            })
    };

    let mut seen = vec![0u64; (m * (usize::from(words.k) + 1)).div_ceil(64)];
    let mut counts = [0i64; COLOURS];
    let (mut waiting_after_valid, mut others) = (0, 0);
    let mut valid_is_held = false;
    let row = words.free.iter().take_while(|&&slot| slot != 0).count();
    let (row, rest) = words.free.split_at(row);
    let above_k = |slots: &[u8]| slots.iter().any(|&slot| slot > words.k);
    if above_k(&words.free) || above_k(list.slots) {
        return false;
    }
    let mut found = [0u16; FREE_PLACES + 1];
    for &slot in row {
        found[usize::from(slot)] += 1;
    }
    for i in 0..list.regions.len() {
        let slot = list.slots[i];
        if (list.regions[i] == INSIDE) != (slot != 0) {
            return false;
        }
        if list.regions[i] == IDLE {
            continue;
        }
        found[usize::from(slot)] += 1;
        let ticket = list.ticket(i);
        let at = usize::from(ticket.colour.0) * m + usize::from(ticket.value.0 - block.first);
        let held_twice = seen[at / 64] >> (at % 64) & 1 == 1;
        seen[at / 64] |= 1 << (at % 64);
        let above_issue = ticket.colour == issue.colour && ticket.value > issue.value;
        let in_valids_block = d > 0 && !one_colour && ticket.colour == valid.colour;
        if held_twice || above_issue || in_valids_block {
            return false;
        }
        valid_is_held |= ticket == valid;
        if after_valid(ticket) {
            if list.regions[i] == INSIDE {
                return false;
            }
            waiting_after_valid += 1;
        } else {
            others += 1;
            counts[usize::from(ticket.colour.0)] += 1;
        }
    }

    if d > 0 && one_colour {
        counts[usize::from(valid.colour.0)] += d;
    } else if d > 0 {
        counts[usize::from(issue.colour.0)] += i64::from(block.last()) - i64::from(issue.value.0);
        counts[usize::from(valid.colour.0)] += i64::from(valid.value.0 - block.first) + 1;
    }
    waiting_after_valid == (-d).max(0)
        && others == i64::from(words.k) - d.max(0)
        && (d > 0 || valid_is_held)
        && (0..COLOURS).all(|colour| i64::from(words.counts[colour]) == counts[colour])
        && rest.iter().all(|&slot| slot == 0)
        && (1..=words.k).all(|slot| found[usize::from(slot)] == 1)
}
