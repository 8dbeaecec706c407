//! The proved replay of whole lists of calls, compared with the plain queue: every
//! number, yes or no and place that it writes, the regions and stop marks that it
//! leaves, and which tickets are valid. The slots that it gives and leaves are those
//! of the rule of the slots, which hears what the queue said. The tickets are those of
//! a ledger that is kept from what was written; words, tickets and the rules by which
//! looks are answered are those of this crate's gate.

use slot_gate::forms::{self, ended};

use crate::gate::{self, PluginList, Rule, Ticket, Words};
use crate::gate::{FREE_PLACES, IDLE, INSIDE, WAITING};
use crate::proved;
use crate::queue::{Queue, Region, Reply};
use crate::random::schedules;
use crate::random::states::{any_plugin, any_year, open_year, uneven, LETTERS};
use crate::random::Random;
use crate::slot_rule::SlotRule;

/// What the compared replays came to.
#[derive(Clone, Debug, Default)]
pub struct Tally {
    pub lists: u64,
    /// Those of them that ran on a gate of 1979.
    pub early: u64,
    /// How the replays ended: ran, not opened, too short, no such call.
    pub ended: [u64; 4],
    /// The calls that were run, by number, and the most of one list.
    pub numbers: [u64; 11],
    pub calls: u64,
    pub longest: usize,
    /// The slots that their looks gave, and the looks by the rules that decided them.
    pub given: u64,
    pub rules: [u64; Rule::NAMES.len()],
}

/// What is lent to a replay.
#[derive(Clone, Debug, PartialEq, Eq)]
struct Case {
    year: u64,
    n: u64,
    k: u64,
    letters: Vec<u8>,
    plugins: Vec<u64>,
    list: PluginList,
    results: Results,
}

#[derive(Clone, Debug, PartialEq, Eq)]
struct Results {
    numbers: Vec<u8>,
    verdicts: Vec<u8>,
    places: Vec<u16>,
    tickets: Vec<u16>,
    shades: Vec<u8>,
    given: Vec<u8>,
    rules: Vec<u8>,
    of_tickets: Vec<u16>,
    against: Vec<u16>,
}

/// So many lists of calls; the first difference is the error.
pub fn compare(seed: u64, count: u64, tally: &mut Tally) -> Result<(), String> {
    let mut seeds = Random::new(seed);
    for i in 1..=count {
        let case = Case::any(&mut Random::new(seeds.number()));
        case.compare(tally)
            .map_err(|difference| format!("list {i}: {difference}"))?;
    }
    Ok(())
}

impl Case {
    /// A list of calls with all that a replay wants, or sometimes with less.
    fn any(random: &mut Random) -> Case {
        let (n, k, calls) = schedules::calls(random);
        let year = open_year(random, n.into(), k.into());
        let (letters, mut plugins): (Vec<u8>, Vec<u64>) = calls.into_iter().unzip();
        for p in &mut plugins {
            if random.chance(10) {
                *p = any_plugin(random, n);
            }
        }
        let mut list = PluginList::idle(n.into());
        list.marks.fill(random.below(3) as u8);
        list.values.fill(random.below(3) as u16);
        list.slots.fill(random.below(3) as u8);
        let mut room = || letters.len() + random.below(3);
        let results = Results {
            numbers: vec![7; room()],
            verdicts: vec![7; room()],
            places: vec![7; room()],
            tickets: vec![7; room()],
            shades: vec![7; room()],
            given: vec![7; room()],
            rules: vec![7; room()],
            of_tickets: vec![7; room()],
            against: vec![7; room()],
        };
        let mut case = Case {
            year: year.into(),
            n: n.into(),
            k: k.into(),
            letters,
            plugins,
            list,
            results,
        };
        if random.chance(200) {
            for _ in 0..random.between(1, 2) {
                case.lack(random);
            }
        }
        case
    }

    /// One thing that a replay wants is not there.
    fn lack(&mut self, random: &mut Random) {
        let calls = self.letters.len();
        let less = calls.saturating_sub(random.between(1, 3));
        match random.below(17) {
            0 => self.n = random.pick(&[0, 1025, 65_537, u64::MAX]),
            1 => self.k = random.pick(&[0, 65, 257, u64::MAX]),
            2 => self.n = 1 + self.n % 1024,
            3 => uneven(random, &mut self.list),
            4 => self.plugins.truncate(less),
            5 => self.results.numbers.truncate(less),
            6 => self.results.verdicts.truncate(less),
            7 => self.results.places.truncate(less),
            8 => self.results.tickets.truncate(less),
            9 => self.results.shades.truncate(less),
            10 => self.results.given.truncate(less),
            11 => self.results.rules.truncate(less),
            12 => self.results.of_tickets.truncate(less),
            13 => self.results.against.truncate(less),
            14 => self.year = any_year(random),
            15 => (self.year, self.k) = (1979, self.n + random.below(2) as u64),
            _ if calls == 0 => self.letters.push(b'O'),
            _ => {
                let i = random.below(calls);
                self.letters[i] = random.pick(b"Otlbpsw \n\0\xff");
            }
        }
    }

    /// Whether the calls are to be run, and if not why: too little was lent, a letter
    /// names no call, or the open is refused, with its number.
    fn end(&self) -> (u8, u8) {
        let results = &self.results;
        let room = [
            self.plugins.len(),
            results.numbers.len(),
            results.verdicts.len(),
            results.places.len(),
            results.tickets.len(),
            results.shades.len(),
            results.given.len(),
            results.rules.len(),
            results.of_tickets.len(),
            results.against.len(),
        ];
        if room.iter().any(|&room| room < self.letters.len()) {
            return (ended::TOO_SHORT, 0);
        }
        if !self.letters.iter().all(|letter| LETTERS.contains(letter)) {
            return (ended::NO_SUCH_CALL, 0);
        }
        match gate::open(self.year, self.n, self.k, &mut self.list.clone().lend()).number() {
            0 => (ended::RAN, 0),
            number => (ended::NOT_OPENED, number),
        }
    }

    /// The proved replay; gives what it returns, and the case as it leaves it.
    fn replay(&self) -> (forms::Replay, Case) {
        let mut left = self.clone();
        let results = forms::Results {
            numbers: &mut left.results.numbers,
            verdicts: &mut left.results.verdicts,
            places: &mut left.results.places,
            tickets: &mut left.results.tickets,
            shades: &mut left.results.shades,
            given: &mut left.results.given,
            rules: &mut left.results.rules,
            of_tickets: &mut left.results.of_tickets,
            against: &mut left.results.against,
        };
        let mut lent = left.list.lend();
        let list = proved::lent_list(&mut lent);
        let (letters, plugins) = (&self.letters, &self.plugins);
        let replay = forms::replay(self.year, self.n, self.k, letters, plugins, list, results);
        (replay, left)
    }

    fn compare(&self, tally: &mut Tally) -> Result<(), String> {
        let (replay, left) = self.replay();
        let (end, number) = self.end();
        tally.lists += 1;
        tally.ended[usize::from(end)] += 1;
        equal("end", &(replay.ended, replay.number), &(end, number))?;
        let words = proved::own_words(&replay.gate);
        if end != ended::RAN {
            equal("words of no gate", &words, &Words::ZERO)?;
            equal("list of no gate", &left.list, &self.list)?;
            return equal("results of no calls", &left.results, &self.results);
        }
        tally.early += u64::from(self.year == 1979);
        tally.calls += self.letters.len() as u64;
        tally.longest = tally.longest.max(self.letters.len());
        self.as_queue(&words, &left, tally)?;
        self.as_gate(&words, &left, tally)
    }

    /// "The queue of demand 3 is fed the accepted open's arguments, then each call's
    /// name and arguments." Document 02, A.4: "The 1989 words are compared as before,
    /// the slots with this paragraph."
    fn as_queue(&self, words: &Words, left: &Case, tally: &mut Tally) -> Result<(), String> {
        let mut queue = Queue::open(self.n as usize, self.k as usize);
        let mut slots = SlotRule::open(self.n as usize, self.k as usize);
        let mut ledger = vec![Ticket::default(); queue.n];
        let mut wanted = self.results.clone();
        for (i, (&letter, &p)) in self.letters.iter().zip(&self.plugins).enumerate() {
            let p = usize::try_from(p).unwrap_or(usize::MAX);
            let reply = feed(&mut queue, letter, p);
            let number = match reply {
                Reply::Refused(number) => number,
                _ => 0,
            };
            tally.numbers[usize::from(number.min(10))] += 1;
            wanted.numbers[i] = number;
            wanted.verdicts[i] = u8::from(reply == Reply::YesNo(true));
            wanted.places[i] = match reply {
                Reply::Place(place) => place as u16,
                _ => 0,
            };
            wanted.given[i] = slots.feed(letter, p, reply);
            tally.given += u64::from(wanted.given[i] != 0);
            // The queue knows of no ticket: those that were written are noted.
            let written = Ticket::new(left.results.tickets[i], left.results.shades[i]);
            let took = letter == b'T' && number == 0;
            if took {
                ledger[p - 1] = written;
            } else {
                equal_at("ticket written", i, &written, &Ticket::default())?;
            }
            if letter == b'B' && number == 0 {
                ledger[p - 1] = Ticket::default();
            }
            wanted.tickets[i] = written.value.0;
            wanted.shades[i] = written.colour.0;
        }
        equal_each("number", &left.results.numbers, &wanted.numbers)?;
        equal_each("verdict", &left.results.verdicts, &wanted.verdicts)?;
        equal_each("place", &left.results.places, &wanted.places)?;
        equal_each("ticket", &left.results.tickets, &wanted.tickets)?;
        equal_each("colour", &left.results.shades, &wanted.shades)?;
        equal_each("slot given", &left.results.given, &wanted.given)?;
        equal_each("slot", &left.list.slots, slots.slots())?;
        let mut free = [0; FREE_PLACES];
        for (place, slot) in free.iter_mut().zip(slots.free()) {
            *place = slot;
        }
        equal_each("free place", &words.free, &free)?;
        for (i, &taken) in ledger.iter().enumerate() {
            let p = i + 1;
            let region = match queue.region(p) {
                Region::Idle => IDLE,
                Region::Waiting => WAITING,
                Region::Inside => INSIDE,
            };
            equal_at("region", i, &left.list.regions[i], &region)?;
            equal_at(
                "stop mark",
                i,
                &left.list.marks[i],
                &queue.stopped(p).into(),
            )?;
            let ticket = left.list.ticket(i);
            equal_at("ticket", i, &ticket, &taken)?;
            let valid = region != IDLE && gate::steps::valid(words, ticket);
            equal_at("validity", i, &valid, &queue.among_first(p))?;
        }
        Ok(())
    }

    /// Every word and record, and every ticket, slot and rule written, is the gate's;
    /// and nothing more is written.
    fn as_gate(&self, words: &Words, left: &Case, tally: &mut Tally) -> Result<(), String> {
        let mut list = self.list.clone();
        let mut own = gate::open(self.year, self.n, self.k, &mut list.lend()).words;
        let mut wanted = self.results.clone();
        for (i, (&letter, &p)) in self.letters.iter().zip(&self.plugins).enumerate() {
            let reply = gate::by_letter(letter)(&own, &mut list.lend(), p);
            own = reply.words;
            let written = Ticket::new(left.results.tickets[i], left.results.shades[i]);
            equal_at("ticket written", i, &written, &reply.answer.ticket())?;
            let given = left.results.given[i];
            equal_at("slot written", i, &given, &reply.answer.slot().0)?;
            let rule = reply.answer.rule();
            (wanted.rules[i], (wanted.of_tickets[i], wanted.against[i])) =
                rule.map_or((0, (0, 0)), |rule| (rule.number(), rule.carries()));
            if let Some(rule) = rule {
                tally.rules[usize::from(rule.number()) - 1] += 1;
            }
        }
        equal_each("rule", &left.results.rules, &wanted.rules)?;
        equal_each(
            "rule's ticket",
            &left.results.of_tickets,
            &wanted.of_tickets,
        )?;
        equal_each(
            "rule's other number",
            &left.results.against,
            &wanted.against,
        )?;
        equal("words", words, &own)?;
        equal("list", &left.list, &list)
    }
}

fn feed(queue: &mut Queue, letter: u8, p: usize) -> Reply {
    match letter {
        b'T' => queue.take(p),
        b'L' => queue.look(p),
        b'B' => queue.leave(p),
        b'P' => queue.place(p),
        b'S' => queue.stop(p),
        _ => queue.wake(p),
    }
}

fn equal<T: PartialEq + std::fmt::Debug>(what: &str, has: &T, wanted: &T) -> Result<(), String> {
    if has == wanted {
        Ok(())
    } else {
        Err(format!("{what}: the replay has {has:?}, wanted {wanted:?}"))
    }
}

fn equal_each<T: PartialEq + std::fmt::Debug>(
    what: &str,
    has: &[T],
    wanted: &[T],
) -> Result<(), String> {
    equal(what, &has.len(), &wanted.len())?;
    let mut pairs = has.iter().zip(wanted).enumerate();
    pairs.try_for_each(|(i, (has, wanted))| equal_at(what, i, has, wanted))
}

fn equal_at<T: PartialEq + std::fmt::Debug>(
    what: &str,
    i: usize,
    has: &T,
    wanted: &T,
) -> Result<(), String> {
    if has == wanted {
        Ok(())
    } else {
        Err(format!(
            "{what} at {i}: the replay has {has:?}, wanted {wanted:?}"
        ))
    }
}
