//! The comparison of a host with the queue, of its slots with their rule, and of the
//! rules by which it answers looks with document 02's, after every call of a schedule.

use crate::gate::{rules, Answer, Rule, Ticket, Words};
use crate::gate::{IDLE, INSIDE, MOST_PLUGINS, MOST_SLOTS, WAITING};
use crate::queue::{Queue, Region, Reply};
use crate::schedule::{next_call, Call, Next};
use crate::slot_rule::SlotRule;
use crate::transcript::{shown, Host, LONGEST};

/// What the schedules that were run came to.
#[derive(Clone, Debug, Default)]
pub struct Tally {
    pub schedules: u64,
    pub calls: u64,
    /// Calls by number: 0 accepted, 8 a bad line, all others refused.
    pub numbers: [u64; 11],
    /// Looks that were accepted and answered no.
    pub noes: u64,
    /// Looks that were accepted, by the rules that decided them.
    pub rules: [u64; Rule::NAMES.len()],
    /// Places above 0.
    pub places: u64,
    /// Leaves that were accepted from plugins that waited.
    pub handed_back: u64,
    /// Slots that looks gave.
    pub given: u64,
    /// Inputs longer than 64 KiB.
    pub long: u64,
    /// Tickets handed out that begin a block, so that ISSUE changed its colour.
    pub blocks: u64,
    /// Lines read by the proved reader too.
    pub lines: u64,
    /// The most calls of one schedule.
    pub longest: u64,
}

/// Runs an input on a host and on the queue; the first difference is the error.
pub fn against_queue(host: &mut impl Host, input: &[u8], tally: &mut Tally) -> Result<(), String> {
    tally.schedules += 1;
    if input.len() > LONGEST {
        tally.long += 1;
        return Ok(());
    }
    let mut watch = Watch::default();
    let mut part = input;
    let mut calls = 0;
    loop {
        let (next, rest) = next_call(part);
        let Next::Call(call) = next else {
            tally.numbers[8] += u64::from(next == Next::Bad);
            break;
        };
        calls += 1;
        watch
            .one_call(host, call, tally)
            .map_err(|difference| format!("call {calls}, {call}: {difference}"))?;
        part = rest;
    }
    tally.calls += calls;
    tally.longest = tally.longest.max(calls);
    Ok(())
}

/// What the calls since the last accepted open are held to.
#[derive(Default)]
struct Watch(Option<Opened>);

/// The queue, the rule of the slots, and the ticket that each plugin's last accepted
/// take answered.
struct Opened {
    queue: Queue,
    slots: SlotRule,
    taken: Vec<Ticket>,
}

impl Watch {
    fn one_call(
        &mut self,
        host: &mut impl Host,
        call: Call,
        tally: &mut Tally,
    ) -> Result<(), String> {
        let words = *host.words();
        let answer = host.perform(call);
        tally.numbers[usize::from(answer.number().min(10))] += 1;
        tally.noes += u64::from(matches!(answer, Answer::No(_)));
        tally.places += u64::from(answer.place() > 0);
        if answer.number() != 0 && *host.words() != words {
            return Err("a refused call changed the words".to_string());
        }
        if let Call::Open(n, k) = call {
            self.opened(answer, n, k)?;
        } else if let Some(opened) = &mut self.0 {
            opened.called((&words, host.words()), call, answer, tally)?;
        } else {
            // "starts with all words 0 and an empty list", which is not sound.
            equal("number before the first open", answer.number(), 3)?;
        }
        self.0.iter().try_for_each(|opened| opened.same_state(host))
    }

    /// "1: N or k out of range." The list that is lent has length N, so an open
    /// meets no other refusal; an accepted one begins a new queue.
    fn opened(&mut self, answer: Answer, n: u16, k: u16) -> Result<(), String> {
        let in_range =
            (1..=MOST_PLUGINS).contains(&n.into()) && (1..=MOST_SLOTS).contains(&k.into());
        equal("number of an open", answer.number(), u8::from(!in_range))?;
        if in_range {
            self.0 = Some(Opened {
                queue: Queue::open(n.into(), k.into()),
                slots: SlotRule::open(n.into(), k.into()),
                taken: vec![Ticket::default(); n.into()],
            });
        }
        Ok(())
    }
}

impl Opened {
    /// A call that names a plugin, with the words before it and after it: its answer
    /// is the queue's, a yes gives the slot that the rule gives, a yes or no shows "the
    /// one whose condition is met", and a take hands out what ISSUE then is.
    fn called(
        &mut self,
        (before, after): (&Words, &Words),
        call: Call,
        answer: Answer,
        tally: &mut Tally,
    ) -> Result<(), String> {
        let queue = &mut self.queue;
        let handed_back = matches!(call, Call::Leave(p)
            if answer == Answer::Done && queue.region(p.into()) == Region::Waiting);
        tally.handed_back += u64::from(handed_back);
        let reply = feed(queue, call);
        if !agree(answer, reply) {
            return Err(format!(
                "the gate gives {} {}, the queue {reply:?}",
                answer.number(),
                shown(answer)
            ));
        }
        if let Some((letter, p)) = call.of_plugin() {
            let given = self.slots.feed(letter, p.into(), reply);
            equal("the slot given", answer.slot().0, given)?;
            tally.given += u64::from(given != 0);
        }
        if let (Call::Look(p), Some(rule)) = (call, answer.rule()) {
            let ticket = self.taken[usize::from(p) - 1];
            equal("the rule", rule, rules::rule(before, ticket))?;
            tally.rules[usize::from(rule.number()) - 1] += 1;
        }
        if let (Call::Take(p), Answer::Ticket(ticket)) = (call, answer) {
            equal("ISSUE after a take", after.issue, ticket)?;
            tally.blocks += u64::from(ticket.value.0 == 0);
            self.taken[usize::from(p) - 1] = ticket;
        }
        Ok(())
    }

    /// "After each call, the ticket in each record that is not idle is the one
    /// that its plugin's last accepted take answered, and meets the rule Valid,
    /// on the words left, exactly when it is valid in the queue." Regions and
    /// stop marks are those of the queue as well, and slots those of their rule.
    fn same_state(&self, host: &impl Host) -> Result<(), String> {
        let (queue, list) = (&self.queue, host.list());
        equal("length of the list", list.regions.len(), queue.n)?;
        let mut among_first = vec![false; queue.n];
        for &p in queue.row.iter().take(queue.k) {
            among_first[p - 1] = true;
        }
        for (i, &first) in among_first.iter().enumerate() {
            let p = i + 1;
            let region = match queue.region(p) {
                Region::Idle => IDLE,
                Region::Waiting => WAITING,
                Region::Inside => INSIDE,
            };
            equal_at("region", p, list.regions[i], region)?;
            equal_at("stop mark", p, list.marks[i], u8::from(queue.stopped(p)))?;
            equal_at("slot", p, list.slots[i], self.slots.slots()[i])?;
            let ticket = list.ticket(i);
            if region == IDLE {
                equal_at("ticket of an idle record", p, ticket, Ticket::default())?;
            } else {
                equal_at("ticket", p, ticket, self.taken[i])?;
                equal_at("validity", p, host.valid(ticket), first)?;
            }
        }
        Ok(())
    }
}

/// "The queue of demand 3 is fed the accepted open's arguments, then each call's
/// name and arguments, all save the words and the list."
pub fn feed(queue: &mut Queue, call: Call) -> Reply {
    match call {
        Call::Open(n, k) => {
            *queue = Queue::open(n.into(), k.into());
            Reply::Done
        }
        Call::Take(p) => queue.take(p.into()),
        Call::Look(p) => queue.look(p.into()),
        Call::Leave(p) => queue.leave(p.into()),
        Call::Place(p) => queue.place(p.into()),
        Call::Stop(p) => queue.stop(p.into()),
        Call::Wake(p) => queue.wake(p.into()),
    }
}

/// Whether number, yes or no, and place are the same. The queue has no tickets.
pub fn agree(answer: Answer, reply: Reply) -> bool {
    match (answer, reply) {
        (Answer::Ticket(_) | Answer::Done, Reply::Done) => true,
        (Answer::Yes(..) | Answer::No(_), Reply::YesNo(by_queue)) => answer.yes() == by_queue,
        (Answer::Place(by_gate), Reply::Place(by_queue)) => usize::from(by_gate) == by_queue,
        (Answer::Refused(by_gate), Reply::Refused(by_queue)) => by_gate == by_queue,
        _ => false,
    }
}

fn equal<T: PartialEq + std::fmt::Debug>(what: &str, has: T, wanted: T) -> Result<(), String> {
    if has == wanted {
        Ok(())
    } else {
        Err(format!("{what} is {has:?}, wanted {wanted:?}"))
    }
}

fn equal_at<T: PartialEq + std::fmt::Debug>(
    what: &str,
    p: usize,
    has: T,
    wanted: T,
) -> Result<(), String> {
    if has == wanted {
        Ok(())
    } else {
        Err(format!("plugin {p}: {what} is {has:?}, wanted {wanted:?}"))
    }
}
