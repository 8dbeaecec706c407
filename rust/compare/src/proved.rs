//! The proved calls, from the package `slot-gate`, take and give words and lists of
//! their own types: this crate's, turned into theirs and back.

use slot_gate::forms::{kind, RuleShown, Shown};
use slot_gate::lent::{ListMut, ListRef};
use slot_gate::Record;

use crate::gate::{Answer, Lent, PluginList, Refusal, Rule, Slot, Ticket, Words};

/// The words as the proved calls are lent them.
pub fn lent_words(words: &Words) -> slot_gate::Words {
    slot_gate::Words {
        year: words.year,
        n: words.n,
        k: words.k,
        issue: lent_ticket(words.issue),
        valid: lent_ticket(words.valid),
        counts: words.counts,
        free: words.free,
    }
}

/// The list as the proved calls are lent it.
pub fn lent_list<'a>(list: &'a mut Lent) -> ListMut<'a> {
    ListMut {
        regions: list.regions,
        marks: list.marks,
        values: list.values,
        colours: list.colours,
        slots: list.slots,
    }
}

/// The list as the proved calls are lent it to read.
pub fn shown_list<'a>(list: &'a Lent) -> ListRef<'a> {
    ListRef {
        regions: list.regions,
        marks: list.marks,
        values: list.values,
        colours: list.colours,
        slots: list.slots,
    }
}

/// The list as records; as many as there are in the shortest slice.
pub fn records(list: &PluginList) -> Vec<Record> {
    let fields = list.regions.iter().zip(&list.marks);
    let tickets = list.values.iter().zip(&list.colours);
    fields
        .zip(tickets.zip(&list.slots))
        .map(|((&region, &mark), ((&value, &colour), &slot))| {
            let ticket = slot_gate::Ticket::new(value, colour);
            Record::new(region, mark, ticket, slot_gate::Slot(slot))
        })
        .collect()
}

fn lent_ticket(ticket: Ticket) -> slot_gate::Ticket {
    slot_gate::Ticket::new(ticket.value.0, ticket.colour.0)
}

/// The words that the proved calls leave, as this crate has them.
pub fn own_words(words: &slot_gate::Words) -> Words {
    Words {
        year: words.year,
        n: words.n,
        k: words.k,
        issue: own_ticket(words.issue),
        valid: own_ticket(words.valid),
        counts: words.counts,
        free: words.free,
    }
}

/// The list of records, as this crate has it.
pub fn own_list(records: &[Record]) -> PluginList {
    PluginList {
        regions: records.iter().map(|record| record.region).collect(),
        marks: records.iter().map(|record| record.mark).collect(),
        values: records.iter().map(|record| record.value.0).collect(),
        colours: records.iter().map(|record| record.colour.0).collect(),
        slots: records.iter().map(|record| record.slot.0).collect(),
    }
}

fn own_ticket(ticket: slot_gate::Ticket) -> Ticket {
    Ticket::new(ticket.value.0, ticket.colour.0)
}

/// What an answer shows. "A refused call ... returns only its number", and of an
/// accepted one only what it answers is not 0.
pub fn shown(answer: Answer) -> Shown {
    Shown {
        number: answer.number(),
        kind: match answer {
            Answer::Ticket(_) => kind::TICKET,
            Answer::Yes(..) | Answer::No(_) => kind::YES_OR_NO,
            Answer::Place(_) => kind::PLACE,
            Answer::Done => kind::DONE,
            Answer::Refused(_) => kind::REFUSED,
        },
        yes: answer.yes().into(),
        slot: answer.slot().0,
        ticket: lent_ticket(answer.ticket()),
        place: answer.place(),
        rule: answer.rule().map_or(RuleShown::NONE, shown_rule),
    }
}

fn shown_rule(rule: Rule) -> RuleShown {
    let (of_ticket, against) = rule.carries();
    RuleShown {
        number: rule.number(),
        of_ticket,
        against,
    }
}

/// What alike's answer shows: yes or no without a slot and a rule.
pub fn shown_alike(answer: Result<bool, Refusal>) -> Shown {
    match answer {
        Ok(yes) => Shown {
            kind: kind::YES_OR_NO,
            yes: yes.into(),
            ..shown(Answer::Done)
        },
        Err(refusal) => shown(Answer::Refused(refusal)),
    }
}

/// The answer that shows this; none when no answer does.
pub fn answer(given: Shown) -> Option<Answer> {
    let rule = || {
        let RuleShown {
            number,
            of_ticket,
            against,
        } = given.rule;
        Rule::of(number, (of_ticket, against))
    };
    let answer = match given.kind {
        kind::TICKET => Answer::Ticket(own_ticket(given.ticket)),
        kind::YES_OR_NO if given.yes == 1 => Answer::Yes(Slot(given.slot), rule()?),
        kind::YES_OR_NO => Answer::No(rule()?),
        kind::PLACE => Answer::Place(given.place),
        kind::DONE => Answer::Done,
        kind::REFUSED => Answer::Refused(given.number),
        _ => return None,
    };
    (shown(answer) == given).then_some(answer)
}
