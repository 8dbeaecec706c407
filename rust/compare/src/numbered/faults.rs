//! Numbered gates with one fault each, in the place of the proved calls: the right gate, with
//! what the fault changes put in afterwards.

use super::calls::{Calls, Made};
use super::{call_but_for, open, Answer, Clause, PluginList, State, GREATEST};
use crate::gate::{IDLE, WAITING};

#[derive(Clone, Copy, Debug, PartialEq, Eq)]
pub enum Fault {
    /// A take, or a leave, at the end of its counter is answered 11 where 6 comes first.
    EndBeforeRegionInTake,
    EndBeforeRegionInLeave,
    /// 11 comes at the last number but one.
    TakeEndsEarly,
    LeaveEndsEarly,
    /// After the greatest number comes 0.
    IssueWraps,
    ValidWraps,
    /// A clause of soundness is not asked.
    Without(Clause),
    /// A place counts the plugin's own ticket too.
    PlaceCountsItself,
    /// `<` for `<=`: VALID's own ticket is taken for one above it.
    EqualIsAbove,
    /// VALID begins at 1, whatever k is.
    ValidStartsAt1,
}

impl Fault {
    /// All that single calls find. `Without(Clause::Lead)` is none of them: where the list has
    /// N records the lead's bounds follow from the other clauses. Nor would be 11 before 9: no
    /// ticket is above a VALID that is the greatest number.
    pub const ALL: [Fault; 18] = [
        Fault::EndBeforeRegionInTake,
        Fault::EndBeforeRegionInLeave,
        Fault::TakeEndsEarly,
        Fault::LeaveEndsEarly,
        Fault::IssueWraps,
        Fault::ValidWraps,
        Fault::Without(Clause::Sizes),
        Fault::Without(Clause::Regions),
        Fault::Without(Clause::Marks),
        Fault::Without(Clause::Idle),
        Fault::Without(Clause::Distinct),
        Fault::Without(Clause::Issued),
        Fault::Without(Clause::Awaited),
        Fault::Without(Clause::NumberK),
        Fault::Without(Clause::ValidHeld),
        Fault::PlaceCountsItself,
        Fault::EqualIsAbove,
        Fault::ValidStartsAt1,
    ];

    pub fn name(self) -> &'static str {
        match self {
            Fault::EndBeforeRegionInTake => "11 before 6 in a take",
            Fault::EndBeforeRegionInLeave => "11 before 6 in a leave",
            Fault::TakeEndsEarly => "a take's 11 one too soon",
            Fault::LeaveEndsEarly => "a leave's 11 one too soon",
            Fault::IssueWraps => "ISSUE wraps",
            Fault::ValidWraps => "VALID wraps",
            Fault::Without(Clause::Sizes) => "sound without the ranges of N and k",
            Fault::Without(Clause::Regions) => "sound without the range of regions",
            Fault::Without(Clause::Marks) => "sound without the range of marks",
            Fault::Without(Clause::Idle) => "sound without idle tickets 0",
            Fault::Without(Clause::Distinct) => "sound without distinct tickets",
            Fault::Without(Clause::Issued) => "sound with tickets above ISSUE",
            Fault::Without(Clause::Lead) => "sound without the lead's bounds",
            Fault::Without(Clause::Awaited) => "sound with tickets that nobody awaits",
            Fault::Without(Clause::NumberK) => "sound without k valid tickets",
            Fault::Without(Clause::ValidHeld) => "sound without ticket VALID held",
            Fault::PlaceCountsItself => "a place counts itself",
            Fault::EqualIsAbove => "valid below VALID only",
            Fault::ValidStartsAt1 => "VALID starts at 1",
        }
    }
}

/// The gate with this fault.
pub struct Faulty(pub Fault);

impl Calls for Faulty {
    fn name(&self) -> &'static str {
        self.0.name()
    }

    fn open(&self, n: u64, k: u64, list: &PluginList) -> Made {
        let mut list = list.clone();
        let mut reply = open(n, k, &mut list.lend());
        if self.0 == Fault::ValidStartsAt1 && reply.answer == Answer::Done {
            reply.words.valid = 1;
        }
        Made::new(reply, list)
    }

    fn call(&self, letter: u8, p: u64, state: &State) -> Made {
        let (words, mut list) = state.clone();
        let dropped = match self.0 {
            Fault::Without(clause) => Some(clause),
            _ => None,
        };
        let reply = call_but_for(dropped, letter, &words, &mut list.lend(), p);
        let mut made = Made::new(reply, list);
        let refused = |number| Made {
            answer: Answer::Refused(number),
            left: state.clone(),
        };
        // Where a call got beyond refusal 4 there is a record.
        let i = (p as usize).wrapping_sub(1);
        match (self.0, letter, made.answer) {
            (Fault::EndBeforeRegionInTake, b'T', Answer::Refused(6)) if words.issue == GREATEST => {
                refused(11)
            }
            (Fault::EndBeforeRegionInLeave, b'B', Answer::Refused(6))
                if words.valid == GREATEST =>
            {
                refused(11)
            }
            (Fault::TakeEndsEarly, b'T', Answer::Ticket(GREATEST)) => refused(11),
            (Fault::LeaveEndsEarly, b'B', Answer::Done) if made.left.0.valid == GREATEST => {
                refused(11)
            }
            (Fault::IssueWraps, b'T', Answer::Refused(11)) => {
                made.answer = Answer::Ticket(0);
                made.left.0.issue = 0;
                made.left.1.lend().set(i, WAITING, 0);
                made
            }
            (Fault::ValidWraps, b'B', Answer::Refused(11)) => {
                made.answer = Answer::Done;
                made.left.0.valid = 0;
                made.left.1.lend().set(i, IDLE, 0);
                made
            }
            (Fault::PlaceCountsItself, _, Answer::Place(place @ 1..)) => {
                made.answer = Answer::Place(place + 1);
                made
            }
            (Fault::EqualIsAbove, b'L', Answer::YesNo(true))
                if state.1.tickets[i] == words.valid =>
            {
                Made {
                    answer: Answer::YesNo(false),
                    left: state.clone(),
                }
            }
            (Fault::EqualIsAbove, b'B', Answer::Done)
                if state.1.regions[i] == WAITING && state.1.tickets[i] == words.valid =>
            {
                refused(9)
            }
            _ => made,
        }
    }
}
