//! "Faults that look like the algorithm": the gate with one fault put in. These
//! gates judge no soundness (there is no refusal 3 but before the first open),
//! for their states are not those of a sound gate. Without a fault such a gate
//! does what the gate does, which the tests check.

pub mod search;
mod single;

pub use single::FaultyCalls;

use crate::gate::steps::Block;
use crate::gate::{self, rules, slots, steps, Answer, Colour, PluginList, Rule, Slot, Ticket};
use crate::gate::{Value, Words, FREE_PLACES, IDLE, INSIDE, WAITING};
use crate::schedule::Call;
use crate::transcript::Host;

#[derive(Clone, Copy, Debug, PartialEq, Eq)]
pub enum Fault {
    /// "A block of the larger of k and N − k places."
    ShortBlock,
    /// "A new colour that avoids only ISSUE's and VALID's."
    ColourIgnoresCounts,
    /// "Validity by values alone when the colours differ", read so: the value is
    /// not above VALID's, whatever the colours.
    ValidityByValues,
    /// "Taking the ticket's count down before VALID moves", when a plugin that is
    /// inside leaves.
    CountDownFirst,
    /// "Passing a stopped plugin's slot on", read so: the stop of a plugin inside
    /// also does to the words what its leave would do, so the next ticket
    /// becomes valid; the plugin's ticket and region remain.
    SlotPassedOn,
    /// A second reading of validity by values alone: where the colours differ, a
    /// ticket is valid when VALID leads it.
    ValidityByLead,
    /// A second reading of the slot passed on: also the stop of a plugin that
    /// waits with a valid ticket does so.
    SlotOfWaitingPassedOn,
    /// A turn handed back that has not come: a leave is accepted from a waiting
    /// plugin whatever its ticket.
    InvalidHandedBack,
    /// A stopped plugin that waits with a valid ticket hands back its turn.
    StoppedHandsBack,
    /// A turn handed back moves neither VALID nor a count.
    HandBackMovesNothing,
    /// The ticket's count is taken down before VALID moves, when a turn is handed
    /// back.
    HandBackCountDownFirst,
    /// The slot returned last goes out first.
    LastSlotFirst,
    /// The lowest free slot goes out first.
    LowestSlotFirst,
    /// A turn handed back returns a slot, as a look and a leave would: the first of
    /// the row comes to its end.
    HandBackReturnsSlot,
    /// A plugin that has left keeps its slot in its record.
    SlotKept,
    /// `<` for `<=`: a ticket of VALID's colour and value is taken for one above it.
    EqualIsAbove,
    /// A look's rule shows VALID's value as the ticket's, and the ticket's as VALID's.
    RuleValuesExchanged,
    /// A look's rule shows VALID's colour and its count.
    RuleOfValidsColour,
    /// A yes shows the rule of a no, and a no that of a yes.
    RuleOfOtherVerdict,
    /// The first ticket of a gate of 1979 is 1/0: ISSUE begins at the end of another
    /// block, N/1, and VALID at k/0. These words are sound.
    FirstTicketOne,
    /// Under 1979 a new block begins with 0.
    BlockFromZero,
    /// Under 1979 a block has as many tickets as under 1989.
    SizeOf1989,
    /// The same, but in the distance alone.
    DistanceOf1989,
    /// A gate of 1979 opens with as many slots as plugins.
    AllSlotsOpen,
    /// Words of 1979 with as many slots as plugins are taken for sound.
    AllSlotsSound,
    /// A gate of 1990 opens.
    OtherYearOpens,
    /// Words of 1990 are taken for sound.
    OtherYearSound,
    /// Under 1979 an idle record has the value 1.
    IdleOne,
    /// Under 1979 an idle record with the value 1 is taken for sound.
    IdleOneSound,
    /// Under 1979 the count of colour 0 is k + 1 at opening.
    CountAboveK,
}

/// The document's five faults, in its order.
pub const FIVE: [Fault; 5] = [
    Fault::ShortBlock,
    Fault::ColourIgnoresCounts,
    Fault::ValidityByValues,
    Fault::CountDownFirst,
    Fault::SlotPassedOn,
];

/// Second readings of two of them.
pub const SECOND_READINGS: [Fault; 2] = [Fault::ValidityByLead, Fault::SlotOfWaitingPassedOn];

/// Faults of a turn that is handed back (document 02, A.2).
pub const HANDED_BACK: [Fault; 4] = [
    Fault::InvalidHandedBack,
    Fault::StoppedHandsBack,
    Fault::HandBackMovesNothing,
    Fault::HandBackCountDownFirst,
];

/// Faults of the slots (document 02, A.4).
pub const NUMBERED_SLOTS: [Fault; 4] = [
    Fault::LastSlotFirst,
    Fault::LowestSlotFirst,
    Fault::HandBackReturnsSlot,
    Fault::SlotKept,
];

/// Faults of the rules (document 02, A.5).
pub const RULES: [Fault; 4] = [
    Fault::EqualIsAbove,
    Fault::RuleValuesExchanged,
    Fault::RuleOfValidsColour,
    Fault::RuleOfOtherVerdict,
];

/// Faults of the years (document 02, A.8), which single calls find.
pub const YEARS: [Fault; 11] = [
    Fault::FirstTicketOne,
    Fault::BlockFromZero,
    Fault::SizeOf1989,
    Fault::DistanceOf1989,
    Fault::AllSlotsOpen,
    Fault::AllSlotsSound,
    Fault::OtherYearOpens,
    Fault::OtherYearSound,
    Fault::IdleOne,
    Fault::IdleOneSound,
    Fault::CountAboveK,
];

/// All that a schedule can find. It finds none of the years': gaterun opens 1989.
pub fn all() -> impl Iterator<Item = Fault> {
    FIVE.into_iter()
        .chain(SECOND_READINGS)
        .chain(HANDED_BACK)
        .chain(NUMBERED_SLOTS)
        .chain(RULES)
}

impl Fault {
    pub fn name(self) -> &'static str {
        match self {
            Fault::ShortBlock => "short-block",
            Fault::ColourIgnoresCounts => "colour-ignores-counts",
            Fault::ValidityByValues => "validity-by-values",
            Fault::CountDownFirst => "count-down-first",
            Fault::SlotPassedOn => "slot-passed-on",
            Fault::ValidityByLead => "validity-by-lead",
            Fault::SlotOfWaitingPassedOn => "slot-of-waiting-passed-on",
            Fault::InvalidHandedBack => "invalid-handed-back",
            Fault::StoppedHandsBack => "stopped-hands-back",
            Fault::HandBackMovesNothing => "hand-back-moves-nothing",
            Fault::HandBackCountDownFirst => "hand-back-count-down-first",
            Fault::LastSlotFirst => "last-slot-first",
            Fault::LowestSlotFirst => "lowest-slot-first",
            Fault::HandBackReturnsSlot => "hand-back-returns-slot",
            Fault::SlotKept => "slot-kept",
            Fault::EqualIsAbove => "equal-is-above",
            Fault::RuleValuesExchanged => "rule-values-exchanged",
            Fault::RuleOfValidsColour => "rule-of-valids-colour",
            Fault::RuleOfOtherVerdict => "rule-of-other-verdict",
            Fault::FirstTicketOne => "first-ticket-one",
            Fault::BlockFromZero => "block-from-zero",
            Fault::SizeOf1989 => "size-of-1989",
            Fault::DistanceOf1989 => "distance-of-1989",
            Fault::AllSlotsOpen => "all-slots-open",
            Fault::AllSlotsSound => "all-slots-sound",
            Fault::OtherYearOpens => "other-year-opens",
            Fault::OtherYearSound => "other-year-sound",
            Fault::IdleOne => "idle-one",
            Fault::IdleOneSound => "idle-one-sound",
            Fault::CountAboveK => "count-above-k",
        }
    }

    /// "another colour may be chosen": the order of the counts is told from the
    /// right gate by words and tickets.
    pub fn shows_in_words_only(self) -> bool {
        matches!(self, Fault::CountDownFirst | Fault::HandBackCountDownFirst)
    }

    /// Told by the rule of the slots, and by no line that `gaterun` prints.
    pub fn shows_in_slots_only(self) -> bool {
        NUMBERED_SLOTS.contains(&self)
    }

    /// Told by the rules that looks show, and by no line that `gaterun` prints. The
    /// faults that show neither here nor in slots or words are told by the queue.
    pub fn shows_in_rules_only(self) -> bool {
        RULES.contains(&self) && self != Fault::EqualIsAbove
    }

    /// Whether it matters under this fault that a plugin is stopped.
    pub fn concerns_stops(self) -> bool {
        matches!(
            self,
            Fault::SlotPassedOn | Fault::SlotOfWaitingPassedOn | Fault::StoppedHandsBack
        )
    }

    /// Whether a call is accepted under this fault that the right gate refuses.
    pub fn accepts_more(self) -> bool {
        matches!(self, Fault::InvalidHandedBack | Fault::StoppedHandsBack)
    }
}

/// A gate with a fault, or with none, and its list.
#[derive(Clone, Debug, PartialEq, Eq)]
pub struct FaultyHost {
    pub fault: Option<Fault>,
    pub words: Words,
    pub list: PluginList,
}

impl FaultyHost {
    pub fn new(fault: Option<Fault>) -> FaultyHost {
        FaultyHost {
            fault,
            words: Words::ZERO,
            list: PluginList::idle(0),
        }
    }

    fn has(&self, fault: Fault) -> bool {
        self.fault == Some(fault)
    }

    /// Whether the gate is of 1979 and has this fault.
    fn has_early(&self, fault: Fault) -> bool {
        self.has(fault) && self.words.year == 1979
    }

    fn block(&self) -> Block {
        let mut block = Block::of(&self.words);
        if self.has_early(Fault::SizeOf1989) {
            block.size = steps::block_size(self.words.n, self.words.k);
        }
        block.size -= u32::from(self.has(Fault::ShortBlock));
        block
    }

    /// The ticket in the record of an idle plugin.
    fn idle_ticket(&self) -> Ticket {
        Ticket::new(self.has_early(Fault::IdleOne).into(), 0)
    }

    fn new_colour(&self, from: Colour) -> Colour {
        if !self.has(Fault::ColourIgnoresCounts) {
            return steps::new_colour(&self.words, from);
        }
        steps::upward(from, self.words.k)
            .find(|&colour| colour != self.words.issue.colour && colour != self.words.valid.colour)
            .unwrap_or(from)
    }

    fn moved(&self, mover: Ticket, other: Ticket) -> Ticket {
        let block = self.block();
        if u32::from(mover.value.0) < block.last() {
            return Ticket {
                value: Value(mover.value.0 + 1),
                colour: mover.colour,
            };
        }
        let colour = if steps::leads(mover, other) {
            self.new_colour(mover.colour)
        } else {
            other.colour
        };
        let first = match self.has_early(Fault::BlockFromZero) {
            true => 0,
            false => block.first,
        };
        Ticket {
            value: Value(first),
            colour,
        }
    }

    /// The distance of a ticket.
    fn distance(&self, ticket: Ticket) -> u16 {
        let size = match self.has_early(Fault::DistanceOf1989) {
            true => steps::block_size(self.words.n, self.words.k),
            false => self.block().size,
        };
        steps::distance(size, ticket.value, self.words.valid.value)
    }

    /// VALID and the counts move as in a leave with this ticket, or in the wrong
    /// order.
    fn move_valid(&mut self, ticket: Ticket, count_down_first: bool) {
        if count_down_first {
            self.words.add_to_count(ticket.colour, -1);
            self.words.valid = self.moved(self.words.valid, self.words.issue);
            self.words.add_to_count(self.words.valid.colour, 1);
        } else {
            self.words.valid = self.moved(self.words.valid, self.words.issue);
            self.words.add_to_count(self.words.valid.colour, 1);
            self.words.add_to_count(ticket.colour, -1);
        }
    }

    /// Whether the stop of this plugin passes its slot on.
    fn passes_slot_on(&self, i: usize) -> bool {
        let inside = self.list.regions[i] == INSIDE;
        let waits_valid = self.list.regions[i] == WAITING && self.valid(self.list.ticket(i));
        (self.has(Fault::SlotPassedOn) && inside)
            || (self.has(Fault::SlotOfWaitingPassedOn) && (inside || waits_valid))
    }

    /// The rule that a look shows.
    fn rule(&self, ticket: Ticket) -> Rule {
        let rule = rules::rule(&self.words, ticket);
        let valids = self.words.valid.colour;
        let count = self.words.count(valids);
        match (self.fault, rule) {
            (Some(Fault::EqualIsAbove), Rule::NotAbove(value, valid)) if value == valid => {
                Rule::Above(value, valid)
            }
            (Some(Fault::RuleValuesExchanged), Rule::NotAbove(value, valid)) => {
                Rule::NotAbove(valid, value)
            }
            (Some(Fault::RuleValuesExchanged), Rule::Above(value, valid)) => {
                Rule::Above(valid, value)
            }
            (Some(Fault::RuleOfValidsColour), Rule::Counted(..)) => Rule::Counted(valids, count),
            (Some(Fault::RuleOfValidsColour), Rule::NotCounted(..)) => {
                Rule::NotCounted(valids, count)
            }
            (Some(Fault::RuleOfOtherVerdict), _) => match rule {
                Rule::NotAbove(value, valid) => Rule::Above(value, valid),
                Rule::Above(value, valid) => Rule::NotAbove(value, valid),
                Rule::Counted(colour, count) => Rule::NotCounted(colour, count),
                Rule::NotCounted(colour, count) => Rule::Counted(colour, count),
            },
            _ => rule,
        }
    }

    /// The slot that goes out.
    fn give_slot(&mut self) -> Slot {
        if self.has(Fault::LowestSlotFirst) {
            let length = self.words.free.iter().take_while(|&&slot| slot != 0);
            let length = length.count();
            self.words.free[..length].sort_unstable();
        }
        let (slot, left) = slots::give(&self.words);
        self.words = left;
        slot
    }

    /// A slot comes back.
    fn take_back(&mut self, slot: Slot) {
        if self.has(Fault::LastSlotFirst) {
            self.words.free.copy_within(..FREE_PLACES - 1, 1);
            self.words.free[0] = slot.0;
        } else {
            self.words = slots::take_back(&self.words, slot);
        }
    }

    /// An open over a list, which takes the place of the host's own if it is accepted.
    fn open(&mut self, year: u64, n: u64, k: u64, mut list: PluginList) -> Answer {
        let let_through = (self.has(Fault::AllSlotsOpen) && year == 1979 && k == n)
            || (self.has(Fault::OtherYearOpens) && year == 1990);
        let judged = if let_through { 1989 } else { year };
        let reply = gate::open(judged, n, k, &mut list.lend());
        if reply.number() == 0 {
            self.words = steps::opening(year as u16, n as u16, k as u8);
            if self.has_early(Fault::FirstTicketOne) {
                self.words.issue = Ticket::new(n as u16, 1);
                self.words.valid = Ticket::new(k as u16, 0);
            }
            self.words.counts[0] += u8::from(self.has_early(Fault::CountAboveK));
            list.values.fill(self.idle_ticket().value.0);
            self.list = list;
        }
        reply.answer
    }

    /// Refusals 4, 5, 6 and 9 of a leave; else the record.
    fn leaver(&self, p: u16) -> Result<usize, Answer> {
        let i = self.plugin(p)?;
        let waits = self.list.regions[i] == WAITING;
        let valid = self.valid(self.list.ticket(i));
        let may_be_stopped = self.has(Fault::StoppedHandsBack) && waits && valid;
        if self.list.marks[i] != 0 && !may_be_stopped {
            Err(Answer::Refused(5))
        } else if self.list.regions[i] == IDLE {
            Err(Answer::Refused(6))
        } else if waits && !valid && !self.has(Fault::InvalidHandedBack) {
            Err(Answer::Refused(9))
        } else {
            Ok(i)
        }
    }

    /// Refusals 4, 5 and 6, for a call that wants a region; else the record.
    fn record(&self, p: u16, wanted: u8) -> Result<usize, Answer> {
        let i = self.plugin(p)?;
        if self.list.marks[i] != 0 {
            Err(Answer::Refused(5))
        } else if self.list.regions[i] != wanted {
            Err(Answer::Refused(6))
        } else {
            Ok(i)
        }
    }

    fn plugin(&self, p: u16) -> Result<usize, Answer> {
        if self.words.n == 0 {
            Err(Answer::Refused(3))
        } else if p == 0 || p > self.words.n {
            Err(Answer::Refused(4))
        } else {
            Ok(usize::from(p) - 1)
        }
    }

    fn call(&mut self, call: Call) -> Result<Answer, Answer> {
        Ok(match call {
            Call::Open(n, k) => {
                let list = PluginList::idle(if n <= 1024 { n.into() } else { 0 });
                self.open(1989, n.into(), k.into(), list)
            }
            Call::Take(p) => {
                let i = self.record(p, IDLE)?;
                self.words.issue = self.moved(self.words.issue, self.words.valid);
                let ticket = self.words.issue;
                self.list.lend().set(i, WAITING, ticket, Slot::default());
                Answer::Ticket(ticket)
            }
            Call::Look(p) => {
                let i = self.record(p, WAITING)?;
                let ticket = self.list.ticket(i);
                let rule = self.rule(ticket);
                if !self.valid(ticket) {
                    return Ok(Answer::No(rule));
                }
                let slot = self.give_slot();
                self.list.lend().set(i, INSIDE, ticket, slot);
                Answer::Yes(slot, rule)
            }
            Call::Leave(p) => {
                let i = self.leaver(p)?;
                let waits = self.list.regions[i] == WAITING;
                let count_down_first = if waits {
                    self.has(Fault::HandBackCountDownFirst)
                } else {
                    self.has(Fault::CountDownFirst)
                };
                if !(waits && self.has(Fault::HandBackMovesNothing)) {
                    self.move_valid(self.list.ticket(i), count_down_first);
                }
                let slot = Slot(self.list.slots[i]);
                if !waits {
                    self.take_back(slot);
                } else if self.has(Fault::HandBackReturnsSlot) {
                    let first = self.give_slot();
                    self.take_back(first);
                }
                let kept = if self.has(Fault::SlotKept) {
                    slot
                } else {
                    Slot::default()
                };
                let ticket = self.idle_ticket();
                self.list.lend().set(i, IDLE, ticket, kept);
                Answer::Done
            }
            Call::Place(p) => {
                let ticket = self.list.ticket(self.record(p, WAITING)?);
                Answer::Place(if self.valid(ticket) {
                    0
                } else {
                    self.distance(ticket)
                })
            }
            Call::Stop(p) => {
                let i = self.plugin(p)?;
                if self.list.marks[i] != 0 {
                    return Err(Answer::Refused(5));
                }
                if self.passes_slot_on(i) {
                    self.move_valid(self.list.ticket(i), false);
                }
                self.list.marks[i] = 1;
                Answer::Done
            }
            Call::Wake(p) => {
                let i = self.plugin(p)?;
                if self.list.marks[i] == 0 {
                    return Err(Answer::Refused(7));
                }
                self.list.marks[i] = 0;
                Answer::Done
            }
        })
    }
}

impl Host for FaultyHost {
    fn perform(&mut self, call: Call) -> Answer {
        self.call(call).unwrap_or_else(|refusal| refusal)
    }

    fn words(&self) -> &Words {
        &self.words
    }

    fn list(&self) -> &PluginList {
        &self.list
    }

    fn valid(&self, ticket: Ticket) -> bool {
        let valid = self.words.valid;
        if self.has(Fault::ValidityByValues) {
            ticket.value <= valid.value
        } else if self.has(Fault::ValidityByLead) {
            steps::leads(valid, ticket)
        } else if self.has(Fault::EqualIsAbove) && ticket == valid {
            false
        } else {
            steps::valid(&self.words, ticket)
        }
    }
}
