//! The way of a look, as a table: the functions that run, each with what its contract says
//! that it does, what comes back, and how the definitions reach the claim. Files are those
//! of `crates/`. `tests/drawings.rs` holds it to the tree.

/// A name, and the file where it is defined.
#[derive(Clone, Copy, Debug)]
pub struct Name {
    pub name: &'static str,
    pub file: &'static str,
}

const fn name(name: &'static str, file: &'static str) -> Name {
    Name { name, file }
}

/// What a contract says: the result is what a definition gives.
pub struct Promise {
    /// The relation, or `≡`, between what is left and what the definition gives.
    pub by: &'static str,
    /// The definitions through which the contract names this one, if it does not itself.
    pub through: &'static [Name],
    pub definition: Name,
    pub says: &'static str,
}

pub struct Step {
    /// How many functions have called each other down to this one.
    pub depth: usize,
    pub function: Name,
    /// The functions, beside the one that calls this one, through which the call comes.
    pub through: &'static [&'static str],
    pub does: &'static str,
    /// The refusals that it answers: number, case of `Refusal`, and when.
    pub refuses: &'static [(u8, &'static str, &'static str)],
    /// None where the contract writes the tests out.
    pub promise: Option<Promise>,
}

/// A type in which something comes back, and what it holds.
pub struct Returned {
    pub depth: usize,
    pub in_type: Name,
    pub holds: &'static str,
}

pub enum Row {
    Step(Step),
    Returned(Returned),
}

const EXPORTS: &str = "gate_c/src/exports.rt";
const TYPES: &str = "model/src/lib.rt";
const REFUSING: &str = "begin/src/refusing.rt";
const VALIDITY: &str = "steps/src/validity.rt";
const ROW: &str = "steps/src/row.rt";
const CALLS: &str = "model/specs/Calls.antt";
const SOUND: &str = "model/specs/Sound.antt";
const RULES: &str = "model/specs/Rules.antt";
const CLAIM: &str = "model/specs/Claim.antt";
const BEGIN: &str = "begin/specs/Begin.antt";

/// A promise that the contract makes by naming the definition itself.
const fn equals(definition: Name, says: &'static str) -> Option<Promise> {
    promise("≡", &[], definition, says)
}

const fn promise(
    by: &'static str,
    through: &'static [Name],
    definition: Name,
    says: &'static str,
) -> Option<Promise> {
    Some(Promise {
        by,
        through,
        definition,
        says,
    })
}

pub const ROWS: [Row; 22] = [
    Row::Step(Step {
        depth: 0,
        function: name("slot_gate_call", EXPORTS),
        through: &[],
        does: "A host lends the words, its list as five slices, p and the letter L.",
        refuses: &[],
        promise: promise(
            "Tells",
            &[],
            name("letter_lent", "gate_c/specs/Boundary.antt"),
            "what the call does that the letter names",
        ),
    }),
    Row::Step(Step {
        depth: 1,
        function: name("try_from", "model/src/letters.rt"),
        through: &["call_named"],
        does: "",
        refuses: &[(8, "BadLine", "no call has the letter")],
        promise: equals(
            name("named_call", "model/specs/Letters.antt"),
            "the call that a letter names, or 8",
        ),
    }),
    Row::Step(Step {
        depth: 1,
        function: name("perform", "gate/src/slices.rt"),
        through: &["call_named"],
        does: "Has the call decided, then writes the one record that changes.",
        refuses: &[],
        promise: promise(
            "Meets",
            &[],
            name("call_lent", "model/specs/Slices.antt"),
            "the call, on the records that the slices hold",
        ),
    }),
    Row::Step(Step {
        depth: 2,
        function: name("decide", "gate/src/deciding.rt"),
        through: &["decide_slices"],
        does: "Reads the list, however it is kept; changes the words where they lie.",
        refuses: &[],
        promise: promise(
            "Decides",
            &[name("Decides", "gate/specs/Decides.antt")],
            name("call", CALLS),
            "what a call leaves of words and list, and answers",
        ),
    }),
    Row::Step(Step {
        depth: 3,
        function: name("begin", "begin/src/beginning.rt"),
        through: &[],
        does: "",
        refuses: &[
            (2, "WrongLength", "the list is not N long"),
            (3, "NotSound", "not sound"),
            (4, "NoSuchPlugin", "no plugin p"),
        ],
        promise: equals(name("begins", BEGIN), "these three in order, or p's place"),
    }),
    Row::Step(Step {
        depth: 4,
        function: name("is_sound", "soundness/src/sound.rt"),
        through: &[],
        does: "Tests the words, then reads the list once.",
        refuses: &[],
        promise: equals(
            name("sound", SOUND),
            "each clause of “A sound gate”, and the slots",
        ),
    }),
    Row::Step(Step {
        depth: 5,
        function: name("words_in_range", "ranges/src/range.rt"),
        through: &[],
        does: "N, k, the year, ISSUE and VALID.",
        refuses: &[],
        promise: equals(name("words_in_range", SOUND), "the clauses on the words"),
    }),
    Row::Step(Step {
        depth: 5,
        function: name("lead_of", "ranges/src/lead.rt"),
        through: &[],
        does: "How far VALID is ahead of ISSUE, or behind it.",
        refuses: &[],
        promise: equals(
            name("lead_of", "ranges/specs/Lead.antt"),
            "the lead, and what else is read of the words",
        ),
    }),
    Row::Step(Step {
        depth: 5,
        function: name("lead_in_range", "ranges/src/lead.rt"),
        through: &[],
        does: "At most k ahead, at most N − k behind.",
        refuses: &[],
        promise: None,
    }),
    Row::Step(Step {
        depth: 5,
        function: name("list_is_sound", "soundness/src/pass.rt"),
        through: &["bins_are_sound"],
        does: "One pass: records, tickets, slots; then the counts.",
        refuses: &[],
        promise: equals(name("sound", SOUND), "the same, of words that passed"),
    }),
    Row::Step(Step {
        depth: 3,
        function: name("looked", "asking/src/looking.rt"),
        through: &["called"],
        does: "Is lent the words and given p's record, nothing else of the list.",
        refuses: &[],
        promise: promise(
            "≡",
            &[
                name("alone", BEGIN),
                name("called", CALLS),
                name("called_in", CALLS),
            ],
            name("looked", CALLS),
            "after 5 and 6: yes with a slot, or no",
        ),
    }),
    Row::Step(Step {
        depth: 4,
        function: name("ready", REFUSING),
        through: &[],
        does: "",
        refuses: &[(6, "WrongRegion", "p does not wait")],
        promise: None,
    }),
    Row::Step(Step {
        depth: 5,
        function: name("running", REFUSING),
        through: &[],
        does: "",
        refuses: &[(5, "IsStopped", "p is stopped (before 6)")],
        promise: None,
    }),
    Row::Step(Step {
        depth: 4,
        function: name("rule_of", VALIDITY),
        through: &[],
        does: "Which of the four rules applies to p's ticket.",
        refuses: &[],
        promise: equals(
            name("rule_of", RULES),
            "the one whose condition is met, with its numbers",
        ),
    }),
    Row::Step(Step {
        depth: 4,
        function: name("says_yes", VALIDITY),
        through: &[],
        does: "Whether that rule says yes.",
        refuses: &[],
        promise: equals(
            name("rule_says", RULES),
            "yes just where the ticket is valid",
        ),
    }),
    Row::Step(Step {
        depth: 4,
        function: name("first", ROW),
        through: &[],
        does: "On yes: the first slot of the free row.",
        refuses: &[],
        promise: equals(
            name("head_slot", CALLS),
            "the slot that was returned longest ago",
        ),
    }),
    Row::Step(Step {
        depth: 4,
        function: name("moved_up", ROW),
        through: &[],
        does: "On yes: the free row without it.",
        refuses: &[],
        promise: equals(
            name("moved_up", CALLS),
            "the other places, each one further up",
        ),
    }),
    Row::Returned(Returned {
        depth: 3,
        in_type: name("Effect", TYPES),
        holds: "p's record and the answer; or a refusal",
    }),
    Row::Step(Step {
        depth: 2,
        function: name("write", "lists/src/columns_mut.rt"),
        through: &[],
        does: "Puts each field of the record into its slice.",
        refuses: &[],
        promise: equals(
            name("set_lent", "lists/specs/Columns.antt"),
            "the slices with one record replaced",
        ),
    }),
    Row::Returned(Returned {
        depth: 2,
        in_type: name("SlotAnswer", TYPES),
        holds: "the answer; or a refusal",
    }),
    Row::Step(Step {
        depth: 1,
        function: name("from", "answers/src/shown.rt"),
        through: &[],
        does: "Shows the answer as numbers.",
        refuses: &[],
        promise: equals(
            name("numbers_of", "answers/specs/Answers.antt"),
            "the number, and what each answer has to show",
        ),
    }),
    Row::Returned(Returned {
        depth: 1,
        in_type: name("Told", "told/src/lib.rt"),
        holds: "what the host has back: the words and the answer",
    }),
];

/// The row of the function that calls that of a row.
pub fn caller(row: usize) -> Option<usize> {
    let depth = |row: &Row| match row {
        Row::Step(step) => Some(step.depth),
        Row::Returned(_) => None,
    };
    let own = depth(&ROWS[row])?;
    let above = &ROWS[..row];
    above
        .iter()
        .rposition(|row| depth(row).is_some_and(|depth| depth < own))
}

/// A definition is made with others: drawn from the row of the one to those of the others,
/// so far to the right.
pub struct Cites {
    pub definition: Name,
    /// The definitions through which it names the others, if it does not itself.
    pub through: &'static [Name],
    pub others: &'static [&'static str],
    pub lane: usize,
}

pub const CITES: [Cites; 5] = [
    Cites {
        definition: name("letter_lent", "gate_c/specs/Boundary.antt"),
        through: &[],
        others: &["call_lent"],
        lane: 0,
    },
    Cites {
        definition: name("call_lent", "model/specs/Slices.antt"),
        through: &[],
        others: &["call"],
        lane: 0,
    },
    Cites {
        definition: name("call", CALLS),
        through: &[],
        others: &["sound"],
        lane: 0,
    },
    Cites {
        definition: name("call", CALLS),
        through: &[name("called", CALLS), name("called_in", CALLS)],
        others: &["looked"],
        lane: 1,
    },
    Cites {
        definition: name("looked", CALLS),
        through: &[],
        others: &["rule_of", "head_slot", "moved_up"],
        lane: 0,
    },
];

/// What the claim says: of what the calls leave and answer, and of what the plain queue
/// does, that they are equal.
pub struct Field {
    pub name: &'static str,
    pub of_gate: (&'static str, &'static str),
    pub of_queue: (&'static str, &'static str),
    /// What the queue's side is made with, beside `call`.
    pub with: Option<(Name, &'static str)>,
}

pub const CALL: Name = name("call", CALLS);
pub const CLAIM_IS: Name = name("Claim", CLAIM);
pub const STATEMENT: Name = name("GateIsQueue", CLAIM);
pub const THEOREM: Name = name("gate_is_queue", "model/proofs/GateIsQueue.antt");

pub const FIELDS: [Field; 3] = [
    Field {
        name: "as_queue",
        of_gate: ("gate_trace", "answers, regions, marks, validity"),
        of_queue: ("queue_trace", "the same of the plain queue"),
        with: Some((
            name("queue_call", "model/specs/Queue.antt"),
            "the plain queue",
        )),
    },
    Field {
        name: "as_taken",
        of_gate: ("gate_tickets", "the ticket in each record"),
        of_queue: ("ledger", "what each one's last take answered"),
        with: None,
    },
    Field {
        name: "as_slots",
        of_gate: ("gate_slots", "slots given, slots in the records"),
        of_queue: ("queue_slots", "the same of the slot rule"),
        with: Some((name("slot_call", "model/specs/Slots.antt"), "the slot rule")),
    },
];
