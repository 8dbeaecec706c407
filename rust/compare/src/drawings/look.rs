//! The way of a look, from a host's call down to the claim: what runs, beside it what each
//! contract says, and how the definitions that the contracts name reach the claim.

use super::svg::{escaped, name_width, Svg};
use super::way::{caller, Field, Name, Promise, Row, Step, CITES, FIELDS, ROWS};
use super::way::{CALL, CLAIM_IS, STATEMENT, THEOREM};

const WIDTH: usize = 1000;
const MARGIN: usize = 20;

/// The first row's top; a row, the box in it, and a row of what comes back.
const TOP: usize = 118;
const ROW: usize = 48;
const BOX: usize = 40;
const BACK: usize = 34;

/// How far a function stands to the right of the one that calls it, where all functions
/// end, and where definitions begin and end.
const INDENT: usize = 18;
const FUNCTIONS: usize = 510;
const DEFINITIONS: usize = 606;
const END: usize = 940;

/// The lines of what a definition is made with, at the right of the definitions.
const LANE: usize = 14;

/// The claim's left side, how far its boxes stand inside, how far apart its fields are, and
/// where the boxes of the queue end and those of the gate begin.
const CLAIM: usize = 206;
const INSET: usize = 14;
const FIELD: usize = 50;
const QUEUE_END: usize = 506;
const GATE: usize = 610;

const STYLES: &str = "\
text { fill: #1a1a1a }
.title { font-size: 16px; font-weight: bold }
.head { font-size: 14px; font-weight: bold }
.name { font-family: monospace; font-size: 13px; font-weight: bold }
.file { font-family: monospace; font-size: 11px; text-anchor: end; fill: #444 }
.by { font-family: monospace; font-size: 12px; font-weight: bold; text-anchor: middle }
.number { font-weight: bold }
.note { font-size: 12px }
.runs { fill: #e6eff9; stroke: #333 }
.defined { fill: #fbf1dc; stroke: #333 }
.claim { fill: #f1f7ec; stroke: #333; stroke-width: 2 }
.theorem { fill: #e0f0d6; stroke: #333; stroke-width: 3 }
.back { fill: #fff; stroke: #333; stroke-dasharray: 5 3 }
.call { fill: none; stroke: #777; stroke-width: 1.3 }
.equal { fill: none; stroke: #333; stroke-width: 1.3 }
.cites { fill: none; stroke: #9a5b00; stroke-width: 1.3 }
.thick { fill: none; stroke: #9a5b00; stroke-width: 3 }
.tip { fill: #9a5b00 }
";

/// How to read it.
const NOTES: [&str; 2] = [
    "A function stands below the one that calls it, further to the right. A line leads to the definition whose outcome its contract promises,",
    "and names the relation between the two (≡ is equality). An arrow leads from a definition to one that it is made with. Files are in crates/.",
];

const ONE_CALL: &str = "The contracts above and the claim speak of one and the same call: what the claim says of it is said of what runs.";
const EVERY_CLAIM: &str =
    "the claim, for every year, N and k that open accepts and every list of calls.";

pub fn draw() -> String {
    let claim = row_top(ROWS.len()) + 24;
    let title = "The way of a look, from a host's call down to the claim";
    let mut svg = Svg::new((WIDTH, claim + 330), title, STYLES);
    svg.text((MARGIN, 28), "title", title);
    for (line, note) in NOTES.into_iter().enumerate() {
        svg.text((MARGIN, 50 + 17 * line), "note", note);
    }
    svg.text((MARGIN, TOP - 16), "head", "What runs");
    svg.text(
        (DEFINITIONS, TOP - 16),
        "head",
        "What its contract says that it does",
    );
    draw_calls(&mut svg);
    for (place, row) in ROWS.iter().enumerate() {
        match row {
            Row::Step(step) => draw_step(&mut svg, step, row_top(place)),
            Row::Returned(returned) => {
                let left = left(returned.depth);
                svg.rect(
                    (left, row_top(place)),
                    (FUNCTIONS - left, BACK - 8),
                    "class=\"back\" rx=\"8\"",
                );
                let text = format!(
                    "comes back: <tspan class=\"name\">{}</tspan>, {}",
                    returned.in_type.name,
                    escaped(returned.holds)
                );
                svg.spans((left + 10, row_top(place) + 17), &text);
            }
        }
    }
    draw_cites(&mut svg);
    draw_claim(&mut svg, claim);
    svg.finish()
}

/// The top of a row: steps are higher than what comes back.
fn row_top(place: usize) -> usize {
    let heights = ROWS[..place].iter().map(|row| match row {
        Row::Step(_) => ROW,
        Row::Returned(_) => BACK,
    });
    TOP + heights.sum::<usize>()
}

fn left(depth: usize) -> usize {
    MARGIN + depth * INDENT
}

/// From each function to those that it calls.
fn draw_calls(svg: &mut Svg) {
    for (place, row) in ROWS.iter().enumerate() {
        let Row::Step(step) = row else { continue };
        if let Some(caller) = caller(place) {
            let x = left(step.depth) - INDENT + 8;
            let (from, to) = (row_top(caller) + BOX, row_top(place) + BOX / 2);
            svg.path("call", &format!("M{x} {from} V{to} H{}", left(step.depth)));
        }
    }
}

fn draw_step(svg: &mut Svg, step: &Step, top: usize) {
    let left = left(step.depth);
    svg.rect((left, top), (FUNCTIONS - left, BOX), "class=\"runs\"");
    draw_name(svg, step.function, (left, FUNCTIONS), top);
    let mut text = escaped(step.does);
    for (place, (number, _, when)) in step.refuses.iter().enumerate() {
        text += if place == 0 { "Refusal " } else { "; " };
        text += &format!(
            "<tspan class=\"number\">{number}</tspan>: {}",
            escaped(when)
        );
    }
    if !step.refuses.is_empty() {
        text.push('.');
    }
    svg.spans((left + 8, top + 33), &text);
    match &step.promise {
        Some(promise) => draw_promise(svg, promise, top),
        None => svg.text(
            (DEFINITIONS + 8, top + 24),
            "note",
            "(written out in its contract)",
        ),
    }
}

fn draw_promise(svg: &mut Svg, promise: &Promise, top: usize) {
    let middle = top + BOX / 2;
    svg.path("equal", &format!("M{FUNCTIONS} {middle} H{DEFINITIONS}"));
    svg.text(
        ((FUNCTIONS + DEFINITIONS) / 2, middle - 5),
        "by",
        &label(promise),
    );
    svg.rect(
        (DEFINITIONS, top),
        (END - DEFINITIONS, BOX),
        "class=\"defined\" rx=\"8\"",
    );
    draw_name(svg, promise.definition, (DEFINITIONS, END), top);
    svg.text((DEFINITIONS + 8, top + 33), "note", promise.says);
}

/// The relation; and, where that is equality with what another definition makes of the one
/// that is drawn, the name of that.
fn label(promise: &Promise) -> String {
    match (promise.by, promise.through) {
        ("≡", [first, ..]) => format!("≡ {}", first.name),
        (by, _) => by.to_string(),
    }
}

/// A name at the left of a box, and its file at the right.
fn draw_name(svg: &mut Svg, name: Name, (left, right): (usize, usize), top: usize) {
    debug_assert!(
        name_width(name.name, 13) + name_width(name.file, 11) + 24 <= right - left,
        "{} is too long",
        name.name
    );
    svg.text((left + 8, top + 16), "name", name.name);
    svg.text((right - 8, top + 15), "file", name.file);
}

/// The first row whose contract names a definition.
fn row_of(definition: &str) -> usize {
    let names = |row: &Row| match row {
        Row::Step(step) => step
            .promise
            .as_ref()
            .is_some_and(|promise| promise.definition.name == definition),
        Row::Returned(_) => false,
    };
    ROWS.iter()
        .position(names)
        .expect("a row has the definition")
}

fn draw_cites(svg: &mut Svg) {
    for cites in &CITES {
        let x = END + (cites.lane + 1) * LANE;
        let from = row_top(row_of(cites.definition.name)) + 28;
        for other in cites.others {
            let to = row_top(row_of(other)) + 12;
            svg.path("cites", &format!("M{END} {from} H{x} V{to} H{END}"));
            svg.path("tip", &format!("M{END} {to} l8 -4 v8 z"));
        }
    }
}

/// The claim: its fields, of the gate at the right and of the queue at the left, and the
/// theorem below it.
fn draw_claim(svg: &mut Svg, top: usize) {
    svg.text((MARGIN, top), "head", "From the definitions to the claim");
    svg.text((MARGIN, top + 20), "note", ONE_CALL);
    let (frame, height) = (top + 36, 40 + FIELDS.len() * FIELD);
    let size = (END - CLAIM, height);
    svg.rect((CLAIM, frame), size, "class=\"claim\"");
    draw_name(svg, CLAIM_IS, (CLAIM + 6, END - 6), frame + 4);
    let (trunk, call) = (END + 3 * LANE, row_top(row_of(CALL.name)) + BOX / 2);
    for (place, field) in FIELDS.iter().enumerate() {
        let top = frame + 36 + place * FIELD;
        draw_field(svg, field, top);
        let (from, middle) = (END - INSET, top + BOX / 2);
        svg.path("thick", &format!("M{from} {middle} H{trunk} V{call}"));
    }
    svg.path("thick", &format!("M{trunk} {call} H{}", END + 8));
    svg.path("tip", &format!("M{END} {call} l11 -6 v12 z"));
    let theorem = frame + height + 28;
    svg.rect(
        (CLAIM, theorem),
        (END - CLAIM, BOX + 4),
        "class=\"theorem\"",
    );
    draw_name(svg, THEOREM, (CLAIM + 4, END - 4), theorem + 2);
    let says = format!("{}: {EVERY_CLAIM}", STATEMENT.name);
    svg.text((CLAIM + 12, theorem + 35), "note", &says);
    let middle = (CLAIM + END) / 2;
    svg.path("equal", &format!("M{middle} {theorem} V{}", frame + height));
}

fn draw_field(svg: &mut Svg, field: &Field, top: usize) {
    let (middle, between) = (top + BOX / 2, (QUEUE_END + GATE) / 2);
    let queue = CLAIM + INSET;
    let sides = [
        ((queue, QUEUE_END), field.of_queue),
        ((GATE, END - INSET), field.of_gate),
    ];
    for ((left, right), (name, says)) in sides {
        let size = (right - left, BOX);
        svg.rect((left, top), size, "class=\"defined\" rx=\"8\"");
        svg.text((left + 8, top + 16), "name", name);
        svg.text((left + 8, top + 33), "note", says);
    }
    svg.path("equal", &format!("M{QUEUE_END} {middle} H{GATE}"));
    svg.text((between, middle - 5), "by", field.name);
    svg.text((between, middle + 15), "by", "≡");
    if let Some((with, says)) = field.with {
        let end = CLAIM - 22;
        let size = (end - MARGIN, BOX + 12);
        svg.rect((MARGIN, top - 6), size, "class=\"defined\" rx=\"8\"");
        svg.text((MARGIN + 8, top + 10), "name", with.name);
        svg.text((MARGIN + 8, top + 25), "note", says);
        svg.text((end - 8, top + 40), "file", with.file);
        svg.path("cites", &format!("M{queue} {middle} H{end}"));
        svg.path("tip", &format!("M{end} {middle} l8 -4 v8 z"));
    }
}
