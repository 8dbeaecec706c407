//! Writes a run as one page of HTML that loads nothing.

use std::fmt::Write;

use crate::run::{Board, Cell, Column, Ended, Made, Run, Standing, LONGEST};
use crate::schedule::Line;
use crate::words::{self, INSIDE, STOPPED, TURN, WAITS};

/// The calls of one table. The tables of a board stand side by side, and on paper
/// one under the other.
const CALLS_IN_A_TABLE: usize = 15;

/// The page of a run, with the schedule's name in its title.
pub fn page(name: &str, run: &Run) -> String {
    let mut out = String::new();
    write(&mut out, name, run).expect("a string takes what is written");
    out
}

fn write(out: &mut String, name: &str, run: &Run) -> std::fmt::Result {
    let name = escape(name);
    let style = include_str!("page.css");
    writeln!(out, "<!DOCTYPE html>\n<html lang=\"en\">\n<head>")?;
    writeln!(out, "<meta charset=\"utf-8\">")?;
    let scale = "width=device-width, initial-scale=1";
    writeln!(out, "<meta name=\"viewport\" content=\"{scale}\">")?;
    writeln!(out, "<title>The board: {name}</title>")?;
    writeln!(out, "<style>\n{style}</style>\n</head>\n<body>")?;
    writeln!(out, "<h1>The board: {name}</h1>")?;
    writeln!(out, "<p>{}</p>", summary(run))?;
    if !run.before.is_empty() {
        writeln!(out, "<h2>Before the first gate</h2>\n<ul>")?;
        for made in &run.before {
            let (result, why) = words::result(made);
            let (line, call) = (made.line, words::call(made.call));
            let sentence = escape(&format!("Line {line}, {call}: {result}, {why}."));
            writeln!(out, "<li>{sentence}</li>")?;
        }
        writeln!(out, "</ul>")?;
    }
    for (board, number) in run.boards.iter().zip(1..) {
        write_board(out, board, number)?;
    }
    if let Some(ended) = &run.ended {
        writeln!(out, "<p class=\"ended\">{}</p>", escape(&note(ended)))?;
    }
    if !run.boards.is_empty() {
        writeln!(out, "{}", legend())?;
    }
    writeln!(out, "</body>\n</html>")
}

fn summary(run: &Run) -> String {
    let all = || run.boards.iter().flat_map(|board| &board.columns);
    let calls = run.before.len() + all().count();
    let refused = run.before.len() + all().filter(|column| is_refused(&column.made)).count();
    let opened = count(run.boards.len(), "gate");
    format!(
        "{opened} opened, {}, {refused} refused.",
        count(calls, "other call")
    )
}

fn count(number: usize, of: &str) -> String {
    format!("{number} {of}{}", if number == 1 { "" } else { "s" })
}

fn note(ended: &Ended) -> String {
    match ended {
        Ended::Bad(line, bytes) => {
            let text: String = String::from_utf8_lossy(bytes).chars().take(40).collect();
            format!(
                "bad: line {line}, “{text}”, is no line of a schedule, and the run ends before it."
            )
        }
        Ended::Long => {
            format!("long: the schedule has more than {LONGEST} bytes, and is not played.")
        }
    }
}

fn write_board(out: &mut String, board: &Board, number: usize) -> std::fmt::Result {
    let (plugins, slots) = (board.plugins, board.slots);
    let refused = board
        .columns
        .iter()
        .filter(|column| is_refused(&column.made));
    let (calls, refused) = (board.columns.len(), refused.count());
    writeln!(out, "<section>\n<h2>Gate {number}</h2>")?;
    writeln!(
        out,
        "<p>Opened by line {}: N {plugins}, k {slots} ({}, {}). {}, {refused} refused.</p>",
        board.line,
        count(plugins.into(), "plugin"),
        count(slots.into(), "slot"),
        count(calls, "call"),
    )?;
    if calls > 0 {
        writeln!(
            out,
            "<div class=\"board\" role=\"region\" aria-label=\"Gate {number}\" tabindex=\"0\">"
        )?;
        for columns in board.columns.chunks(CALLS_IN_A_TABLE) {
            write_table(out, plugins, columns)?;
        }
        writeln!(out, "</div>")?;
    }
    writeln!(out, "</section>")
}

fn write_table(out: &mut String, plugins: u16, columns: &[Column]) -> std::fmt::Result {
    writeln!(out, "<table>\n<thead>\n<tr><th class=\"p\">plugin</th>")?;
    for Column { made, .. } in columns {
        let (result, why) = words::result(made);
        let refused = if is_refused(made) { " class=\"r\"" } else { "" };
        let call = escape(&words::call(made.call));
        write!(
            out,
            "<th scope=\"col\"{refused}><small>{}</small> ",
            made.line
        )?;
        write!(out, "<b>{call}</b> <span>{}</span>", escape(&result))?;
        if !why.is_empty() {
            write!(out, " <small>{}</small>", escape(&why))?;
        }
        writeln!(out, "</th>")?;
    }
    writeln!(out, "</tr>\n</thead>\n<tbody>")?;
    for p in 1..=plugins {
        write!(out, "<tr><th scope=\"row\">{p}</th>")?;
        for Column { made, cells } in columns {
            let cell = &cells[usize::from(p) - 1];
            let class = class(cell, made, p.into());
            write!(out, "<td{class}>{}</td>", escape(&words::cell(cell)))?;
        }
        writeln!(out, "</tr>")?;
    }
    writeln!(out, "</tbody>\n</table>")
}

/// w waits, t its turn has come, i inside; s stopped; c the caller; r in the column of
/// a refused call.
fn class(cell: &Cell, made: &Made, p: u64) -> String {
    let region = match cell.standing {
        Standing::Idle => None,
        Standing::Waiting(0) => Some('t'),
        Standing::Waiting(_) => Some('w'),
        Standing::Inside(_) => Some('i'),
    };
    let is_caller = matches!(made.call, Line::Call(_, caller) if caller == p);
    let others = [
        (cell.stopped, 's'),
        (is_caller, 'c'),
        (is_refused(made), 'r'),
    ];
    let others = others.into_iter().filter(|(is_so, _)| *is_so);
    let names: Vec<String> = region
        .into_iter()
        .chain(others.map(|(_, name)| name))
        .map(String::from)
        .collect();
    match names.is_empty() {
        true => String::new(),
        false => format!(" class=\"{}\"", names.join(" ")),
    }
}

fn is_refused(made: &Made) -> bool {
    made.result.is_err()
}

/// What the signs mean.
fn legend() -> String {
    let rows = [
        ("", "".into(), "A blank cell: the plugin is idle."),
        ("w", format!("{WAITS} 3"), "It waits, and its turn comes with the third return from now: the number is its place."),
        ("t", format!("{TURN} 0"), "It waits, and its turn has come: its next look is yes. It may also hand its turn back by a leave."),
        ("i", format!("{INSIDE} slot 2"), "It is inside, and slot 2 is its own until it leaves."),
        ("s", STOPPED.into(), "It is stopped: it keeps what it has, ticket, turn or slot, and can do nothing until it is woken."),
        ("c", "".into(), "A heavy frame: this plugin made the call of the column."),
        ("r", "".into(), "A column with slanted lines: the call was refused and changed nothing; its head has the number and the reason."),
    ];
    let mut out = String::from("<section class=\"legend\">\n<h2>How to read it</h2>\n");
    out += "<p>A row for each plugin, a column for each call, in the order of the schedule. Above a column stand the line of the schedule, \
            the call and its result, for a look with the rule that decided it; below, how every plugin stands after the call. \
            T take, L look, B leave, P place, S stop, W wake, O open.</p>\n<table>\n";
    for (class, sign, words) in rows {
        let sign = escape(&sign);
        out += &format!("<tr><td class=\"{class}\">{sign}</td><th>{words}</th></tr>\n");
    }
    out + "</table>\n</section>"
}

/// Text as HTML has it.
pub fn escape(text: &str) -> String {
    let mut out = String::with_capacity(text.len());
    for c in text.chars() {
        match c {
            '&' => out.push_str("&amp;"),
            '<' => out.push_str("&lt;"),
            '>' => out.push_str("&gt;"),
            '"' => out.push_str("&quot;"),
            '\'' => out.push_str("&#39;"),
            _ => out.push(c),
        }
    }
    out
}
