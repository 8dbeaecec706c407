//! The tables of the benchmark, in Markdown.

use std::fmt::Write;

use super::cases::{Crafted, Kind};
use super::clock::{TURN, TURNS};
use super::{Cell, PLUGINS, SLOTS, SWEEPS};

/// What was measured: every call of 1989, the look of 1979, the look on crafted lists,
/// each by the proved call, the program written for speed and this crate's gate; and
/// the look over records and on slices, both proved.
pub struct Measured {
    pub calls: Vec<Cell<3>>,
    pub early: Vec<Cell<3>>,
    pub crafted: Vec<Cell<3>>,
    pub thin: Vec<Cell<2>>,
    /// Nanoseconds for what is timed beside a call.
    pub nothing: f64,
}

/// All that the benchmark prints.
pub fn report(date: Option<&str>, measured: &Measured) -> String {
    let on = date.map_or(String::new(), |date| format!(", {date}"));
    let mut text = format!("Nanoseconds for a call{on}.\n\n");
    text += &format!(
        "On a sound list every plugin holds a ticket (before a take, all but one) and as many as \
         can be are inside. A damaged list is a full one whose last record has the first one's \
         ticket: the call answers 3 when it has read the last record. Times are the best of {} \
         turns of {} to {} µs, all ways by turns; a ratio is that of the best times, in brackets \
         that of the medians. In the times of the calls that name a plugin is the record that is \
         put back between calls, and but for our gate the copy of the words that they change, \
         {:.0} ns together.\n\n",
        SWEEPS * TURNS,
        TURN.as_micros() / 2,
        TURN.as_micros(),
        measured.nothing
    );
    text += &look_table("Look, proved / fast / ours", &measured.calls);
    text += "\nThe same of gates of 1979, where k is below N. All other tables are of 1989.\n\n";
    text += &look_table("Look of 1979, proved / fast / ours", &measured.early);
    text += "\nThe tickets of a sound list, made up to be hard to tell apart; k is 64.\n\n";
    text += &crafted_table(&measured.crafted);
    for k in SLOTS {
        for damaged in [false, true] {
            text += "\n";
            text += &call_table(&measured.calls, k, damaged);
        }
    }
    text += "\n";
    text += &ratios(&measured.calls);
    text += "\nA look over records against the look on number slices, both proved.\n\n";
    text += &look_table("Look, records / slices", &measured.thin);
    text
}

/// A look at every size that was measured: the times of all ways, the ratio of the
/// first two, and how often the time of the row above goes into each of these.
pub fn look_table<const WAYS: usize>(title: &str, cells: &[Cell<WAYS>]) -> String {
    let mut text = format!(
        "| {title}: k | N | sound list | ratio | growth | damaged list | ratio | growth |\n\
         |---|---|---|---|---|---|---|---|\n",
    );
    for k in SLOTS {
        let mut above: [Option<&Cell<WAYS>>; 2] = [None, None];
        for n in PLUGINS {
            let lists = [false, true].map(|damaged| find(cells, Kind::LOOK, n, k, damaged));
            if lists.iter().all(Option::is_none) {
                continue;
            }
            let mut row = format!("| {k} | {} |", thousands(n.into()));
            for (damaged, cell) in [false, true].into_iter().zip(lists) {
                let Some(cell) = cell else {
                    continue;
                };
                let above = above[usize::from(damaged)].replace(cell);
                let growth = above.map_or(String::new(), |above| {
                    let [first, second] =
                        [0, 1].map(|way| cell.times[way].best / above.times[way].best);
                    format!("{first:.1} / {second:.1}")
                });
                let (times, ratio) = (times(cell, WAYS), both_ratios(cell));
                let _ = write!(row, " {times} | {ratio} | {growth} |");
            }
            text += &row;
            text.push('\n');
        }
    }
    text
}

/// A look on each of the crafted lists.
pub fn crafted_table<const WAYS: usize>(cells: &[Cell<WAYS>]) -> String {
    let mut text = String::from(
        "| Look: tickets | N | sound list | ratio | damaged list | ratio |\n\
         |---|---|---|---|---|---|\n",
    );
    for crafted in Crafted::ALL {
        for n in PLUGINS {
            let row: Vec<&Cell<WAYS>> = cells
                .iter()
                .filter(|cell| cell.crafted == Some(crafted) && cell.n == n)
                .collect();
            if row.is_empty() {
                continue;
            }
            let _ = write!(text, "| {} | {} |", crafted.name(), thousands(n.into()));
            for cell in row {
                let _ = write!(text, " {} | {} |", times(cell, WAYS), both_ratios(cell));
            }
            text.push('\n');
        }
    }
    text
}

/// Every call at one k, on sound or on damaged lists.
pub fn call_table<const WAYS: usize>(cells: &[Cell<WAYS>], k: u8, damaged: bool) -> String {
    let list = if damaged { "damaged" } else { "sound" };
    let mut text = format!("| k {k}, {list} list |");
    for n in PLUGINS {
        let _ = write!(text, " N {} |", thousands(n.into()));
    }
    text += "\n|---|---|---|---|---|\n";
    for kind in Kind::ALL {
        let row: Vec<&Cell<WAYS>> = PLUGINS
            .iter()
            .filter_map(|&n| find(cells, kind, n, k, damaged))
            .collect();
        if row.is_empty() {
            continue;
        }
        let _ = write!(text, "| {} |", kind.name());
        for cell in row {
            let _ = write!(text, " {} ({:.2}) |", times(cell, 2), cell.ratio());
        }
        text.push('\n');
    }
    text
}

/// The least, the middle and the greatest ratio over all calls and sizes.
fn ratios<const WAYS: usize>(cells: &[Cell<WAYS>]) -> String {
    let mut text = String::new();
    for (damaged, list) in [(false, "sound"), (true, "damaged")] {
        let mut ratios: Vec<f64> = cells
            .iter()
            .filter(|cell| cell.damaged == damaged)
            .map(Cell::ratio)
            .collect();
        ratios.sort_by(f64::total_cmp);
        if let (Some(least), Some(most)) = (ratios.first(), ratios.last()) {
            let middle = ratios[ratios.len() / 2];
            let _ = writeln!(
                text,
                "Proved / fast over all calls and sizes, {list} lists: least {least:.2}, middle {middle:.2}, greatest {most:.2}."
            );
        }
    }
    text
}

fn find<const WAYS: usize>(
    cells: &[Cell<WAYS>],
    kind: Kind,
    n: u16,
    k: u8,
    damaged: bool,
) -> Option<&Cell<WAYS>> {
    cells
        .iter()
        .find(|cell| (cell.kind, cell.n, cell.k, cell.damaged) == (kind, n, k, damaged))
}

/// The best times of the first so many ways.
fn times<const WAYS: usize>(cell: &Cell<WAYS>, ways: usize) -> String {
    let shown = cell.times[..ways].iter();
    let shown: Vec<String> = shown
        .map(|time| thousands(time.best.round() as u64))
        .collect();
    shown.join(" / ")
}

fn both_ratios<const WAYS: usize>(cell: &Cell<WAYS>) -> String {
    format!("{:.2} ({:.2})", cell.ratio(), cell.median_ratio())
}

/// A number with a comma before its last three digits, and so on.
fn thousands(number: u64) -> String {
    if number < 1000 {
        return number.to_string();
    }
    format!("{},{:03}", thousands(number / 1000), number % 1000)
}
