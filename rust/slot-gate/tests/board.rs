//! The example `board`: what its pages show is what the plain queue and the gate say,
//! for all schedules of `examples/`; refusals are told in words; a page loads nothing;
//! and schedules are read by the grammar alone.

#[path = "../examples/board/page.rs"]
mod page;
mod queue;
#[path = "../examples/board/run.rs"]
mod run;
#[path = "../examples/board/schedule.rs"]
mod schedule;
#[path = "../examples/board/words.rs"]
mod words;

use std::path::{Path, PathBuf};
use std::process::Command;

use page::escape;
use queue::Queue;
use run::LONGEST;
use schedule::{next_line, Line};
use slot_gate::{Call, Gate, Region};

fn draw(schedule: &[u8]) -> String {
    page::page("a schedule", &run::play(schedule))
}

fn examples() -> PathBuf {
    Path::new(env!("CARGO_MANIFEST_DIR")).join("../../examples")
}

/// All schedules of a folder and the folders in it.
fn schedules(folder: &Path) -> Vec<(PathBuf, Vec<u8>)> {
    let mut found = Vec::new();
    for entry in std::fs::read_dir(folder).unwrap() {
        let path = entry.unwrap().path();
        if path.is_dir() {
            found.extend(schedules(&path));
        } else if path.extension().is_some_and(|ending| ending == "schedule") {
            let schedule = std::fs::read(&path).unwrap();
            found.push((path, schedule));
        }
    }
    found
}

/// A cell of a page: the letters of its class, and its text.
type Cell = (String, String);

/// A board of a page: the heads of its columns, and the cells of each plugin's row.
#[derive(Default)]
struct Shown {
    heads: Vec<String>,
    rows: Vec<Vec<Cell>>,
}

/// The text between two others.
fn between<'a>(text: &'a str, start: &str, end: &str) -> &'a str {
    let from = text.find(start).expect(start) + start.len();
    let length = text[from..].find(end).expect(end);
    &text[from..from + length]
}

/// The boards of a page, each put together from its tables.
fn boards(page: &str) -> Vec<Shown> {
    let sections = page.split("<h2>Gate ").skip(1);
    sections
        .map(|section| {
            let mut shown = Shown::default();
            let section = section.split("</section>").next().unwrap();
            for table in section.split("<table>").skip(1) {
                let heads = table.split("<th scope=\"col\"").skip(1);
                shown
                    .heads
                    .extend(heads.map(|head| head.split("</th>").next().unwrap().to_string()));
                for (i, row) in table.split("<tr><th scope=\"row\">").skip(1).enumerate() {
                    assert!(row.starts_with(&format!("{}</th>", i + 1)));
                    if shown.rows.len() == i {
                        shown.rows.push(Vec::new());
                    }
                    shown.rows[i].extend(row.split("<td").skip(1).map(cell));
                }
            }
            shown
        })
        .collect()
}

fn cell(text: &str) -> Cell {
    let class = match text.starts_with(" class=") {
        true => between(text, "\"", "\"").to_string(),
        false => String::new(),
    };
    (class, between(text, ">", "</td>").to_string())
}

/// The cell of a plugin by the queue.
fn wanted(queue: &Queue, p: u64, caller: u64, refused: bool) -> Cell {
    let (mut class, mut text) = match (queue.region(p), queue.slot(p)) {
        (Region::Inside, Some(slot)) => (vec!["i"], format!("● slot {slot}")),
        (Region::Waiting, _) => match queue.place(p) {
            0 => (vec!["t"], "◐ 0".into()),
            place => (vec!["w"], format!("○ {place}")),
        },
        _ => (vec![], String::new()),
    };
    if queue.is_stopped(p) {
        class.push("s");
        text = format!("■ {text}").trim_end().into();
    }
    if p == caller {
        class.push("c");
    }
    if refused {
        class.push("r");
    }
    (class.join(" "), text)
}

/// Compares a page with its schedule, played by plain gates and queues, call by call.
/// Answers how many calls were compared.
fn check(schedule: &[u8], page: &str) -> usize {
    let boards = boards(page);
    let mut shown = boards.iter();
    let mut current: Option<(Gate, Queue, &Shown)> = None;
    let (mut column, mut calls, mut line) = (0, 0, 1);
    let mut part = schedule;
    let finish = |current: &Option<(Gate, Queue, &Shown)>, columns: usize| {
        let Some((gate, _, shown)) = current else {
            return;
        };
        assert_eq!(shown.heads.len(), columns);
        let rows = if columns == 0 {
            0
        } else {
            gate.plugins().into()
        };
        assert_eq!(shown.rows.len(), rows);
        assert!(shown.rows.iter().all(|row| row.len() == columns));
    };
    while let Some((call, rest)) = next_line(part) {
        let text = String::from_utf8_lossy(&part[..part.len() - rest.len() - 1]).into_owned();
        part = rest;
        let mut caller = 0;
        let mut said = Vec::new();
        match (call, &mut current) {
            (Line::Open(n, k), current) => match Gate::open(n, k) {
                Ok(gate) => {
                    finish(current, column);
                    let queue = Queue::open(gate.plugins(), gate.slots());
                    *current = Some((gate, queue, shown.next().expect("a board for the gate")));
                    (column, line) = (0, line + 1);
                    continue;
                }
                Err(refusal) => said.push(format!("refused {}", refusal.number())),
            },
            (Line::Call(call, p), Some((gate, queue, _))) => {
                caller = p;
                let waited = gate.region(p) == Some(Region::Waiting);
                let left = if waited { "turn handed back" } else { "left" };
                let reply = queue.call(call, p);
                let answer = match call {
                    Call::Take => gate.take(p).map(|ticket| vec![format!("ticket {ticket}")]),
                    Call::Look => gate.look(p).map(|verdict| {
                        let slot = verdict.slot().map(|slot| format!("yes, slot {slot}"));
                        vec![slot.unwrap_or("no".into()), verdict.rule().to_string()]
                    }),
                    Call::Leave => gate.leave(p).map(|()| vec![left.into()]),
                    Call::Place => gate.place(p).map(|place| vec![format!("place {place}")]),
                    Call::Stop => gate.stop(p).map(|()| vec!["stopped".into()]),
                    Call::Wake => gate.wake(p).map(|()| vec!["awake".into()]),
                    other => panic!("{other:?}"),
                };
                assert_eq!(answer.as_ref().err(), reply.as_ref().err());
                said.extend(match answer {
                    Ok(words) => words,
                    Err(refusal) => vec![format!("refused {}", refusal.number())],
                });
            }
            (Line::Call(..), None) => said.push("refused 3, no gate is open".into()),
        }
        let refused = said[0].starts_with("refused");
        match &current {
            None => {
                let sentence = format!("<li>Line {line}, {text}: {}", said[0]);
                assert!(page.contains(&sentence), "{sentence}");
            }
            Some((_, queue, shown)) => {
                let head = &shown.heads[column];
                assert!(
                    head.contains(&format!("<small>{line}</small> <b>{text}</b>")),
                    "{head}"
                );
                for words in &said {
                    assert!(
                        head.contains(&format!(">{}</", escape(words))),
                        "{words}: {head}"
                    );
                }
                assert_eq!(head.starts_with(" class=\"r\""), refused);
                for (row, p) in shown.rows.iter().zip(1..) {
                    let wanted = wanted(queue, p, caller, refused);
                    assert_eq!(row[column], wanted, "plugin {p} after line {line}, {text}");
                }
                column += 1;
            }
        }
        (calls, line) = (calls + 1, line + 1);
    }
    finish(&current, column);
    assert!(shown.next().is_none());
    assert_eq!(page.contains("<p class=\"ended\">bad: "), !part.is_empty());
    calls
}

/// A page has its style in it, and nothing that a browser would fetch or run.
fn check_loads_nothing(page: &str) {
    for word in [
        "http", "src=", "href", "url(", "@import", "<script", "<link", "<iframe", "<img",
    ] {
        assert!(!page.contains(word), "{word}");
    }
    assert!(page.starts_with("<!DOCTYPE html>\n<html lang=\"en\">"));
    assert!(page.contains("prefers-color-scheme: dark"));
}

/// All examples but the one that is too long.
#[test]
fn examples_as_the_queue_says() {
    let mut calls = 0;
    for (path, schedule) in schedules(&examples()) {
        if schedule.len() <= LONGEST {
            println!("{}", path.display());
            let page = draw(&schedule);
            calls += check(&schedule, &page);
            check_loads_nothing(&page);
        }
    }
    assert!(calls > 300, "{calls}");
}

/// The large one has every kind of result.
#[test]
fn forty_plugins() {
    let schedule = std::fs::read(examples().join("forty-plugins.schedule")).unwrap();
    let page = draw(&schedule);
    assert_eq!(check(&schedule, &page), 151);
    let [shown] = &boards(&page)[..] else {
        panic!("one gate is opened")
    };
    assert_eq!((shown.rows.len(), shown.heads.len()), (40, 151));
    let has = |words: &str| shown.heads.iter().any(|head| head.contains(words));
    for words in [
        "ticket ",
        "yes, slot ",
        ">no<",
        ">left<",
        ">turn handed back<",
        ">place ",
        ">stopped<",
        ">awake<",
    ] {
        assert!(has(words), "{words}");
    }
    for number in [4, 5, 6, 7, 9] {
        assert!(has(&format!("refused {number}")), "{number}");
    }
    for rule in [
        "not above VALID",
        " above VALID",
        "colour, counted",
        "not counted",
    ] {
        assert!(has(rule), "{rule}");
    }
    assert!(page.contains("N 40, k 5 (40 plugins, 5 slots). 151 calls, 16 refused."));
}

/// Each refusal that a schedule can meet, with its reason.
#[test]
fn refusals_in_words() {
    let refused = |calls: &str| {
        let schedule = format!("O 3 1\n{calls}\n").replace(", ", "\n");
        let page = draw(schedule.as_bytes());
        check(schedule.as_bytes(), &page);
        let head = boards(&page).remove(0).heads.pop().expect("a column");
        let (result, why) = (
            between(&head, "<span>", "</span>"),
            between(&head, "</span> <small>", "<"),
        );
        format!("{result}: {why}")
    };
    for (calls, wanted) in [
        ("T 4", "refused 4: there is no plugin 4"),
        ("P 0", "refused 4: there is no plugin 0"),
        ("S 2, T 2", "refused 5: plugin 2 is stopped"),
        ("S 2, S 2", "refused 5: plugin 2 is stopped already"),
        ("T 2, T 2", "refused 6: plugin 2 is not idle"),
        ("L 2", "refused 6: plugin 2 does not wait"),
        ("T 2, L 2, P 2", "refused 6: plugin 2 does not wait"),
        ("B 2", "refused 6: plugin 2 is idle"),
        ("W 2", "refused 7: plugin 2 is not stopped"),
        (
            "T 1, T 2, B 2",
            "refused 9: plugin 2&#39;s turn has not come",
        ),
        (
            "O 3 65",
            "refused 1: N is not 1 to 1,024, or k is not 1 to 64",
        ),
    ] {
        assert_eq!(refused(calls), wanted, "{calls}");
    }
    let page = draw(b"O 0 1\nT 1\n");
    assert!(page
        .contains("<li>Line 1, O 0 1: refused 1, N is not 1 to 1,024, or k is not 1 to 64.</li>"));
    assert!(page.contains("<li>Line 2, T 1: refused 3, no gate is open.</li>"));
}

/// What is no line ends the board with a note, in which it is text and no more.
#[test]
fn bad_lines() {
    let bad = [
        "T 01",
        "T  1",
        "T 12345",
        "T",
        "T ",
        " T 1",
        "T 1 ",
        "T 1\r",
        "T +1",
        "t 1",
        "X 1",
        "",
        "O 1",
        "O 1 1 1",
        "O 1  1",
        "O 01 1",
        "T 1 1",
        "<script>alert('&')</script>",
    ];
    for line in bad {
        let schedule = format!("O 2 1\nT 1\n{line}\nT 2\n");
        let page = draw(schedule.as_bytes());
        assert_eq!(check(schedule.as_bytes(), &page), 1, "{line}");
        let note = format!("bad: line 3, “{}”, is no line of a schedule", escape(line));
        assert!(page.contains(&note), "{line}");
        check_loads_nothing(&page);
    }
    let unended = draw(b"O 2 1\nT 1");
    assert!(unended.contains("bad: line 2, “T 1”"));
    let named = page::page("<b>\"&'</b>", &run::play(b""));
    assert!(named.contains("<title>The board: &lt;b&gt;&quot;&amp;&#39;&lt;/b&gt;</title>"));
}

/// A schedule of 64 KiB is played, and one of a byte more is not.
#[test]
fn long_schedules() {
    let calls = "T 1\nL 1\nB 1\n".repeat(5_460);
    let mut schedule = format!("O 3 1\nT 12\nT 12\n{calls}").into_bytes();
    assert_eq!(schedule.len(), LONGEST);
    assert_eq!(check(&schedule, &draw(&schedule)), 2 + 3 * 5_460);
    schedule.push(b'\n');
    let page = draw(&schedule);
    assert!(page.contains("long: the schedule has more than 65536 bytes, and is not played."));
    assert!(boards(&page).is_empty());
}

/// The reader and the proved one agree on lines and on what is nearly one.
#[cfg(feature = "compare")]
#[test]
fn as_the_proved_reader() {
    let mut seed = 1989_u64;
    let mut lines = 0;
    for _ in 0..200_000 {
        let part: Vec<u8> = (0..9)
            .map(|i| {
                seed ^= seed << 13;
                seed ^= seed >> 7;
                seed ^= seed << 17;
                let bytes: &[u8] = match (i, seed % 16) {
                    (_, 0) => b"OTLBPSWX 0123456789\n\r\t-",
                    (0, _) => b"OTLBPSW",
                    (1, _) => b" ",
                    _ => b"0123456789   \n\n\n",
                };
                bytes[(seed >> 8) as usize % bytes.len()]
            })
            .collect();
        let (proved, rest) = slot_gate::forms::next_line(&part);
        let wanted = match proved {
            [1, _, n, k] => Some((Line::Open(n, k), rest)),
            [2, letter, p, _] => {
                let named = |call: &&Call| u64::from(call.letter()) == letter;
                let call = Call::ALL.iter().find(named).expect("a call's letter");
                Some((Line::Call(*call, p), rest))
            }
            _ => None,
        };
        assert_eq!(
            next_line(&part),
            wanted,
            "{:?}",
            String::from_utf8_lossy(&part)
        );
        lines += usize::from(wanted.is_some());
    }
    assert!(lines > 20_000, "{lines}");
}

/// The command draws the page, and ends with 2 and a sentence where it cannot.
#[test]
fn command() {
    let board = |arguments: &[&str]| {
        Command::new(env!("CARGO"))
            .args(["run", "--offline", "--quiet", "--example", "board", "--"])
            .args(arguments)
            .current_dir(env!("CARGO_MANIFEST_DIR"))
            .output()
            .expect("cargo runs")
    };
    let drawn = board(&["../../examples/three-plugins.schedule"]);
    let schedule = std::fs::read(examples().join("three-plugins.schedule")).unwrap();
    let wanted = page::page("three-plugins.schedule", &run::play(&schedule));
    assert_eq!(String::from_utf8_lossy(&drawn.stdout), wanted);
    assert!(drawn.status.success());
    for (arguments, sentence) in [
        (&["no-such.schedule"][..], "no-such.schedule: "),
        (&[], "usage: board SCHEDULE"),
        (&["one", "two"], "usage: board SCHEDULE"),
    ] {
        let ended = board(arguments);
        assert_eq!(ended.status.code(), Some(2));
        assert!(String::from_utf8_lossy(&ended.stderr).starts_with(sentence));
        assert!(ended.stdout.is_empty());
    }
}
