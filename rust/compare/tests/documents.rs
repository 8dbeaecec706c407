//! What the repository's documents name is there: files, folders, must-fail
//! edits, definitions, and the line counts of the files that hold them.

use std::collections::BTreeSet;
use std::path::{Path, PathBuf};

use tree::{defined, root, text};

mod tree;

fn entries(folder: &Path) -> Vec<PathBuf> {
    let entries = std::fs::read_dir(folder).into_iter().flatten();
    entries
        .map(|entry| entry.expect("an entry").path())
        .collect()
}

/// README and the pages of docs/.
fn documents() -> Vec<PathBuf> {
    let pages = entries(&root().join("docs")).into_iter();
    let mut pages: Vec<PathBuf> = pages
        .filter(|path| path.extension().is_some_and(|ending| ending == "md"))
        .collect();
    pages.push(root().join("README.md"));
    pages
}

/// What stands between single backticks, and what stands outside of them.
fn spans(line: &str) -> (Vec<&str>, Vec<&str>) {
    let parts: Vec<&str> = line.split('`').collect();
    let inside = parts.iter().skip(1).step_by(2).copied().collect();
    (inside, parts.iter().step_by(2).copied().collect())
}

#[test]
fn every_path_that_a_document_names_exists() {
    let mut named = 0;
    for page in documents() {
        for line in text(&page).lines() {
            for span in spans(line).0 {
                let is_path = ["crates/", "rust/", "docs/", "examples/", ".ci/"]
                    .iter()
                    .any(|folder| span.starts_with(folder));
                if is_path && !span.contains([' ', '*']) {
                    named += 1;
                    let found = root().join(span).exists();
                    assert!(found, "{} names {span}, which is not there", page.display());
                }
            }
        }
    }
    assert!(named > 40, "only {named} paths were found in the documents");
}

#[test]
fn every_edit_that_the_auditors_page_names_exists() {
    let edits: BTreeSet<String> = entries(&root().join("crates"))
        .iter()
        .flat_map(|folder| entries(&folder.join("must-fail")))
        .filter_map(|path| Some(path.file_stem()?.to_str()?.to_string()))
        .collect();
    let mut named = 0;
    for line in text(&root().join("docs/AUDIT.md")).lines() {
        for span in spans(line).1 {
            let words = span.split(|letter: char| !letter.is_ascii_alphanumeric() && letter != '_');
            for word in words.filter(|word| word.contains('_')) {
                named += 1;
                assert!(edits.contains(word), "no must-fail edit is named {word}");
            }
        }
    }
    assert!(named > 30, "only {named} edits were found on the page");
}

/// "`Sound.antt` | 143 | ..": the table of what to read, in order.
#[test]
fn the_line_counts_of_the_definitions_are_right() {
    let mut counted = 0;
    for line in text(&root().join("docs/AUDIT.md")).lines() {
        let cells: Vec<&str> = line.split('|').map(str::trim).collect();
        let [_, files, counts, ..] = cells[..] else {
            continue;
        };
        let files = spans(files).0;
        let counts: Option<Vec<usize>> =
            counts.split(" + ").map(|part| part.parse().ok()).collect();
        let Some(counts) = counts.filter(|counts| counts.len() == files.len()) else {
            continue;
        };
        for (file, count) in files.iter().zip(counts) {
            let folder = if file.starts_with("crates/") {
                ""
            } else {
                "crates/model/specs"
            };
            let path = root().join(folder).join(file);
            assert_eq!(text(&path).lines().count(), count, "{file}");
            counted += 1;
        }
    }
    assert_eq!(counted, 51);
}

/// "| `gate` | .. | `model`, .. |": each row of the crates has what crates.txt has.
#[test]
fn what_each_crate_relies_on_is_right() {
    let page = text(&root().join("docs/ARCHITECTURE.md"));
    let listed = text(&root().join("crates.txt"));
    let lines = listed.lines().filter(|line| !line.starts_with('#'));
    for line in lines {
        let (name, libraries) = line.split_once(':').expect("a crate and a colon");
        let name = name.strip_suffix(" staticlib").unwrap_or(name);
        let wanted: Vec<&str> = libraries.split_whitespace().collect();
        let row = page.lines().find_map(|row| {
            let cells: Vec<&str> = row.split('|').collect();
            let is_row = cells.len() == 5 && spans(cells[1]).0.contains(&name);
            is_row.then(|| spans(cells[3]).0)
        });
        assert_eq!(row, Some(wanted), "{name}");
    }
}

/// A definition that a page names: "`leads` in `Steps.antt`", or several of one file,
/// parted by commas and "and".
#[derive(Debug)]
struct Named<'a> {
    name: &'a str,
    file: &'a str,
}

fn named(paragraph: &str) -> Vec<Named<'_>> {
    let (inside, outside) = spans(paragraph);
    let mut all = Vec::new();
    for (i, &file) in inside.iter().enumerate() {
        let is_file = file.ends_with(".antt") || file.ends_with(".rt");
        if !is_file || outside[i] != " in " {
            continue;
        }
        // Backward from the file: outside[j] is what stands before inside[j].
        let mut j = i;
        loop {
            j -= 1;
            let name = inside[j];
            all.push(Named { name, file });
            if ![", ", " and "].contains(&outside[j]) {
                break;
            }
        }
    }
    all
}

/// A file of definitions; one without a folder is in model's `specs/`.
fn definitions(file: &str) -> String {
    let folder = if file.contains('/') {
        ""
    } else {
        "crates/model/specs"
    };
    text(&root().join(folder).join(file))
}

const RULES: &str = "docs/GATE.md";

#[test]
fn every_definition_that_the_rules_name_is_there() {
    let page = text(&root().join(RULES));
    let mut count = 0;
    for line in page.lines() {
        for Named { name, file } in named(line) {
            count += 1;
            let there = definitions(file)
                .lines()
                .any(|line| defined(line) == Some(name));
            assert!(there, "{RULES} names {name}, which {file} does not define");
        }
    }
    assert!(count > 100, "only {count} definitions are named");
}

/// A paragraph is a line of the page: each says where its rule is defined, but for
/// headings, the head of a table, and what stands before the first section.
#[test]
fn every_paragraph_of_the_rules_names_its_definition() {
    let page = text(&root().join(RULES));
    let sections = page.lines().skip_while(|line| !line.starts_with("## "));
    for line in sections {
        let is_rule = !line.is_empty()
            && !line.starts_with("## ")
            && !line.starts_with("|---")
            && !line.starts_with("| Number |");
        let names_one = !named(line).is_empty();
        assert!(!is_rule || names_one, "no definition is named: {line}");
    }
}

/// Every definition with a rule of its own, of the files that hold document 01's
/// rules, is named on the page. What is marked `abbrev` only names a part, but for the
/// refusals' numbers.
#[test]
fn the_rules_are_complete() {
    let page = text(&root().join(RULES));
    let named: BTreeSet<(&str, &str)> = page
        .lines()
        .flat_map(named)
        .map(|Named { name, file }| (name, file))
        .collect();
    for file in [
        "Refusals.antt",
        "Steps.antt",
        "Rules.antt",
        "Sound.antt",
        "Calls.antt",
        "Opening.antt",
        "Alike.antt",
        "Queue.antt",
        "Schedule.antt",
        "crates/numbered/specs/Sound.antt",
        "crates/numbered/specs/Calls.antt",
    ] {
        let all = definitions(file);
        let is_rule = |line: &&str| line.starts_with("unfoldable ") || file == "Refusals.antt";
        let rules = all.lines().filter(is_rule);
        for name in rules.filter_map(defined) {
            assert!(
                named.contains(&(name, file)),
                "{RULES} does not name {name} of {file}"
            );
        }
    }
}
