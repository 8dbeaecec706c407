//! The drawings in `docs/` are those of the files as they stand, and what they show is so:
//! the crates stand above what they rest on; every function, definition and theorem on the
//! way of a look is where it is said to be, calls what stands below it, promises what stands
//! beside it, and is made with what its arrows lead to.

use compare::drawings::way::{caller, Name, Row, Step};
use compare::drawings::way::{CALL, CITES, CLAIM_IS, FIELDS, ROWS, STATEMENT, THEOREM};
use compare::drawings::{all, layers, list};
use tree::{defined, root, text};

mod tree;

#[test]
fn the_drawings_are_of_the_files_as_they_stand() {
    for (name, drawing) in all(&root()).expect("the crates are listed") {
        let kept = text(&root().join("docs").join(name));
        let is_same = kept == drawing;
        assert!(is_same, "docs/{name} is old: run `compare drawings`");
    }
}

/// How far a crate's name stands from the top.
fn height(drawing: &str, name: &str) -> usize {
    let end = format!(">{name}</text>");
    let mut lines = drawing
        .lines()
        .filter(|line| line.starts_with("<text class=\"name\"") && line.ends_with(&end));
    let line = lines
        .next()
        .unwrap_or_else(|| panic!("{name} is not drawn"));
    assert!(lines.next().is_none(), "{name} is drawn twice");
    let (_, y) = line.split_once(" y=\"").expect("a text has a y");
    let (y, _) = y.split_once('"').expect("a number has an end");
    y.parse().expect("y is a number")
}

#[test]
fn each_crate_stands_above_what_it_rests_on() {
    let list = list::read(&root()).expect("the crates are listed");
    let [(_, drawing), _] = all(&root()).expect("the crates are listed");
    for one in &list.crates {
        for &below in &one.rests_on {
            let below = &list.crates[below].name;
            let is_above = height(&drawing, &one.name) < height(&drawing, below);
            assert!(is_above, "{} rests on {below}", one.name);
        }
    }
}

/// For each crate, whether lines lead down from it to each other one.
fn reached(lines: &[Vec<usize>]) -> Vec<Vec<bool>> {
    let reach = |from: usize| {
        let mut reached = vec![false; lines.len()];
        let mut next = lines[from].clone();
        while let Some(one) = next.pop() {
            if !reached[one] {
                reached[one] = true;
                next.extend(&lines[one]);
            }
        }
        reached
    };
    (0..lines.len()).map(reach).collect()
}

#[test]
fn the_lines_are_as_few_as_can_be_and_lead_to_all() {
    let list = list::read(&root()).expect("the crates are listed");
    let rests_on: Vec<Vec<usize>> = list.crates.iter().map(|one| one.rests_on.clone()).collect();
    let mut lines = layers::direct(&rests_on);
    let wanted = reached(&rests_on);
    assert_eq!(reached(&lines), wanted);
    for one in 0..lines.len() {
        for place in 0..lines[one].len() {
            let line = lines[one].remove(place);
            assert_ne!(
                reached(&lines),
                wanted,
                "the line to {line} follows from others"
            );
            lines[one].insert(place, line);
        }
    }
}

fn file(file: &str) -> String {
    text(&root().join("crates").join(file))
}

/// A file without the lines that are comments.
fn without_comments(name: &str, mark: &str) -> String {
    let all = file(name);
    let lines = all
        .lines()
        .filter(|line| !line.trim_start().starts_with(mark));
    lines.collect::<Vec<&str>>().join("\n")
}

/// Whether a name stands in a text as a word.
fn has_word(text: &str, name: &str) -> bool {
    text.split(|letter: char| !letter.is_alphanumeric() && letter != '_')
        .any(|word| word == name)
}

/// A function's head with its contract, but without its name, and its body.
struct Function {
    head: String,
    body: String,
}

/// The function of this name in a file, with what stands in its trait's place of a contract.
fn function(name: Name) -> Function {
    let all = without_comments(name.file, "//");
    let starts = |line: &str| {
        let (_, rest) = line.split_once("fn ").unwrap_or_default();
        rest.strip_prefix(name.name)
            .is_some_and(|rest| rest.starts_with(['(', '<']))
    };
    let mut lines = all.lines().skip_while(|line| !starts(line)).peekable();
    let Some(first) = lines.peek() else {
        panic!("{} has no function {}", name.file, name.name);
    };
    let indent = &first[..first.len() - first.trim_start().len()];
    let (open, close) = (format!("{indent}{{"), format!("{indent}}}"));
    let mut function = Function {
        head: String::new(),
        body: String::new(),
    };
    for line in lines.by_ref() {
        function.head += line;
        function.head.push('\n');
        if line == open || line.ends_with(" {") && !line.trim_start().starts_with("ensures") {
            break;
        }
    }
    for line in lines.take_while(|line| *line != close) {
        function.body += line;
        function.body.push('\n');
    }
    function.head = function.head.replacen(name.name, "", 1);
    let gives = format!("ghost {}_gives ", name.name);
    let gives = all
        .lines()
        .filter(|line| line.trim_start().starts_with(&gives));
    gives.for_each(|line| function.head += line);
    function
}

/// A definition's text: up to an empty line.
fn definition(name: Name) -> String {
    let all = without_comments(name.file, "--");
    let lines = all
        .lines()
        .skip_while(|line| defined(line) != Some(name.name));
    let lines: Vec<&str> = lines.take_while(|line| !line.is_empty()).collect();
    assert!(
        !lines.is_empty(),
        "{} does not define {}",
        name.file,
        name.name
    );
    lines.join("\n")
}

/// One text names each definition in turn, the first by itself and each other in that of the
/// one before.
fn assert_names(who: &str, first: String, definitions: &[Name]) {
    let mut text = first;
    for name in definitions {
        assert!(has_word(&text, name.name), "{who} does not reach {name:?}");
        text = definition(*name);
    }
}

fn steps() -> impl Iterator<Item = (usize, &'static Step)> {
    let steps = ROWS.iter().enumerate();
    steps.filter_map(|(place, row)| match row {
        Row::Step(step) => Some((place, step)),
        Row::Returned(_) => None,
    })
}

/// Whether a body calls a function, `NAME(..)` or `NAME::<..>(..)`.
fn calls_by_name(body: &str, name: &str) -> bool {
    ["(", "::<"]
        .iter()
        .any(|then| body.contains(&format!("{name}{then}")))
}

#[test]
fn each_function_calls_those_that_stand_below_it() {
    let mut calls = 0;
    for (place, step) in steps() {
        let Some(Row::Step(above)) = caller(place).map(|place| &ROWS[place]) else {
            assert_eq!(step.depth, 0);
            function(step.function);
            continue;
        };
        assert_eq!(above.depth + 1, step.depth);
        // Through further functions of the caller's file, down to this one.
        let mut body = function(above.function).body;
        for &name in step.through {
            assert!(calls_by_name(&body, name), "{name} is not called");
            let file = above.function.file;
            body = function(Name { name, file }).body;
        }
        let name = step.function.name;
        let is_called = calls_by_name(&body, name);
        assert!(is_called, "{} does not call {name}", above.function.name);
        function(step.function);
        calls += 1;
    }
    assert!(calls > 15, "only {calls} calls are drawn");
}

#[test]
fn each_contract_names_the_definition_beside_it() {
    for (_, step) in steps() {
        let Some(promise) = &step.promise else {
            continue;
        };
        let who = step.function.name;
        let head = function(step.function).head;
        let relation = promise.by;
        let is_named = match relation {
            "≡" => head.contains(relation),
            _ => has_word(&head, relation),
        };
        assert!(is_named, "{who} does not promise by {relation}");
        let mut names = promise.through.to_vec();
        names.push(promise.definition);
        assert_names(who, head, &names);
    }
}

#[test]
fn each_refusal_is_answered_under_its_number() {
    let types = file("model/src/lib.rt");
    let mut answered = Vec::new();
    for (_, step) in steps() {
        for (number, case, _) in step.refuses {
            let body = function(step.function).body;
            let name = step.function.name;
            assert!(has_word(&body, case), "{name} does not answer {case}");
            let line = format!("    {case} = {number},");
            assert!(types.lines().any(|other| other == line), "{line}");
            answered.push(*number);
        }
    }
    answered.sort_unstable();
    assert_eq!(answered, [2, 3, 4, 5, 6, 8]);
}

#[test]
fn what_comes_back_is_a_type_of_its_file() {
    for row in &ROWS {
        if let Row::Returned(returned) = row {
            let Name { name, file } = returned.in_type;
            let all = self::file(file);
            let there = all.lines().any(|line| defined(line) == Some(name))
                || all.contains(&format!("pub struct {name}<"));
            assert!(there, "{file} has no type {name}");
        }
    }
}

#[test]
fn each_definition_is_made_with_those_that_its_arrows_lead_to() {
    for cites in &CITES {
        for other in cites.others {
            let drawn = steps().filter_map(|(_, step)| step.promise.as_ref());
            let mut drawn = drawn.map(|promise| promise.definition);
            let other = drawn.find(|name| name.name == *other).expect("it is drawn");
            let mut names = cites.through.to_vec();
            names.push(other);
            assert_names(cites.definition.name, definition(cites.definition), &names);
        }
    }
}

#[test]
fn the_definitions_reach_the_claim_and_the_theorem() {
    let file = CLAIM_IS.file;
    let claim = definition(CLAIM_IS);
    for field in &FIELDS {
        let line = format!("  pub {} : {} ", field.name, field.of_gate.0);
        let line = claim.lines().find(|other| other.starts_with(&line));
        let line = line.unwrap_or_else(|| panic!("the claim has no {}", field.name));
        let (_, queue) = line.split_once(" ≡ ").expect("a field is an equation");
        assert!(has_word(queue, field.of_queue.0), "{line}");
        let gate = Name {
            name: field.of_gate.0,
            file,
        };
        assert_names(gate.name, definition(gate), &[CALL]);
        let queue = Name {
            name: field.of_queue.0,
            file,
        };
        let with: Vec<Name> = field.with.iter().map(|(with, _)| *with).collect();
        assert_names(queue.name, definition(queue), &with);
    }
    assert_names(THEOREM.name, definition(THEOREM), &[STATEMENT, CLAIM_IS]);
}
