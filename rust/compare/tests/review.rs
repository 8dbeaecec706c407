//! `compare review`, as a reviewer runs it: every schedule of `examples/` on the proved
//! numbered gate and on the proved gate.

use std::path::Path;
use std::process::{Command, Output};

use compare::examples;

fn review(schedule: &Path) -> Output {
    Command::new(env!("CARGO_BIN_EXE_compare"))
        .args(["review", "--schedule"])
        .arg(schedule)
        .output()
        .expect("the program runs")
}

fn printed(output: &Output) -> String {
    String::from_utf8_lossy(&output.stdout).into_owned()
}

fn folder() -> &'static Path {
    Path::new(concat!(env!("CARGO_MANIFEST_DIR"), "/../../examples"))
}

#[test]
fn three_plugins() {
    let output = review(&folder().join("three-plugins.schedule"));
    let wanted = "\
call     | numbered gate            | gate of 1989: number, answer, ISSUE, VALID
O 3 1    | 0 - 0 1                  | 0 - 0/0 1/0
T 1      | 0 1 1 1                  | 0 1/0 1/0 1/0
T 2      | 0 2 2 1                  | 0 2/0 2/0 1/0
L 2      | 0 0 2 1                  | 0 0 2/0 1/0
T 3      | 0 3 3 1                  | 0 0/1 0/1 1/0
L 1      | 0 1 3 1                  | 0 1 0/1 1/0
L 3      | 0 0 3 1                  | 0 0 0/1 1/0
B 1      | 0 - 3 2                  | 0 - 0/1 2/0
L 2      | 0 1 3 2                  | 0 1 0/1 2/0
B 2      | 0 - 3 3                  | 0 - 0/1 0/1
T 3      | 6 - 3 3                  | 6 - 0/1 0/1
L 3      | 0 1 3 3                  | 0 1 0/1 0/1
B 3      | 0 - 3 4                  | 0 - 0/1 1/1
13 calls: the two gates part nowhere
";
    assert_eq!(printed(&output), wanted);
    assert!(output.status.success());
}

/// Each line but the first and the last is a call of the schedule, or its end in a bad line.
#[test]
fn every_example() {
    let examples = examples::read(folder()).expect("the examples are there");
    assert!(examples.len() > 10);
    for example in examples {
        let output = review(&example.path);
        let (text, path) = (printed(&output), example.path.display());
        assert!(output.status.success(), "{path}: {text}");
        let last = text.lines().last().unwrap_or("");
        assert!(last.ends_with("part nowhere"), "{path}: {last}");
        let expected = String::from_utf8(example.expected).expect("a text");
        assert_eq!(text.lines().count(), expected.lines().count() + 2, "{path}");
    }
}

#[test]
fn no_schedule() {
    let output = review(Path::new("nowhere"));
    assert_eq!(output.status.code(), Some(2));
    assert!(String::from_utf8_lossy(&output.stderr).starts_with("nowhere: "));
}
