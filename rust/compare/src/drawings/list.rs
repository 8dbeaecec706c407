//! The crates of a repository, as `crates.txt` lists them: `NAME: LIBRARY ..`, or
//! `NAME staticlib: LIBRARY ..`. The comment above some crates names them as a group.

use std::path::Path;

#[derive(Clone, Copy, Debug, PartialEq, Eq)]
pub enum Kind {
    Library,
    /// Exported to C and Rust.
    Static,
    Program,
}

pub struct Crate {
    pub name: String,
    pub kind: Kind,
    /// Which of the groups it is in.
    pub group: usize,
    /// The crates that it is listed with, by their places in the list.
    pub rests_on: Vec<usize>,
}

pub struct List {
    pub groups: Vec<String>,
    pub crates: Vec<Crate>,
    /// What crates rest on that is no crate of the list: libraries of the kit.
    pub of_the_kit: Vec<String>,
}

/// The list of a repository. A crate with a `main` is a program.
pub fn read(repository: &Path) -> Result<List, String> {
    let path = repository.join("crates.txt");
    let text =
        std::fs::read_to_string(&path).map_err(|error| format!("{}: {error}", path.display()))?;
    let is_program = |name: &str| {
        repository
            .join("crates")
            .join(name)
            .join("src/main.rt")
            .is_file()
    };
    List::of(&text, is_program)
}

impl List {
    fn of(text: &str, is_program: impl Fn(&str) -> bool) -> Result<List, String> {
        let lines = || text.lines().filter(|line| !line.starts_with('#'));
        let names: Vec<&str> = lines().filter_map(name).collect();
        let mut list = List {
            groups: Vec::new(),
            crates: Vec::new(),
            of_the_kit: Vec::new(),
        };
        // Of comments that follow one another the last is the group's.
        let mut comment = None;
        for line in text.lines() {
            if let Some(text) = line.strip_prefix('#') {
                comment = Some(text.trim());
                continue;
            }
            let (left, libraries) = line.split_once(':').ok_or(format!("no crate: {line}"))?;
            let name = name(line).ok_or(format!("no name: {line}"))?;
            list.groups.extend(comment.take().map(str::to_string));
            let group = list.groups.len().checked_sub(1).ok_or("no group")?;
            let mut rests_on = Vec::new();
            for library in libraries.split_whitespace() {
                match names.iter().position(|name| *name == library) {
                    Some(place) => rests_on.push(place),
                    None if list.of_the_kit.iter().any(|of_kit| of_kit == library) => {}
                    None => list.of_the_kit.push(library.to_string()),
                }
            }
            let kind = if left.ends_with(" staticlib") {
                Kind::Static
            } else if is_program(name) {
                Kind::Program
            } else {
                Kind::Library
            };
            list.crates.push(Crate {
                name: name.to_string(),
                kind,
                group,
                rests_on,
            });
        }
        Ok(list)
    }
}

/// The name of the crate that a line lists.
fn name(line: &str) -> Option<&str> {
    line.split([' ', ':'])
        .next()
        .filter(|name| !name.is_empty())
}
