//! The repository's files, as the tests of the documents and of the drawings read them.

use std::path::{Path, PathBuf};

pub fn root() -> PathBuf {
    Path::new(env!("CARGO_MANIFEST_DIR")).join("../..")
}

pub fn text(path: &Path) -> String {
    std::fs::read_to_string(path).unwrap_or_else(|error| panic!("{}: {error}", path.display()))
}

/// What a line defines, if it does: `abbrev pub NAME : ..`, `pub record NAME ..`,
/// `pub struct NAME ..` and the like.
pub fn defined(line: &str) -> Option<&str> {
    let line = line.trim_start();
    let line = ["unfoldable ", "abbrev "]
        .iter()
        .find_map(|kind| line.strip_prefix(kind))
        .unwrap_or(line)
        .strip_prefix("pub ")?;
    let line = ["record ", "data ", "struct ", "enum ", "type "]
        .iter()
        .find_map(|kind| line.strip_prefix(kind))
        .unwrap_or(line);
    line.split([' ', '(']).next()
}
