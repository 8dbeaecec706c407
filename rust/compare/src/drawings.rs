//! The drawings in `docs/` that are made of the tree: the crates and what rests on what,
//! and the way of a look from a host's call down to the claim.

use std::path::Path;

pub mod crates;
pub mod layers;
pub mod list;
pub mod look;
mod svg;
pub mod way;

/// Each drawing of a repository, by the name of its file in `docs/`.
pub fn all(repository: &Path) -> Result<[(&'static str, String); 2], String> {
    let list = list::read(repository)?;
    Ok([
        ("crates.svg", crates::draw(&list)),
        ("look.svg", look::draw()),
    ])
}
