//! The schedules of a folder and the folders in it: `NAME.schedule`, with what
//! is expected of it in `NAME.expected`.

use std::path::{Path, PathBuf};

pub struct Example {
    pub path: PathBuf,
    pub schedule: Vec<u8>,
    pub expected: Vec<u8>,
}

/// All of them, by name. A folder without one is an error.
pub fn read(folder: &Path) -> Result<Vec<Example>, String> {
    let mut examples = Vec::new();
    read_into(folder, &mut examples)?;
    if examples.is_empty() {
        return Err(format!("{}: no schedule", folder.display()));
    }
    examples.sort_by(|a, b| a.path.cmp(&b.path));
    Ok(examples)
}

fn read_into(folder: &Path, examples: &mut Vec<Example>) -> Result<(), String> {
    let named = |path: &Path, error: std::io::Error| format!("{}: {error}", path.display());
    let file = |path: &Path| std::fs::read(path).map_err(|error| named(path, error));
    for entry in std::fs::read_dir(folder).map_err(|error| named(folder, error))? {
        let path = entry.map_err(|error| named(folder, error))?.path();
        if path.is_dir() {
            read_into(&path, examples)?;
        } else if path.extension().is_some_and(|ending| ending == "schedule") {
            examples.push(Example {
                schedule: file(&path)?,
                expected: file(&path.with_extension("expected"))?,
                path,
            });
        }
    }
    Ok(())
}
