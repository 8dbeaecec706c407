//! The board: draws a schedule, played through the proved calls, as one page of HTML
//! on standard output. A row for each plugin, a column for each call.
//!
//!     cargo run --release --example board -- SCHEDULE > board.html

mod page;
mod run;
mod schedule;
mod words;

use std::io::Write;
use std::path::Path;
use std::process::ExitCode;

fn main() -> ExitCode {
    match draw() {
        Ok(()) => ExitCode::SUCCESS,
        Err(error) => {
            eprintln!("{error}");
            ExitCode::from(2)
        }
    }
}

fn draw() -> Result<(), String> {
    let mut arguments = std::env::args_os().skip(1);
    let (Some(path), None) = (arguments.next(), arguments.next()) else {
        return Err("usage: board SCHEDULE".into());
    };
    let path = Path::new(&path);
    let schedule = std::fs::read(path).map_err(|error| format!("{}: {error}", path.display()))?;
    let name = path.file_name().unwrap_or(path.as_os_str());
    let page = page::page(&name.to_string_lossy(), &run::play(&schedule));
    let written = std::io::stdout().write_all(page.as_bytes());
    written.map_err(|error| format!("the page was not written: {error}"))
}
