//! A program such as `gaterun`, fed an input on its standard input.

use std::io::Write;
use std::path::Path;
use std::process::{Command, Stdio};

/// What the program prints for an input; an error when it cannot be run or ends
/// by a signal. Its exit status is not judged: the document names none.
pub fn output(path: &Path, input: &[u8]) -> Result<Vec<u8>, String> {
    let mut child = Command::new(path)
        .stdin(Stdio::piped())
        .stdout(Stdio::piped())
        .stderr(Stdio::null())
        .spawn()
        .map_err(|error| format!("{}: {error}", path.display()))?;
    let mut stdin = child.stdin.take().expect("standard input is piped");
    let ended = std::thread::scope(|scope| {
        // A program may end before it has read all; that is no difference.
        scope.spawn(move || drop(stdin.write_all(input)));
        child.wait_with_output()
    })
    .map_err(|error| format!("{}: {error}", path.display()))?;
    match ended.status.code() {
        Some(_) => Ok(ended.stdout),
        None => Err(format!("{} ended by a signal", path.display())),
    }
}

/// The first line in which two outputs differ, shown, with who gives which.
pub fn difference(
    (wants, wanted): (&str, &[u8]),
    (prints, printed): (&str, &[u8]),
) -> Option<String> {
    if wanted == printed {
        return None;
    }
    let mut wanted = wanted.split_inclusive(|&byte| byte == b'\n');
    let mut printed = printed.split_inclusive(|&byte| byte == b'\n');
    for number in 1.. {
        let lines = (wanted.next(), printed.next());
        if lines.0 != lines.1 {
            return Some(format!(
                "output line {number}: {wants} gives {}, {prints} {}",
                quoted(lines.0),
                quoted(lines.1)
            ));
        }
    }
    None
}

fn quoted(line: Option<&[u8]>) -> String {
    line.map_or("nothing".to_string(), |line| {
        format!("\"{}\"", line.escape_ascii())
    })
}
