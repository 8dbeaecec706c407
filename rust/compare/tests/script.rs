//! The script `gaterun`, with which a schedule is played: what it says, and with
//! which status it ends, where there is nothing to play or nothing to play it with.
//! It is run from a folder of its own that stands for the repository, in which the
//! program prints back what it reads.

use std::fs::{self, Permissions};
use std::io::Write;
use std::os::unix::fs::{symlink, PermissionsExt};
use std::os::unix::process::CommandExt;
use std::path::{Path, PathBuf};
use std::process::{Command, Output, Stdio};
use std::time::{Duration, SystemTime};

/// A folder of the test's own, which goes when the test ends.
struct Folder(PathBuf);

impl Drop for Folder {
    fn drop(&mut self) {
        let _ = fs::remove_dir_all(&self.0);
    }
}

/// The programs that the script calls, beside `rt`.
const TOOLS: [&str; 9] = [
    "dirname", "readlink", "find", "head", "tail", "mkdir", "touch", "sh", "cat",
];

impl Folder {
    /// A repository in `repository`, with a built program; the tools without `rt` in
    /// `tools`.
    fn new(name: &str) -> Folder {
        let name = format!("gaterun-{}-{name}", std::process::id());
        let folder = Folder(std::env::temp_dir().join(name));
        let script = Path::new(env!("CARGO_MANIFEST_DIR")).join("../../gaterun");
        fs::create_dir_all(folder.path("repository/crates/gaterun/out")).unwrap();
        fs::create_dir_all(folder.path("repository/crates/gaterun/src")).unwrap();
        fs::create_dir_all(folder.path("tools")).unwrap();
        fs::copy(script, folder.path("repository/gaterun")).unwrap();
        fs::write(folder.path("repository/crates.txt"), "gaterun:\n").unwrap();
        let source = folder.path("repository/crates/gaterun/src/main.rt");
        fs::write(source, "fn main() {}\n").unwrap();
        folder.program("repository/crates/gaterun/out/gaterun", "exec cat\n");
        let paths = std::env::var_os("PATH").expect("there is a PATH");
        for tool in TOOLS {
            let mut found = std::env::split_paths(&paths).map(|path| path.join(tool));
            let found = found.find(|path| path.is_file());
            let found = found.unwrap_or_else(|| panic!("no {tool} in PATH"));
            symlink(found, folder.path("tools").join(tool)).unwrap();
        }
        folder
    }

    fn path(&self, path: &str) -> PathBuf {
        self.0.join(path)
    }

    /// A shell script that can be run.
    fn program(&self, path: &str, text: &str) {
        fs::write(self.path(path), format!("#!/bin/sh\n{text}")).unwrap();
        fs::set_permissions(self.path(path), Permissions::from_mode(0o755)).unwrap();
    }

    /// A line of shell, run in the folder.
    fn sh(&self, line: &str) -> Output {
        self.command(line).output().expect("a shell runs")
    }

    fn command(&self, line: &str) -> Command {
        let mut command = Command::new("/bin/sh");
        command.args(["-c", line]).current_dir(&self.0);
        command.env("PATH", self.path("tools"));
        command.stdin(Stdio::null());
        command
    }
}

fn said(output: &Output) -> (i32, String, String) {
    let text = |bytes: &[u8]| String::from_utf8_lossy(bytes).into_owned();
    let status = output.status.code().expect("no signal ends it");
    (status, text(&output.stdout), text(&output.stderr))
}

/// It ends with this status and one sentence, and prints nothing.
fn refuses(output: &Output, status: i32, sentence: &str) {
    let wanted = (status, String::new(), format!("gaterun: {sentence}\n"));
    assert_eq!(said(output), wanted);
}

/// It prints this and nothing else.
fn prints(output: &Output, text: &str) {
    assert_eq!(said(output), (0, text.to_string(), String::new()));
}

#[test]
fn a_file_and_standard_input() {
    let folder = Folder::new("plays");
    fs::write(folder.path("a schedule"), "O 3 1\n").unwrap();
    prints(&folder.sh("repository/gaterun 'a schedule'"), "O 3 1\n");
    prints(&folder.sh("repository/gaterun < 'a schedule'"), "O 3 1\n");
    prints(
        &folder.sh("cat 'a schedule' | repository/gaterun"),
        "O 3 1\n",
    );
    prints(&folder.sh("repository/gaterun /dev/null"), "");
}

#[test]
fn nothing_to_read() {
    let folder = Folder::new("unread");
    let directory = folder.sh("repository/gaterun repository");
    refuses(&directory, 2, "repository is a directory, not a schedule");
    let directory = folder.sh("repository/gaterun < repository");
    refuses(
        &directory,
        2,
        "standard input is a directory, not a schedule",
    );
    let missing = folder.sh("repository/gaterun nowhere");
    refuses(&missing, 2, "nowhere does not exist");
    let closed = folder.sh("repository/gaterun <&-");
    refuses(&closed, 2, "standard input is closed");
    let usage = said(&folder.sh("repository/gaterun one two"));
    assert_eq!((usage.0, usage.1.as_str()), (2, ""));
    assert_eq!(usage.2, "usage: ./gaterun [SCHEDULE]\n");
}

#[test]
fn nowhere_to_print() {
    let folder = Folder::new("unprinted");
    let closed = folder.sh("repository/gaterun /dev/null >&-");
    refuses(&closed, 2, "standard output is closed");
}

/// Whoever may read every file tries it as one who may not.
#[test]
fn a_file_that_may_not_be_read() {
    const NOBODY: u32 = 65_534;
    let folder = Folder::new("unreadable");
    let schedule = folder.path("schedule");
    fs::write(&schedule, "O 3 1\n").unwrap();
    fs::set_permissions(&schedule, Permissions::from_mode(0o000)).unwrap();
    let mut command = folder.command("repository/gaterun schedule");
    if fs::read(&schedule).is_ok() {
        command.uid(NOBODY).gid(NOBODY);
    }
    let output = command.output().expect("a shell runs");
    refuses(&output, 2, "schedule cannot be read");
}

/// Through links, of links, relative and absolute, from another folder.
#[test]
fn through_symbolic_links() {
    let folder = Folder::new("linked");
    fs::create_dir(folder.path("bin")).unwrap();
    symlink("../repository/gaterun", folder.path("bin/relative")).unwrap();
    symlink(
        folder.path("repository/gaterun"),
        folder.path("bin/absolute"),
    )
    .unwrap();
    symlink("bin/relative", folder.path("twice")).unwrap();
    symlink("repository", folder.path("same")).unwrap();
    fs::write(folder.path("schedule"), "O 3 1\n").unwrap();
    for link in ["bin/relative", "bin/absolute", "./twice", "same/gaterun"] {
        prints(&folder.sh(&format!("{link} schedule")), "O 3 1\n");
    }
    prints(
        &folder.sh("cd bin && CDPATH=/ ./relative ../schedule"),
        "O 3 1\n",
    );
}

#[test]
fn outside_of_the_repository() {
    let folder = Folder::new("moved");
    fs::copy(folder.path("repository/gaterun"), folder.path("gaterun")).unwrap();
    let root = folder.0.canonicalize().unwrap();
    let sentence = format!(
        "{} is not the slot gate's repository: it has no crates.txt",
        root.display()
    );
    refuses(&folder.sh("./gaterun /dev/null"), 1, &sentence);
}

const NO_RT: &str = "the program is not built from these sources yet, and rt, which proves and builds it, is not installed";

/// Without `rt` a program that is built is run all the same, and one that is not, or
/// is older than its sources, is not.
#[test]
fn without_rt() {
    let folder = Folder::new("no-rt");
    prints(&folder.sh("repository/gaterun /dev/null"), "");
    let source = folder.path("repository/crates/gaterun/src/main.rt");
    let source = fs::File::options().append(true).open(source).unwrap();
    let later = SystemTime::now() + Duration::from_secs(3600);
    source.set_modified(later).unwrap();
    refuses(&folder.sh("repository/gaterun /dev/null"), 1, NO_RT);
    let folder = Folder::new("no-rt-no-program");
    fs::remove_file(folder.path("repository/crates/gaterun/out/gaterun")).unwrap();
    refuses(&folder.sh("repository/gaterun /dev/null"), 1, NO_RT);
}

/// `rt` has no part in what is read: the schedule is the program's.
#[test]
fn built_first() {
    let folder = Folder::new("built");
    fs::remove_file(folder.path("repository/crates/gaterun/out/gaterun")).unwrap();
    folder.program(
        "tools/rt",
        "cat\n[ \"$*\" = 'run' ] || exit 9\nprintf '#!/bin/sh\\nexec cat\\n' >out/gaterun\nchmod +x out/gaterun\n",
    );
    // `chmod` is for the stand-in alone.
    let path = std::env::var_os("PATH").expect("there is a PATH");
    let mut paths = vec![folder.path("tools")];
    paths.extend(std::env::split_paths(&path));
    let paths = std::env::join_paths(paths).unwrap();
    let play = || {
        let mut command = folder.command("repository/gaterun");
        command.env("PATH", &paths).stdin(Stdio::piped());
        command.stdout(Stdio::piped()).stderr(Stdio::piped());
        let mut child = command.spawn().expect("a shell runs");
        let mut stdin = child.stdin.take().expect("standard input is piped");
        stdin.write_all(b"O 3 1\n").expect("the script reads it");
        drop(stdin);
        said(&child.wait_with_output().expect("the script ends"))
    };
    let building = "gaterun: proving and building the program first\n";
    let played = "O 3 1\n".to_string();
    assert_eq!(play(), (0, played.clone(), building.to_string()));
    assert_eq!(play(), (0, played, String::new()));
}

#[test]
fn not_proved() {
    let folder = Folder::new("not-proved");
    fs::remove_file(folder.path("repository/crates/gaterun/out/gaterun")).unwrap();
    for (rt, last) in [
        (
            "echo 'a fact fails' >&2\nexit 1\n",
            "the program is not proved",
        ),
        ("exit 0\n", "rt run built no program"),
    ] {
        folder.program("tools/rt", rt);
        let (status, printed, said) = said(&folder.sh("repository/gaterun /dev/null"));
        assert_eq!((status, printed.as_str()), (1, ""));
        let lines: Vec<&str> = said.lines().collect();
        assert!(
            lines[lines.len() - 1].starts_with(&format!("gaterun: {last}")),
            "{said}"
        );
    }
}
