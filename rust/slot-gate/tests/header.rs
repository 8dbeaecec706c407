//! `include/slot_gate.h`: a host, and one of the numbered gate, are compiled against it as C
//! and as C++, each with warnings as errors, and run; what they print is what the documents
//! say. In C they are also run under the compiler's sanitizers.

use std::path::{Path, PathBuf};
use std::process::Command;

/// The compiler that an environment variable names, else the system's.
fn compiler(variable: &str, otherwise: &str) -> Command {
    let name = std::env::var(variable).unwrap_or_else(|_| otherwise.to_string());
    let mut command = Command::new(name);
    command.args(["-Wall", "-Wextra", "-Wpedantic", "-Werror"]);
    command.arg("-I").arg(package("include"));
    command
}

fn package(path: &str) -> PathBuf {
    Path::new(env!("CARGO_MANIFEST_DIR")).join(path)
}

/// The archives for hosts.
const ARCHIVES: [&str; 3] = [
    env!("ARCHIVE_RECORDS_C"),
    env!("ARCHIVE_GATE_C"),
    env!("ARCHIVE_NUMBERED_GATE_C"),
];

/// A host, compiled in a language and linked with the archives.
fn compile(
    mut compiler: Command,
    language: [&str; 2],
    source: &str,
    program: &Path,
) -> std::io::Result<()> {
    let [language, standard] = language;
    let compiled = compiler
        .args(["-x", language, standard])
        .arg(package(source))
        .args(["-x", "none"])
        .args(ARCHIVES)
        .arg("-o")
        .arg(program)
        .output()?;
    let said = String::from_utf8_lossy(&compiled.stderr);
    assert!(compiled.status.success(), "{said}");
    Ok(())
}

fn check(program: &Path, expected: &str) {
    let run = Command::new(program).output().expect("the host runs");
    assert_eq!(String::from_utf8_lossy(&run.stdout), expected);
    assert!(run.status.success());
}

/// First the sizes, then document 01's whole case, then further calls.
const EXPECTED: &str = concat!(
    "numbers 0 1 2 3 4 5 6 7 8 9 10; regions 0 1 2; N to 1024, k to 64, 65 counts\n",
    include_str!("../../../examples/three-plugins.expected"),
    "\
O 4 1 0
T 3 0 1/0 1/0 1/0
T 1 0 2/0 2/0 1/0
T 2 0 3/0 3/0 1/0
P 3 0 0 3/0 1/0
P 1 0 1 3/0 1/0
P 2 0 2 3/0 1/0
place of 2: 0 2
place of 4: 6 0
place of 5: 4 0
S 3 0 - 3/0 1/0
S 3 5 - 3/0 1/0
L 3 5 - 3/0 1/0
place of 3: 5 0
record 3: region 1, mark 1, 1/0, slot 0
record 4: region 0, mark 0, 0/0, slot 0
B 3 5 - 3/0 1/0
W 3 0 - 3/0 1/0
W 3 7 - 3/0 1/0
L 3 0 1 3/0 1/0
T 3 6 - 3/0 1/0
B 1 9 - 3/0 1/0
B 4 6 - 3/0 1/0
T 0 4 - 3/0 1/0
T 5 4 - 3/0 1/0
record 3: region 2, mark 0, 1/0, slot 1
T 4 2 - 3/0 1/0
place of 1: 2 0
T 4 3 - 3/0 1/0
place of 1: 3 0
T 4 3 - 3/0 1/0
place of 1: 3 0
T 4 3 - 3/0 1/0
place of 1: 3 0
letter O: 8, kind 4, yes 0, slot 0, ticket 0/0, place 0, nothing changed
O 1025 1 1
O 4 65 1
O 4 64 2
after refused opens: nothing changed
O 4 64 0
N 4, k 64, count of colour 0 64, of colour 64 0, free slots 1 to 64
alike, one gate: 0 1
alike, a list too short: 2 0
alike, a count too many: 3 0
S 2 0 - 3/0 1/0
alike, one stopped: 0 0
W 2 0 - 3/0 1/0
alike, awake again: 0 1
B 3 0 - 3/0 2/0
alike, one left: 0 0
B 1 0 - 3/0 3/0
record 1: region 0, mark 0, 0/0, slot 0
O 2 3 0
free 1 2 3
1 enters: slot 1
2 enters: slot 2
free 3
free 3 1 2
1 enters: slot 3
record 1: region 2, mark 0, 3/0, slot 3
record 2: region 0, mark 0, 0/0, slot 0
free 1 2
O 3 3 0
2 looks: 1, value 2 not above 3
O 3 1 0
2 looks: 0, value 2 above 1
O 1 2 0
1 looks: 1, colour 0 counted 1
O 2 1 0
2 looks: 0, colour 1 not counted, 0
open of 1990, N 4, k 4: 1
open of 1979, N 4, k 65: 1
open of 1979, N 4, k 4: 10
open of 1979, N 4, k 3: 2
open of 1979, N 4, k 2: 0
open of 1989, N 4, k 2: 0
alike, 1979 and 1989: 0 1
T 1 0 2/0 2/0 3/0
T 2 0 3/0 3/0 3/0
T 3 0 4/0 4/0 3/0
T 4 0 1/1 1/1 3/0
P 4 0 2 1/1 3/0
L 1 0 1 1/1 3/0
B 1 0 - 1/1 4/0
B 2 0 - 1/1 1/1
L 4 0 1 1/1 1/1
record 4: region 2, mark 0, 1/1, slot 2
record 1: region 0, mark 0, 0/0, slot 0
T 1 3 - 1/1 1/1
T 1 3 - 0/0 2/0
"
);

/// Document 01's whole case in numbers, then every refusal, then the end of the counters.
const EXPECTED_OF_NUMBERED: &str = "\
O 3 1 0
T 1 0 1 1 1
T 2 0 2 2 1
L 2 0 0 2 1
T 3 0 3 3 1
L 1 0 1 3 1
L 3 0 0 3 1
B 1 0 - 3 2
L 2 0 1 3 2
B 2 0 - 3 3
T 3 6 - 3 3
L 3 0 1 3 3
B 3 0 - 3 4
O 1025 1 1
O 4 65 1
O 4 64 2
O 4 1 0
T 3 0 1 1 1
T 1 0 2 2 1
P 3 0 0 2 1
P 1 0 1 2 1
T 0 4 - 2 1
T 5 4 - 2 1
T 3 6 - 2 1
B 1 9 - 2 1
S 1 0 - 2 1
S 1 5 - 2 1
L 1 5 - 2 1
W 1 0 - 2 1
W 1 7 - 2 1
L 4 6 - 2 1
X 1 8 - 2 1
T 4 3 - 3 1
T 4 2 - 2 1
T 2 0 18446744073709551615 18446744073709551615 18446744073709551614
B 1 0 - 18446744073709551615 18446744073709551615
T 1 11 - 18446744073709551615 18446744073709551615
B 2 11 - 18446744073709551615 18446744073709551615
B 1 6 - 18446744073709551615 18446744073709551615
T 2 6 - 18446744073709551615 18446744073709551615
L 2 0 1 18446744073709551615 18446744073709551615
";

/// The hosts, and what each prints.
const HOSTS: [(&str, &str); 2] = [
    ("tests/host.c", EXPECTED),
    ("tests/numbered.c", EXPECTED_OF_NUMBERED),
];

#[test]
fn hosts_in_c() {
    let program = Path::new(env!("CARGO_TARGET_TMPDIR")).join("host_in_c");
    for (source, expected) in HOSTS {
        let language = ["c", "-std=c11"];
        compile(compiler("CC", "cc"), language, source, &program).expect("a C compiler runs");
        check(&program, expected);
    }
}

/// Where there is no C++ compiler, and none is named, there is nothing to check.
#[test]
fn hosts_in_cpp() {
    let program = Path::new(env!("CARGO_TARGET_TMPDIR")).join("host_in_cpp");
    for (source, expected) in HOSTS {
        let language = ["c++", "-std=c++11"];
        match compile(compiler("CXX", "c++"), language, source, &program) {
            Ok(()) => check(&program, expected),
            Err(error) => assert!(std::env::var("CXX").is_err(), "CXX: {error}"),
        }
    }
}

/// A fault of memory or of undefined behaviour ends a program that is built so.
const SANITIZERS: [&str; 3] = [
    "-fsanitize=address,undefined",
    "-fno-sanitize-recover=all",
    "-g",
];

/// Reads past an array's end.
const FAULTY: &str =
    "int main(int count, char **words) { int array[1] = {0}; (void)words; return array[count]; }\n";

/// Whether the compiler has the sanitizers. If it has, they catch a fault.
fn has_sanitizers() -> bool {
    let folder = Path::new(env!("CARGO_TARGET_TMPDIR"));
    let (source, program) = (folder.join("faulty.c"), folder.join("faulty"));
    std::fs::write(&source, FAULTY).expect("the tests' folder can be written");
    let compiled = compiler("CC", "cc")
        .args(SANITIZERS)
        .arg(source)
        .arg("-o")
        .arg(&program)
        .output()
        .expect("a C compiler runs");
    if compiled.status.success() {
        let run = Command::new(program).output().expect("the program runs");
        assert!(!run.status.success(), "the sanitizers miss a fault");
    }
    compiled.status.success()
}

/// The archives are those that were proved, so the sanitizers watch a host, what it
/// lends and gets back, and the C library's functions that the archives call.
#[test]
fn hosts_under_sanitizers() {
    if !has_sanitizers() {
        println!("not run: the C compiler has no address and undefined-behaviour sanitizers");
        return;
    }
    let program = Path::new(env!("CARGO_TARGET_TMPDIR")).join("host_under_sanitizers");
    for (source, expected) in HOSTS {
        let mut compiler = compiler("CC", "cc");
        compiler.args(SANITIZERS);
        compile(compiler, ["c", "-std=c11"], source, &program).expect("a C compiler runs");
        check(&program, expected);
    }
}

/// The header alone, in C before C11, which has no static assertions.
#[test]
fn header_in_older_c() {
    let checked = compiler("CC", "cc")
        .args(["-std=c99", "-fsyntax-only", "-x", "c"])
        .arg(package("include/slot_gate.h"))
        .output()
        .expect("a C compiler runs");
    let said = String::from_utf8_lossy(&checked.stderr);
    assert!(checked.status.success(), "{said}");
}
