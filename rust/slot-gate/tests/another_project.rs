//! The package from a cargo project outside of the repository: it is built with the
//! archives of a folder that SLOT_GATE_LIB names, those for hosts alone; where one is
//! missing, a sentence says what to do.

use std::fs;
use std::path::PathBuf;
use std::process::{Command, Output};

const MAIN: &str = r#"
use slot_gate::{Gate, Refusal, Verdict};

fn main() -> Result<(), Refusal> {
    let mut gate = Gate::open(2, 1)?;
    println!("{} {}", gate.take(1)?, gate.take(2)?);
    for p in [2, 1] {
        match gate.look(p)? {
            Verdict::Yes(slot, rule) => println!("{p} has slot {slot}: {rule}"),
            verdict => println!("{p} waits: {}", verdict.rule()),
        }
    }
    Ok(())
}
"#;

/// A folder of the test's own, which goes when the test ends.
struct Folder(PathBuf);

impl Drop for Folder {
    fn drop(&mut self) {
        let _ = fs::remove_dir_all(&self.0);
    }
}

/// The project, and in it a folder for archives that has none.
fn project() -> Folder {
    let name = format!("slot-gate-host-{}", std::process::id());
    let folder = Folder(std::env::temp_dir().join(name));
    fs::create_dir_all(folder.0.join("src")).unwrap();
    fs::create_dir_all(folder.0.join("archives")).unwrap();
    fs::write(folder.0.join("src/main.rs"), MAIN).unwrap();
    let manifest = format!(
        "[package]\nname = \"host\"\nedition = \"2021\"\n\n[dependencies]\nslot-gate = {{ path = {:?} }}\n",
        env!("CARGO_MANIFEST_DIR")
    );
    fs::write(folder.0.join("Cargo.toml"), manifest).unwrap();
    folder
}

fn run(folder: &Folder) -> Output {
    Command::new(env!("CARGO"))
        .args(["run", "--offline", "--quiet"])
        .current_dir(&folder.0)
        .env("CARGO_TARGET_DIR", folder.0.join("target"))
        .env("SLOT_GATE_LIB", folder.0.join("archives"))
        .output()
        .expect("cargo runs")
}

#[test]
fn another_project() {
    let folder = project();
    let archives = folder.0.join("archives");
    for (missing, archive) in [
        ("libgate_c.a", env!("ARCHIVE_GATE_C")),
        ("librecords_c.a", env!("ARCHIVE_RECORDS_C")),
        ("libnumbered_gate_c.a", env!("ARCHIVE_NUMBERED_GATE_C")),
    ] {
        let ended = run(&folder);
        assert!(!ended.status.success());
        let said = String::from_utf8_lossy(&ended.stderr);
        let sentence = format!(
            "{} is missing: run `(cd crates/gate_c && rt lib) && (cd crates/records_c && rt lib) && (cd crates/numbered_gate_c && rt lib)` \
             in the slot gate's repository, or set SLOT_GATE_LIB to the folder that has the archives\n",
            archives.join(missing).display()
        );
        assert!(said.contains(&sentence), "{said}");
        assert!(!said.contains("panicked"), "{said}");
        fs::copy(archive, archives.join(missing)).unwrap();
    }
    let ended = run(&folder);
    let said = String::from_utf8_lossy(&ended.stderr);
    assert!(ended.status.success(), "{said}");
    let printed = String::from_utf8_lossy(&ended.stdout);
    let wanted = "1/0 0/1
2 waits: other colour, not counted: the count of colour 1 is 0
1 has slot 1: same colour, value 1 not above VALID's 1
";
    assert_eq!(printed, wanted);
}
