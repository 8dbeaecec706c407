//! Links the proved calls: the static libraries that `rt lib` writes. They are sought
//! in the folder that SLOT_GATE_LIB names, else where the repository's own crates have
//! them.

use std::env;
use std::path::{Path, PathBuf};

/// The folder of the archives, where it is not the repository's own.
const FOLDER: &str = "SLOT_GATE_LIB";

/// What a host links, and what the feature `compare` links beside it.
const FOR_HOSTS: [&str; 3] = ["gate_c", "records_c", "numbered_gate_c"];
const TO_COMPARE: [&str; 1] = ["forms_c"];

fn main() {
    println!("cargo::rerun-if-env-changed={FOLDER}");
    let mut libraries = FOR_HOSTS.to_vec();
    if env::var_os("CARGO_FEATURE_COMPARE").is_some() {
        libraries.extend(TO_COMPARE);
    }
    for library in &libraries {
        let folder = folder(library);
        let archive = folder.join(format!("lib{library}.a"));
        println!("cargo::rerun-if-changed={}", archive.display());
        if !archive.is_file() {
            println!("cargo::error={}", missing(&archive, &libraries));
            return;
        }
        println!("cargo::rustc-link-search=native={}", folder.display());
        println!("cargo::rustc-link-lib=static={library}");
        // For the tests, which link a host in C with the same archives.
        let variable = library.to_uppercase();
        println!("cargo::rustc-env=ARCHIVE_{variable}={}", archive.display());
    }
}

/// The folder of a library's archive. An empty SLOT_GATE_LIB counts as none. A relative
/// one is taken from the package's folder, where a build script runs: where cargo was
/// started it cannot tell.
fn folder(library: &str) -> PathBuf {
    let package = env::var_os("CARGO_MANIFEST_DIR").expect("cargo says where the package is");
    let package = Path::new(&package);
    match env::var_os(FOLDER).filter(|folder| !folder.is_empty()) {
        Some(folder) => package.join(folder),
        // The package is rust/slot-gate of the repository.
        None => {
            let repository = package.ancestors().nth(2).unwrap_or(package);
            repository.join("crates").join(library).join("out")
        }
    }
}

fn missing(archive: &Path, libraries: &[&str]) -> String {
    let commands: Vec<String> = libraries
        .iter()
        .map(|library| format!("(cd crates/{library} && rt lib)"))
        .collect();
    format!(
        "{} is missing: run `{}` in the slot gate's repository, or set {FOLDER} to the folder that has the archives",
        archive.display(),
        commands.join(" && ")
    )
}
