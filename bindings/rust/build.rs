//! Links the static library of the crate `copybook_c`: from the folder that the environment variable COPYBOOK_LIB
//! names, as it is, or else from this repository's made/, if its SHA-256 sum is the one that stands there.

use std::path::{Path, PathBuf};
use std::process::Command;
use std::{env, fs};

const LIBRARY: &str = "libcopybook_c.a";

fn set(variable: &str) -> String {
    env::var(variable).unwrap_or_else(|_| panic!("cargo sets {variable}"))
}

/// The folder that COPYBOOK_LIB names.
fn named(folder: &str) -> PathBuf {
    let folder = fs::canonicalize(folder).unwrap_or_else(|e| panic!("COPYBOOK_LIB ({folder}): {e}"));
    let library = folder.join(LIBRARY);
    assert!(library.is_file(), "COPYBOOK_LIB ({}) holds no {LIBRARY}", folder.display());
    println!("cargo:rerun-if-changed={}", library.display());
    folder
}

/// The SHA-256 sum of a file, as `sha256sum` prints it.
fn sum(file: &Path) -> String {
    let ran = Command::new("sha256sum").stdin(fs::File::open(file).expect("a file that is there")).output();
    let ran = ran.unwrap_or_else(|e| panic!("sha256sum, which checks {}: {e}", file.display()));
    let said = String::from_utf8_lossy(&ran.stdout);
    said.split(' ').next().unwrap_or_default().to_owned()
}

/// The folder in made/ for the target, in the repository that this crate stands in. Its library has the sum that was
/// written when it was made.
fn made() -> PathBuf {
    let made = Path::new(&set("CARGO_MANIFEST_DIR")).join("../../made");
    let (arch, os) = (set("CARGO_CFG_TARGET_ARCH"), set("CARGO_CFG_TARGET_OS"));
    let folder = format!("{arch}-{os}-gnu");
    let name = format!("{folder}/{LIBRARY}");
    let (library, sums) = (made.join(&name), made.join("SHA256SUMS"));
    for file in [&library, &sums] {
        println!("cargo:rerun-if-changed={}", file.display());
    }
    let sums = fs::read_to_string(&sums).unwrap_or_else(|e| {
        panic!("{}: {e}; without the repository set COPYBOOK_LIB to the folder of {LIBRARY}", sums.display())
    });
    let written = sums.lines().find_map(|line| line.strip_suffix(&format!("  {name}")));
    let written = written.unwrap_or_else(|| panic!("made/ has no {LIBRARY} for {arch} {os}"));
    assert!(sum(&library) == written, "{name} in made/ does not have the SHA-256 sum that made/SHA256SUMS has of it");
    made.join(folder)
}

fn main() {
    println!("cargo:rerun-if-changed=build.rs");
    println!("cargo:rerun-if-env-changed=COPYBOOK_LIB");
    let folder = match env::var("COPYBOOK_LIB") {
        Ok(folder) if !folder.is_empty() => named(&folder),
        _ => made(),
    };
    println!("cargo:rustc-link-search=native={}", folder.display());
    println!("cargo:rustc-link-lib=static=copybook_c");
}
