//! Puts the original module together from the files in the folder that the environment variable ORACLE_SRC names:
//! copies them byte for byte, and writes `modules.rs`, which declares them as modules. None of them stands in this
//! repository.
//!
//! In the crate ../exchanged the drop-in stands in the place of copybook.rs, followed by that file's tests, if it has
//! some.

use std::path::{Path, PathBuf};
use std::{env, fs};

const MODULES: [&str; 4] = ["copybook", "layout", "packed", "template"];
const EXCHANGED: &str = "copybook";

/// How the tests of a module begin, which stand at its end.
const TESTS: &str = "\n#[cfg(test)]\nmod ";

/// The file of a module, under its plain name or under the one that it has among the documents.
fn find(folder: &Path, module: &str) -> PathBuf {
    let names = [format!("src--crates--fixedformat-core--src--{module}.rs.txt"), format!("{module}.rs")];
    let found = names.iter().map(|name| folder.join(name)).find(|path| path.is_file());
    found.unwrap_or_else(|| panic!("ORACLE_SRC ({}) holds neither {} nor {}", folder.display(), names[0], names[1]))
}

/// The folder that ORACLE_SRC names.
fn folder() -> PathBuf {
    println!("cargo:rerun-if-env-changed=ORACLE_SRC");
    let named = env::var("ORACLE_SRC").expect("ORACLE_SRC must name the folder with the Rust files");
    fs::canonicalize(&named).unwrap_or_else(|e| panic!("ORACLE_SRC ({named}): {e}"))
}

fn read(file: &Path) -> String {
    println!("cargo:rerun-if-changed={}", file.display());
    fs::read_to_string(file).unwrap_or_else(|e| panic!("{}: {e}", file.display()))
}

/// The drop-in, with the tests of the file whose place it takes.
fn exchanged(original: &str) -> String {
    let package = PathBuf::from(env::var("CARGO_MANIFEST_DIR").expect("cargo sets CARGO_MANIFEST_DIR"));
    let drop_in = read(&package.join("../../bindings/rust/drop-in/copybook.rs"));
    drop_in + original.find(TESTS).map_or("", |start| &original[start..])
}

fn main() {
    let sources = folder();
    let out = PathBuf::from(env::var("OUT_DIR").expect("cargo sets OUT_DIR"));
    let exchanges = env::var("CARGO_PKG_NAME").is_ok_and(|name| name == "exchanged");
    let mut modules = String::new();
    for module in MODULES {
        let source = read(&find(&sources, module));
        let source = if exchanges && module == EXCHANGED { exchanged(&source) } else { source };
        let to = out.join(format!("{module}.rs"));
        fs::write(&to, source).expect("OUT_DIR can be written");
        modules += &format!("#[path = {:?}]\npub mod {module};\n", to.to_str().expect("a path in UTF-8"));
    }
    fs::write(out.join("modules.rs"), modules).expect("OUT_DIR can be written");
}
