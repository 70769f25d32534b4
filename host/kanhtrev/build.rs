//! Links `libkanhtrev.a`, which has all entries, from where `host/library.sh` writes it or from the folder that `KANHTREV_LIBRARY` names;
//! or, where `KANHTREV_RECORDS` or `KANHTREV_EXPORTS` names a folder, `librecords.a` and `libexports.a` instead.

use std::env;
use std::path::{Path, PathBuf};
use std::process::exit;

/// The folder that a variable names.
fn named(variable: &str) -> Option<PathBuf> {
    println!("cargo:rerun-if-env-changed={variable}");
    env::var_os(variable).map(PathBuf::from)
}

/// Links a library of a folder; where there is none, the build ends and says what to do.
fn link(name: &str, folder: &Path) {
    let library = folder.join(format!("lib{name}.a"));
    println!("cargo:rerun-if-changed={}", library.display());
    if !library.is_file() {
        eprintln!("\nkanhtrev: there is no {}.", library.display());
        eprintln!(
            "kanhtrev: run `bash host/library.sh` in the repository of Kanhtrev, which proves and makes it with `rt`;"
        );
        eprintln!("kanhtrev: or name the folder that has it: KANHTREV_LIBRARY=FOLDER cargo build\n");
        exit(1);
    }
    println!("cargo:rustc-link-search=native={}", folder.display());
    println!("cargo:rustc-link-lib=static={name}");
}

fn main() {
    if env::var("CARGO_CFG_TARGET_ARCH").is_ok_and(|arch| arch != "x86_64") {
        println!("cargo:warning=the entries are compiled for x86-64 alone");
    }
    let made = Path::new(env!("CARGO_MANIFEST_DIR")).join("../../target/staticlib");
    let (records, exports, all) = (named("KANHTREV_RECORDS"), named("KANHTREV_EXPORTS"), named("KANHTREV_LIBRARY"));
    if records.is_some() || exports.is_some() {
        link("records", records.as_ref().unwrap_or(&made));
        link("exports", exports.as_ref().unwrap_or(&made));
    } else {
        link("kanhtrev", all.as_ref().unwrap_or(&made));
    }
}
