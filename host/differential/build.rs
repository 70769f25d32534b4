//! Links `libwalks.a` for the benchmark, from the folder that `KANHTREV_WALKS` names; without it that part is left out.

use std::env;

fn main() {
    println!("cargo:rustc-check-cfg=cfg(walks)");
    println!("cargo:rerun-if-env-changed=KANHTREV_WALKS");
    if let Ok(folder) = env::var("KANHTREV_WALKS") {
        println!("cargo:rerun-if-changed={folder}/libwalks.a");
        println!("cargo:rustc-link-search=native={folder}");
        println!("cargo:rustc-link-lib=static=walks");
        println!("cargo:rustc-cfg=walks");
    }
}
