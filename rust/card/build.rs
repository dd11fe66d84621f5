//! Links libcard.a, which rust/run makes in this repository, or the one in the folder that the
//! variable BAILHAMMER_LIB names.

use std::path::PathBuf;

const OVERRIDE: &str = "BAILHAMMER_LIB";
const MADE_IN: &str = "../../target/staticlib";

fn main() {
    let here = std::env::var_os("CARGO_MANIFEST_DIR").expect("cargo names the crate's folder");
    let named = std::env::var_os(OVERRIDE).map(PathBuf::from);
    let folder = named.unwrap_or_else(|| PathBuf::from(here).join(MADE_IN));
    let library = folder.join("libcard.a");
    println!("cargo:rerun-if-env-changed={OVERRIDE}");
    println!("cargo:rerun-if-changed={}", library.display());
    if std::env::var("CARGO_CFG_TARGET_ARCH").as_deref() != Ok("x86_64") {
        eprintln!("libcard.a is x86-64 code: build for x86-64");
        std::process::exit(1);
    }
    if !library.is_file() {
        eprintln!("{} is not there; run: rust/run", library.display());
        std::process::exit(1);
    }
    println!("cargo:rustc-link-search=native={}", folder.display());
    println!("cargo:rustc-link-lib=static=card");
}
