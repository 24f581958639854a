//! Links the product's archive where the feature `archive` asks for it.

use std::env;

const FOLDER: &str = "OAM_ARCHIVE_DIR";

fn main() {
    println!("cargo:rerun-if-changed=build.rs");
    println!("cargo:rerun-if-env-changed={FOLDER}");
    if env::var_os("CARGO_FEATURE_ARCHIVE").is_none() {
        return;
    }
    let folder = env::var(FOLDER)
        .unwrap_or_else(|_| panic!("the feature archive needs {FOLDER}, the folder of liboam.a"));
    println!("cargo:rerun-if-changed={folder}/liboam.a");
    println!("cargo:rustc-link-search=native={folder}");
    println!("cargo:rustc-link-lib=static=oam");
}
