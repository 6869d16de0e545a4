//! Links the proved library from where `host/link-library` puts it.

use std::env;
use std::path::PathBuf;

fn main() {
    let crate_folder =
        PathBuf::from(env::var_os("CARGO_MANIFEST_DIR").expect("cargo names the crate's folder"));
    let folder = crate_folder.with_file_name("target").join("library");
    let archive = folder.join("libcorravisk.a");
    println!("cargo::rerun-if-changed={}", archive.display());
    if archive.exists() {
        println!("cargo::rustc-link-search=native={}", folder.display());
        println!("cargo::rustc-link-lib=static=corravisk");
    } else {
        println!("cargo::error=the proved library is not there: run host/link-library first, which makes it");
    }
}
