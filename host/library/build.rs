//! Links the proved library, lib/libdagsumilat.a of the repository, which `host/archive` makes for
//! the machine at hand. `DAGSUMILAT_LIBRARY` names another folder, for an archive of another machine.

use std::env;
use std::path::{Path, PathBuf};
use std::process;

const ELSEWHERE: &str = "DAGSUMILAT_LIBRARY";

fn folder() -> PathBuf {
    match env::var_os(ELSEWHERE) {
        Some(folder) => folder.into(),
        None => Path::new(env!("CARGO_MANIFEST_DIR")).join("../../lib"),
    }
}

fn main() {
    let folder = folder();
    let archive = folder.join("libdagsumilat.a");
    if !archive.is_file() {
        eprintln!("{} is not there: host/archive makes it", archive.display());
        process::exit(1);
    }
    println!("cargo:rerun-if-env-changed={ELSEWHERE}");
    println!("cargo:rerun-if-changed={}", archive.display());
    println!("cargo:rustc-link-search=native={}", folder.display());
    println!("cargo:rustc-link-lib=static=dagsumilat");
}
