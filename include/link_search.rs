//! Tells the linker where the static libraries lie: the folder TOLLSALMON_LIB, or the repository's
//! target/staticlib. Every package that links them takes this file into its build.rs by its path.

use std::env;
use std::path::{Path, PathBuf};

/// `repository` is the way there from the package.
pub fn link_search(repository: &str, libraries: &[&str]) {
    let package = env::var("CARGO_MANIFEST_DIR").unwrap();
    let default = || Path::new(&package).join(repository).join("target/staticlib");
    let folder = env::var("TOLLSALMON_LIB").map_or_else(|_| default(), PathBuf::from);
    println!("cargo:rerun-if-env-changed=TOLLSALMON_LIB");
    for library in libraries {
        println!("cargo:rerun-if-changed={}", folder.join(library).display());
    }
    println!("cargo:rustc-link-search=native={}", folder.display());
}
