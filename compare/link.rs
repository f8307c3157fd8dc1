//! What the build scripts of the comparisons share: linking the product's
//! archive, which `make` writes. It is looked for in the repository's `target`,
//! or in the folder that the environment variable `PUNTCLOVER_LIBS` names.

use std::env;
use std::path::PathBuf;
use std::process;

/// Links the archive, which has to be there.
pub fn archive() {
    println!("cargo:rerun-if-env-changed=PUNTCLOVER_LIBS");
    let folder =
        env::var_os("PUNTCLOVER_LIBS").map_or_else(|| PathBuf::from("../../target"), PathBuf::from);
    let archive = folder.join("libpuntclover.a");
    println!("cargo:rerun-if-changed={}", archive.display());
    let Ok(archive) = archive.canonicalize() else {
        eprintln!(
            "{} is missing: run `make` in the repository, \
             or set PUNTCLOVER_LIBS to the folder that holds the archive",
            archive.display()
        );
        process::exit(1);
    };
    let folder = archive.parent().unwrap_or(&folder);
    println!("cargo:rustc-link-search=native={}", folder.display());
    println!("cargo:rustc-link-lib=static=puntclover");
}
