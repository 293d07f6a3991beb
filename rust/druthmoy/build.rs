//! Links `libdruthmoy.a`, which `rust/archive` writes; `DRUTHMOY_ARCHIVE` names another folder that has it.

use std::path::{Path, PathBuf};

fn main() {
    println!("cargo:rerun-if-env-changed=DRUTHMOY_ARCHIVE");
    if std::env::var_os("CARGO_FEATURE_STANDIN").is_some() {
        return;
    }
    let folder = std::env::var_os("DRUTHMOY_ARCHIVE")
        .map(PathBuf::from)
        .unwrap_or_else(|| Path::new(env!("CARGO_MANIFEST_DIR")).join("../../target/staticlib"));
    let archive = folder.join("libdruthmoy.a");
    println!("cargo:rerun-if-changed={}", archive.display());
    assert!(archive.exists(), "no {}: run `rust/archive` first", archive.display());
    println!("cargo:rustc-link-search=native={}", folder.display());
    println!("cargo:rustc-link-lib=static=druthmoy");
}
