//! Links the proved library: the archive that OKW_LIB names, or target/staticlib/libokaywal_segment.a, both seen from
//! the repository's root. With the feature `model` no archive is linked: the plain model has the same C names.

use std::{env, path::PathBuf};

const DEFAULT: &str = "target/staticlib/libokaywal_segment.a";

fn main() {
    println!("cargo:rerun-if-env-changed=OKW_LIB");
    if env::var_os("CARGO_FEATURE_MODEL").is_some() {
        return;
    }
    let repository = PathBuf::from(env::var("CARGO_MANIFEST_DIR").expect("cargo names the folder")).join("..");
    let named = env::var_os("OKW_LIB").map_or_else(|| PathBuf::from(DEFAULT), PathBuf::from);
    let archive = repository.join(named);
    assert!(
        archive.is_file(),
        "{} is not there: run tests/archive, set OKW_LIB, or use --features model",
        archive.display()
    );
    let folder = archive.parent().expect("a file has a folder");
    let name = archive.file_name().expect("a file has a name").to_string_lossy();
    println!("cargo:rerun-if-changed={}", archive.display());
    println!("cargo:rustc-link-search=native={}", folder.display());
    println!("cargo:rustc-link-lib=static:+verbatim={name}");
}
