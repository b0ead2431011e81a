//! Finds okaywal's source: the folder that OKAYWAL_SRC names, or ../shared/docs/src, both seen from the repository's
//! root.

use std::{env, path::PathBuf};

const FILES: [&str; 4] = ["log_file.rs", "entry.rs", "buffered.rs", "to_io_result.rs"];

fn main() {
    println!("cargo:rerun-if-env-changed=OKAYWAL_SRC");
    let folder = source_folder();
    for name in FILES {
        let file = folder.join(name);
        assert!(
            file.is_file(),
            "{} is not there: set OKAYWAL_SRC to the folder of okaywal 0.3.1's source",
            file.display()
        );
        println!("cargo:rerun-if-changed={}", file.display());
    }
    println!("cargo:rustc-env=OKAYWAL_SRC_FOLDER={}", folder.display());
}

fn source_folder() -> PathBuf {
    let repository = PathBuf::from(env::var("CARGO_MANIFEST_DIR").expect("cargo names the folder")).join("../..");
    let named = env::var_os("OKAYWAL_SRC").map_or_else(|| PathBuf::from("../shared/docs/src"), PathBuf::from);
    let folder = repository.join(named);
    folder.canonicalize().unwrap_or(folder)
}
