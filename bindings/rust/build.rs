//! Links the archive: from the folder that HUNTELM_ARCHIVE names, or from where `make archive` writes it.

use std::env;
use std::path::{Path, PathBuf};

fn main() {
    println!("cargo::rerun-if-env-changed=HUNTELM_ARCHIVE");
    let folder = match env::var_os("HUNTELM_ARCHIVE") {
        Some(folder) => PathBuf::from(folder),
        None => Path::new(env!("CARGO_MANIFEST_DIR")).join("../../target/staticlib"),
    };
    let archive = folder.join("libarchive.a");
    if !archive.is_file() {
        println!(
            "cargo::error={} is missing: write it by `make archive`, or name its folder, by its whole path, in HUNTELM_ARCHIVE",
            archive.display()
        );
        return;
    }
    println!("cargo::rerun-if-changed={}", archive.display());
    println!("cargo::rustc-link-search=native={}", folder.display());
    println!("cargo::rustc-link-lib=static=archive");
}
