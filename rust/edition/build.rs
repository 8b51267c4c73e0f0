//! Links the kernel's archive: `libkernel.a` of the folder EDITION_ARCHIVE_DIR, or of this repository's `target/staticlib`.

use std::env;
use std::path::PathBuf;

fn main() {
    println!("cargo::rerun-if-env-changed=EDITION_ARCHIVE_DIR");
    let folder = match env::var_os("EDITION_ARCHIVE_DIR") {
        Some(folder) => PathBuf::from(folder),
        None => PathBuf::from("../../target/staticlib"),
    };
    let archive = folder.join("libkernel.a");
    println!("cargo::rerun-if-changed={}", archive.display());
    match archive.canonicalize() {
        Ok(whole) => {
            println!(
                "cargo::rustc-link-search=native={}",
                whole.parent().unwrap_or(&whole).display()
            );
            println!("cargo::rustc-link-lib=static=kernel");
        }
        Err(_) => println!(
            "cargo::error=there is no {}: run `tools/archive` in the repository's folder, or set EDITION_ARCHIVE_DIR \
             to the folder that has libkernel.a",
            archive.display()
        ),
    }
}
