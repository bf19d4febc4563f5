//! Links the library's archive: $HEMAVOLUPS_ARCHIVE, else ../../dist/libblocks.a. Both are seen from this folder.

use std::env;
use std::path::Path;

const VARIABLE: &str = "HEMAVOLUPS_ARCHIVE";
const USUAL: &str = "../../dist/libblocks.a";

fn main() {
    println!("cargo::rerun-if-env-changed={VARIABLE}");
    let named = env::var(VARIABLE).unwrap_or_else(|_| USUAL.to_string());
    let archive = Path::new(&env::var("CARGO_MANIFEST_DIR").unwrap_or_default()).join(named);
    println!("cargo::rerun-if-changed={}", archive.display());
    let (true, Some(folder), Some(file)) = (archive.is_file(), archive.parent(), archive.file_name()) else {
        println!(
            "cargo::error=There is no archive at {}: run make in the project's root, or name one by {VARIABLE}.",
            archive.display()
        );
        return;
    };
    println!("cargo::rustc-link-search=native={}", folder.display());
    println!("cargo::rustc-link-lib=static:+verbatim={}", file.display());
}
