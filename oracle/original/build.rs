//! Names the original's files, by path, as modules of this crate. Nothing of them is copied.

use std::env;
use std::fs;
use std::path::{Path, PathBuf};

/// Where the source lies if RAV2D_SRC doesn't say, seen from oracle/.
const DEFAULT_SOURCE: &str = "../../shared/docs/src";

/// Module name and file. The lent tables take the name `tables`, so the real ones get another.
const MODULES: [(&str, &str); 8] = [
    ("mc", "mc.rs"),
    ("warpmv", "warpmv.rs"),
    ("simd", "simd.rs"),
    ("pixel", "pixel.rs"),
    ("intops", "intops.rs"),
    ("headers", "headers.rs"),
    ("levels", "levels.rs"),
    ("real_tables", "tables.rs"),
];

fn main() {
    println!("cargo::rerun-if-env-changed=RAV2D_SRC");
    println!("cargo::rerun-if-changed=build.rs");
    let folder = source_folder();
    println!("cargo::rerun-if-changed={}", folder.display());
    match missing_file(&folder) {
        Some(file) => println!("cargo::error={}", complaint(&folder, file)),
        None => write_modules(&folder),
    }
}

/// The one sentence for a source that isn't there.
fn complaint(folder: &Path, file: &str) -> String {
    let folder = folder.display();
    format!(
        "The original Rust is not at {folder} ({file} is missing): set RAV2D_SRC to the folder above crates/rav2d/src."
    )
}

/// The folder of the original's files; a relative RAV2D_SRC is read from oracle/.
fn source_folder() -> PathBuf {
    let oracle = Path::new(&env::var("CARGO_MANIFEST_DIR").unwrap_or_default()).join("..");
    let source = env::var("RAV2D_SRC").unwrap_or_else(|_| DEFAULT_SOURCE.to_string());
    let folder = oracle.join(source).join("crates/rav2d/src");
    fs::canonicalize(&folder).unwrap_or(folder)
}

/// The first of the files that isn't there.
fn missing_file(folder: &Path) -> Option<&'static str> {
    MODULES.iter().map(|(_, file)| *file).find(|file| !folder.join(file).is_file())
}

/// Writes one module line for each file. The original's own warnings are not ours to mend.
fn write_modules(folder: &Path) {
    let mut text = String::new();
    for (name, file) in MODULES {
        let path = folder.join(file);
        println!("cargo::rerun-if-changed={}", path.display());
        text += &format!("#[allow(warnings, clippy::all)]\n#[path = {path:?}]\npub mod {name};\n");
    }
    let out = Path::new(&env::var("OUT_DIR").unwrap_or_default()).join("modules.rs");
    if let Err(error) = fs::write(&out, text) {
        println!("cargo::error=Could not write {}: {error}.", out.display());
    }
}
