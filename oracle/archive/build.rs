//! Looks for the library's archive, links it, and sets a cfg for each function of the interface that is in it.

use std::env;
use std::fs;
use std::path::{Path, PathBuf};

/// Names the archive; if it isn't set, the places are searched.
const VARIABLE: &str = "HEMAVOLUPS_ARCHIVE";
/// Where the archive may lie, seen from oracle/, the first place first.
const PLACES: [&str; 2] = ["../dist/libblocks.a", "../crates/blocks_c/out/libblocks_c.a"];

/// The functions that have a byte set and a 16-bit set.
const WITH_SETS: [&str; 25] = [
    "hv_put",
    "hv_prep",
    "hv_avg",
    "hv_w_avg",
    "hv_mask",
    "hv_blend",
    "hv_morph",
    "hv_w_mask",
    "hv_emu_edge",
    "hv_put_8tap",
    "hv_prep_8tap",
    "hv_put_bilin",
    "hv_prep_bilin",
    "hv_put_8tap_scaled",
    "hv_prep_8tap_scaled",
    "hv_put_bilin_scaled",
    "hv_prep_bilin_scaled",
    "hv_sad_nxn",
    "hv_sad_refine_mv",
    "hv_warp_affine_8x8",
    "hv_warp_affine_8x8t",
    "hv_window",
    "hv_row",
    "hv_order_put",
    "hv_order_prep",
];
/// The functions without a set.
const WITHOUT_SET: [&str; 3] = ["hv_resolve_divisor_32", "hv_get_shear_params", "hv_set_affine_mv2d"];

fn main() {
    println!("cargo::rerun-if-changed=build.rs");
    println!("cargo::rerun-if-env-changed={VARIABLE}");
    for name in functions() {
        println!("cargo::rustc-check-cfg=cfg({name})");
    }
    match named_archive() {
        Some(place) => link(&place),
        None => println!("cargo::warning={}", without()),
    }
}

/// Every function that is compared.
fn functions() -> Vec<String> {
    let sets = WITH_SETS.iter().flat_map(|name| [format!("{name}_8bpc"), format!("{name}_16bpc")]);
    sets.chain(WITHOUT_SET.iter().map(|name| name.to_string())).collect()
}

/// The one sentence for an archive that isn't there.
fn without() -> String {
    let places = PLACES.join(" nor at ");
    format!(
        "The library's archive is neither at {places}: its C functions are left out, \
         the comparison is the Rust against the rules alone."
    )
}

/// The archive's place as it was named: by the variable, even if nothing is there, else the first place that has a file.
fn named_archive() -> Option<String> {
    if let Ok(place) = env::var(VARIABLE) {
        return Some(place);
    }
    let found = PLACES.iter().find(|place| from_oracle(place).is_file());
    // Without an archive all places are watched, so that the next build sees one that has come.
    for place in PLACES.iter().filter(|_| found.is_none()) {
        println!("cargo::rerun-if-changed={}", from_oracle(place).display());
    }
    found.map(|place| place.to_string())
}

/// A place as seen from oracle/.
fn from_oracle(place: &str) -> PathBuf {
    Path::new(&env::var("CARGO_MANIFEST_DIR").unwrap_or_default()).join("..").join(place)
}

/// Links the archive and names what is in it.
fn link(place: &str) {
    let path = from_oracle(place);
    println!("cargo::rerun-if-changed={}", path.display());
    let bytes = fs::read(&path).unwrap_or_default();
    let (Some(symbols), Some(folder), Some(file)) = (index(&bytes), path.parent(), path.file_name()) else {
        println!("cargo::error={place} isn't there, or is no archive with an index.");
        return;
    };
    println!("cargo::rustc-link-search=native={}", folder.display());
    println!("cargo::rustc-link-lib=static:+verbatim={}", file.display());
    println!("cargo::rustc-env=LINKED_ARCHIVE={place}");
    for name in functions().iter().filter(|name| symbols.contains(&name.as_str())) {
        println!("cargo::rustc-cfg={name}");
    }
}

/// The names in an archive's index, its first member: their count, highest byte first, an offset for each, then the
/// names, each ended by a 0. The linker goes by the same index.
fn index(archive: &[u8]) -> Option<Vec<&str>> {
    let (head, rest) = archive.strip_prefix(b"!<arch>\n")?.split_at_checked(60)?;
    if !head.starts_with(b"/ ") {
        return None;
    }
    let size: usize = str::from_utf8(&head[48..58]).ok()?.trim().parse().ok()?;
    let (count, rest) = rest.get(..size)?.split_first_chunk()?;
    let names = rest.get(4 * u32::from_be_bytes(*count) as usize..)?;
    Some(names.split(|byte| *byte == 0).filter_map(|name| str::from_utf8(name).ok()).collect())
}
