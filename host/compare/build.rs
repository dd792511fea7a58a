//! Links the archive of the proved calls, or says how to make it.

use std::path::Path;

fn main() {
    let folder = Path::new(env!("CARGO_MANIFEST_DIR")).join("../../crates/picker_c/out");
    let archive = folder.join("libpicker_c.a");
    println!("cargo::rerun-if-changed={}", archive.display());
    if !archive.is_file() {
        println!(
            "cargo::error=The archive of the proved calls, crates/picker_c/out/libpicker_c.a, is missing."
        );
        println!(
            "cargo::error=Make it with `rt lib` in crates/picker_c, and try again."
        );
        return;
    }
    println!("cargo::rustc-link-search=native={}", folder.display());
    println!("cargo::rustc-link-lib=static=picker_c");
}
