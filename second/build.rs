//! Says where the archive of proved code is. The library and its tests don't need it, so where it is missing only the
//! comparison program is refused (see main.rs).
use std::path::Path;

fn main() {
    let folder = Path::new(env!("CARGO_MANIFEST_DIR")).join("../target");
    let archive = folder.join("libhasfandur.a");
    println!("cargo:rerun-if-changed={}", archive.display());
    println!("cargo:rustc-link-search=native={}", folder.display());
    if !archive.exists() {
        println!("cargo:rustc-cfg=archive_missing");
    }
}
