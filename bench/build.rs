//! Says what is linked: the archive of proved code, plain C, and the packaged libraries that `run` found.
use std::path::Path;

fn main() {
    let target = Path::new(env!("CARGO_MANIFEST_DIR")).join("../target");
    println!("cargo:rustc-link-search=native={}", target.display());
    println!(
        "cargo:rerun-if-changed={}",
        target.join("libhasfandur.a").display()
    );
    let built = target.join("bench/c");
    println!("cargo:rerun-if-changed={}", built.display());
    println!("cargo:rustc-link-search=native={}", built.display());
    println!("cargo:rustc-link-lib=static=plain");
    if built.join("libboost_shim.a").exists() {
        println!("cargo:rustc-cfg=boost");
        println!("cargo:rustc-link-lib=static=boost_shim");
        println!("cargo:rustc-link-lib=dylib=stdc++");
    }
    for source in ["direwolf", "openconnect"] {
        if built.join(format!("lib{source}_shim.a")).exists() {
            println!("cargo:rustc-cfg={source}");
            println!("cargo:rustc-link-lib=static={source}_shim");
        }
    }
    if built.join("libosmocom_shim.a").exists() {
        println!("cargo:rustc-cfg=osmocom");
        println!("cargo:rustc-link-lib=static=osmocom_shim");
        // the folder of the machine's kind is the only one there
        let kinds = std::fs::read_dir(target.join("bench/peers/usr/lib")).expect("peers");
        for libraries in kinds.map(|kind| kind.expect("peers").path()) {
            let libraries = libraries.display();
            println!("cargo:rustc-link-search=native={libraries}");
            println!("cargo:rustc-link-arg=-Wl,--disable-new-dtags,-rpath,{libraries}");
        }
        println!("cargo:rustc-link-lib=dylib=osmocore");
        println!("cargo:rustc-link-lib=dylib=talloc");
    }
}
