//! Links ../target/staticlib/libcapi.a, which `tools/library` proves and writes; HIZLAOU_LIB names another folder.
use std::env;
use std::path::PathBuf;

fn main() {
    let beside = PathBuf::from(env::var("CARGO_MANIFEST_DIR").unwrap()).join("../target/staticlib");
    let folder = env::var("HIZLAOU_LIB").map_or(beside, PathBuf::from);
    let library = folder.join("libcapi.a");
    println!("cargo:rerun-if-env-changed=HIZLAOU_LIB");
    println!("cargo:rerun-if-changed={}", library.display());
    if !library.exists() {
        println!(
            "cargo:warning={} is not there: run `tools/library` at the root of the repository, or name its folder in HIZLAOU_LIB",
            library.display()
        );
    }
    println!("cargo:rustc-link-search=native={}", folder.display());
    println!("cargo:rustc-link-lib=static=capi");
    println!("cargo:rustc-link-lib=m");
}
