// Links the archive of the proved library, which `tests/library/make capi` writes; without it nothing here can be built, and the build says so.
use std::path::Path;

fn main() {
    let dir = Path::new(env!("CARGO_MANIFEST_DIR")).join("../../target/staticlib");
    let archive = dir.join("libcapi.a");
    println!("cargo:rerun-if-changed={}", archive.display());
    if !archive.exists() {
        eprintln!("the proved library is missing: run `tests/library/make capi` at the top of the repository");
        std::process::exit(1);
    }
    println!("cargo:rustc-link-search=native={}", dir.display());
    println!("cargo:rustc-link-lib=static=capi");
}
