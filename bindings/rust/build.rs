//! Links the archive that scripts/archive writes below the repository's root.
fn main() {
    let root = std::env::var("CARGO_MANIFEST_DIR").unwrap() + "/../..";
    println!("cargo:rustc-link-search=native={root}/target/staticlib");
    println!("cargo:rustc-link-lib=static=capi");
    println!("cargo:rerun-if-changed={root}/target/staticlib/libcapi.a");
}
