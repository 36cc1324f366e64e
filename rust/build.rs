// Links the static library where `tests/library build` writes it, and says so where it is missing.
fn main() {
    let here = std::env::var("CARGO_MANIFEST_DIR").unwrap();
    let library = format!("{here}/../target/staticlib/libgilstavo.a");
    println!("cargo:rerun-if-changed={library}");
    if !std::path::Path::new(&library).exists() {
        panic!("target/staticlib/libgilstavo.a is missing: run `tests/library build` in the repository's root first");
    }
    println!("cargo:rustc-link-search=native={here}/../target/staticlib");
    println!("cargo:rustc-link-lib=static=gilstavo");
}
