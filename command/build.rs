//! The proved library, as `.ci/library` writes it under target/ of the project's root.

fn main() {
    let root = std::path::Path::new(env!("CARGO_MANIFEST_DIR")).join("..");
    let library = root.join("target/staticlib");
    println!("cargo:rustc-link-search=native={}", library.display());
    println!("cargo:rustc-link-lib=static=host");
    println!("cargo:rerun-if-changed={}", library.join("libhost.a").display());
}
