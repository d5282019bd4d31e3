//! Links the static library that `scripts/staticlib` made of crate `boundary_exports_c`.

fn main() {
    let root = std::path::Path::new(env!("CARGO_MANIFEST_DIR")).join("..");
    let folder = root.join("target/staticlib");
    println!("cargo:rustc-link-search=native={}", folder.display());
    println!("cargo:rustc-link-lib=static=boundary_exports");
    println!(
        "cargo:rerun-if-changed={}",
        folder.join("libboundary_exports.a").display()
    );
}
