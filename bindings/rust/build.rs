//! Links the static library in this crate that is for the target.

fn main() {
    let variable = |name| std::env::var(name).expect("cargo sets it");
    let target = variable("TARGET");
    let folder = std::path::Path::new(&variable("CARGO_MANIFEST_DIR")).join("native").join(&target);
    println!("cargo::rerun-if-changed={}", folder.display());
    if !folder.is_dir() {
        println!("cargo::error=tera_parser has no library for {target}: it is built for x86_64-unknown-linux-gnu");
    }
    println!("cargo::rustc-link-search=native={}", folder.display());
    println!("cargo::rustc-link-lib=static=tera_parser");
}
