//! Links the archive that the prover makes of the proved library.

use std::env;
use std::path::Path;

fn main() {
    let package = env::var("CARGO_MANIFEST_DIR").expect("cargo names the package's folder");
    let root = Path::new(&package)
        .ancestors()
        .nth(2)
        .expect("the package stands two folders below the workspace");
    let home = root.join("crates").join("capi");
    let folder = home.join("out");
    let archive = folder.join("libcapi.a");
    println!("cargo:rerun-if-changed={}", archive.display());
    assert!(
        archive.is_file(),
        "{} is missing: make it with `rt lib` in {}",
        archive.display(),
        home.display()
    );
    println!("cargo:rustc-link-search=native={}", folder.display());
    println!("cargo:rustc-link-lib=static=capi");
}
