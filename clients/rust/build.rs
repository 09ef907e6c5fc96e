//! Links the C library: `LANDTREE_LIBRARY` names its folder, which is `out/library` of this repository by default.

use std::{env, path::Path};

fn main() {
    println!("cargo:rerun-if-env-changed=LANDTREE_LIBRARY");
    let own = Path::new(&env::var("CARGO_MANIFEST_DIR").unwrap()).join("../../out/library");
    let folder = env::var("LANDTREE_LIBRARY").unwrap_or_else(|_| own.display().to_string());
    println!("cargo:rustc-link-search=native={folder}");
    println!("cargo:rustc-link-lib=static=landtree");
    println!("cargo:rerun-if-changed={folder}/liblandtree.a");
}
