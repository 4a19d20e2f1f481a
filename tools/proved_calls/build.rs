//! Links the static libraries of the proved code, which are built before cargo
//! runs. Beside the calls of its own header, none of them has a name that the
//! linker sees, so that a program may have them all.

use std::path::Path;

fn main() {
    let root = Path::new(env!("CARGO_MANIFEST_DIR")).join("../..");
    let folder = root.join("build/lib");
    println!("cargo:rerun-if-changed=build.rs");
    println!("cargo:rustc-link-search=native={}", folder.display());
    for name in ["icepole_c", "burst_c", "card_c", "core_c"] {
        let library = folder.join(format!("lib{name}.a"));
        println!("cargo:rerun-if-changed={}", library.display());
        if !library.is_file() {
            panic!("run `make lib` in the repository's folder first");
        }
        println!("cargo:rustc-link-lib=static={name}");
    }
}
