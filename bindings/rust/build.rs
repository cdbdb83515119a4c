//! Links libfarshavan.a from the folder in `FARSHAVAN_LIB`, or from where `rt lib` in crates/farshavan puts it.

use std::env;
use std::path::PathBuf;

fn main() {
    let home = PathBuf::from(env::var_os("CARGO_MANIFEST_DIR").expect("cargo gives the folder of the crate"));
    let folder = env::var_os("FARSHAVAN_LIB").map_or(home.join("../../crates/farshavan/out"), PathBuf::from);
    let library = folder.join("libfarshavan.a");
    println!("cargo:rerun-if-env-changed=FARSHAVAN_LIB");
    println!("cargo:rerun-if-changed={}", library.display());
    if !library.exists() {
        println!("cargo:warning={} is missing; `rt lib` in crates/farshavan writes it", library.display());
    }
    println!("cargo:rustc-link-search=native={}", folder.display());
    println!("cargo:rustc-link-lib=static=farshavan");
}
