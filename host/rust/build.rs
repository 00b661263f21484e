//! Links libfrodo_c.a from the folder that FRODO_LIB names (default: dist/ at the root of the repository, where `make lib` puts it).
use std::{env, path::PathBuf};

fn main() {
    println!("cargo:rerun-if-env-changed=FRODO_LIB");
    let root = PathBuf::from(env::var_os("CARGO_MANIFEST_DIR").expect("cargo names the crate's folder"));
    let folder = env::var_os("FRODO_LIB").map_or_else(|| root.join("../../dist"), PathBuf::from);
    let archive = folder.join("libfrodo_c.a");
    println!("cargo:rerun-if-changed={}", archive.display());
    if !archive.is_file() {
        panic!("{} is not there: run `make lib` first, or set FRODO_LIB to the folder of libfrodo_c.a", archive.display());
    }
    println!("cargo:rustc-link-search=native={}", folder.display());
    println!("cargo:rustc-link-lib=static=frodo_c");
}
