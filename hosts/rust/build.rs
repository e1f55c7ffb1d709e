//! Links libhost.a: from PIPETTOR_LIB, a folder, or else from where `hosts/library` writes it.
use std::env;
use std::path::{Path, PathBuf};

fn folder() -> PathBuf {
    match env::var_os("PIPETTOR_LIB") {
        Some(folder) => PathBuf::from(folder),
        None => Path::new(&env::var_os("CARGO_MANIFEST_DIR").expect("cargo sets it")).join("../../target/staticlib"),
    }
}

fn main() {
    let folder = folder();
    println!("cargo:rerun-if-env-changed=PIPETTOR_LIB");
    println!("cargo:rerun-if-changed={}", folder.join("libhost.a").display());
    println!("cargo:rustc-link-search=native={}", folder.display());
    println!("cargo:rustc-link-lib=static=host");
}
