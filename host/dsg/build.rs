//! Finds the proved library for the processor that is compiled for: in the folder that DSG_LIB_DIR names, or where
//! `make library` puts it.

use std::env;
use std::path::PathBuf;

fn main() {
    let here =
        PathBuf::from(env::var("CARGO_MANIFEST_DIR").expect("cargo names the package's folder"));
    let processor = env::var("CARGO_CFG_TARGET_ARCH").expect("cargo names the processor");
    let boards = here.join("../../target/boards");
    let folder = env::var("DSG_LIB_DIR").map_or_else(|_| boards.join(&processor), PathBuf::from);
    let library = folder.join("libdsg.a");
    assert!(
        library.exists(),
        "{} is not there: `make library` builds it, for x86_64 and aarch64",
        library.display()
    );
    println!("cargo:rustc-link-search=native={}", folder.display());
    println!("cargo:rustc-link-lib=static=dsg");
    println!("cargo:rerun-if-env-changed=DSG_LIB_DIR");
    println!("cargo:rerun-if-changed={}", library.display());
}
