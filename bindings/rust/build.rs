//! Links `librustc_abi.a` from the folder that RUSTC_ABI_LIBRARY names, or else from `target/` at the top of the repository,
//! where `./library --prove` leaves it.

use std::env;
use std::path::PathBuf;

fn main() {
    println!("cargo:rerun-if-env-changed=RUSTC_ABI_LIBRARY");
    let own = PathBuf::from(env::var_os("CARGO_MANIFEST_DIR").expect("cargo tells the folder of the crate"));
    let folder = env::var_os("RUSTC_ABI_LIBRARY").map_or_else(|| own.join("../../target"), PathBuf::from);
    // (cargo runs this in the crate's folder, so that a relative one is from there)
    let archive = own.join(&folder).join("librustc_abi.a");
    println!("cargo:rerun-if-changed={}", archive.display());
    if !archive.is_file() {
        eprintln!("no archive is at {}: './library --prove' makes it", archive.display());
        std::process::exit(1);
    }
    println!("cargo:rustc-env=RUSTC_ABI_TARGET={}", env::var("TARGET").expect("cargo tells the target"));
    println!("cargo:rustc-link-search=native={}", own.join(&folder).display());
    println!("cargo:rustc-link-lib=static=rustc_abi");
}
