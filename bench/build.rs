//! Links libsolve.a, beside the libhost.a that `differential` links: from the folder in
//! RULEBOOK_LIB, or from ../target/staticlib, where `tools/build.sh library solve` writes it.

use std::env;
use std::path::PathBuf;

fn main() {
    println!("cargo:rerun-if-changed=build.rs");
    println!("cargo:rerun-if-env-changed=RULEBOOK_LIB");
    let top = PathBuf::from(env::var_os("CARGO_MANIFEST_DIR").expect("cargo sets this")).join("..");
    let stated = env::var_os("RULEBOOK_LIB").map(PathBuf::from);
    let folder = stated.unwrap_or_else(|| top.join("target/staticlib"));
    let library = folder.join("libsolve.a");
    println!("cargo:rerun-if-changed={}", library.display());
    if !library.is_file() {
        eprintln!("no {}: run `tools/build.sh library solve`, or set RULEBOOK_LIB", library.display());
        std::process::exit(1);
    }
    let folder = folder.canonicalize().expect("it has the library");
    println!("cargo:rustc-link-search=native={}", folder.display());
    println!("cargo:rustc-link-lib=static=solve");
}
