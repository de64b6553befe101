//! Finds the static library `libciravehy.a`: in `$CIRAVEHY_LIB_DIR`, else in the repository's `target/staticlib`.
use std::env;
use std::path::PathBuf;

fn main() {
    println!("cargo:rerun-if-env-changed=CIRAVEHY_LIB_DIR");
    let folder = match env::var_os("CIRAVEHY_LIB_DIR") {
        Some(folder) => PathBuf::from(folder),
        None => PathBuf::from(env::var_os("CARGO_MANIFEST_DIR").expect("cargo sets it")).join("../../target/staticlib"),
    };
    let archive = folder.join("libciravehy.a");
    println!("cargo:rerun-if-changed={}", archive.display());
    if !archive.is_file() {
        eprintln!("{} is not there.", archive.display());
        eprintln!("Make it by `tests/archive` in the repository, or set CIRAVEHY_LIB_DIR to the folder that has it.");
        std::process::exit(1);
    }
    println!("cargo:rustc-link-search=native={}", folder.display());
    println!("cargo:rustc-link-lib=static=ciravehy");
}
