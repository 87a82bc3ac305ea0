//! Links libsavetnuok.a: the file that SAVETNUOK_LIB names.
use std::env;
use std::path::PathBuf;

fn main() {
    println!("cargo:rerun-if-env-changed=SAVETNUOK_LIB");
    let file =
        PathBuf::from(env::var("SAVETNUOK_LIB").expect("SAVETNUOK_LIB names the static library"));
    let file = file
        .canonicalize()
        .unwrap_or_else(|e| panic!("{}: {e}", file.display()));
    println!("cargo:rerun-if-changed={}", file.display());
    println!(
        "cargo:rustc-link-search=native={}",
        file.parent().expect("a folder").display()
    );
    println!("cargo:rustc-link-lib=static=savetnuok");
}
