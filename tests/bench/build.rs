//! Links the two static libraries: from target/native, or where BENCH_LIB and
//! SAVETNUOK_LIB say.
use std::env;
use std::path::Path;

fn main() {
    for (name, variable) in [("bench", "BENCH_LIB"), ("savetnuok", "SAVETNUOK_LIB")] {
        println!("cargo:rerun-if-env-changed={variable}");
        let usual = format!("../../target/native/lib{name}.a");
        let file = env::var(variable).unwrap_or(usual);
        println!("cargo:rerun-if-changed={file}");
        let file = Path::new(&file)
            .canonicalize()
            .unwrap_or_else(|e| panic!("{file}: {e}; tests/bench/run builds it"));
        let folder = file.parent().unwrap().display();
        println!("cargo:rustc-link-search=native={folder}");
        println!("cargo:rustc-link-lib=static={name}");
    }
}
