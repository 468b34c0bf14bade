// Where the proved libraries stand: LAFKUNO_LIB_DIR, or target/staticlib of the repository.
use std::env;
use std::path::PathBuf;
use std::process::exit;

fn main() {
    println!("cargo:rerun-if-env-changed=LAFKUNO_LIB_DIR");
    let repository = PathBuf::from(env::var_os("CARGO_MANIFEST_DIR").unwrap()).join("../../..");
    let dir = env::var_os("LAFKUNO_LIB_DIR").map_or(repository.join("target/staticlib"), PathBuf::from);
    println!("cargo:rustc-link-search=native={}", dir.display());
    for library in ["lafkuno", "lafkuno_why", "lafkuno_anew"] {
        let file = dir.join(format!("lib{library}.a"));
        println!("cargo:rerun-if-changed={}", file.display());
        if !file.exists() {
            eprintln!("{} is missing: run `tools/staticlib {library}` in the repository, or set LAFKUNO_LIB_DIR to its directory", file.display());
            exit(1);
        }
        println!("cargo:rustc-link-lib=static={library}");
    }
}
