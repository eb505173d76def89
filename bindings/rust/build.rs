//! Links libexports.a, from the folder that SAVOIKY_LIB names, else from the repository's target/staticlib.
use std::path::PathBuf;

fn main() {
    println!("cargo:rerun-if-env-changed=SAVOIKY_LIB");
    let folder = match std::env::var_os("SAVOIKY_LIB") {
        Some(folder) => PathBuf::from(folder),
        None => PathBuf::from(env!("CARGO_MANIFEST_DIR")).join("../../target/staticlib"),
    };
    let archive = folder.join("libexports.a");
    if !archive.is_file() {
        eprintln!("savoiky: there is no {}", archive.display());
        eprintln!(
            "savoiky: run `bindings/staticlib` in the repository, or set SAVOIKY_LIB to the folder that has libexports.a"
        );
        std::process::exit(1);
    }
    println!("cargo:rerun-if-changed={}", archive.display());
    println!("cargo:rustc-link-search=native={}", folder.display());
    println!("cargo:rustc-link-lib=static=exports");
}
