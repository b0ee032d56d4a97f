// Links libexports.a and libexports_link.a. KOYANDEFA_LIB names their folder; without it the one that `bindings/archives` writes
// to is taken. They become a part of the library's rlib, so that programs, tests and doctests that use the crate need nothing else.
use std::path::PathBuf;

fn main() {
    println!("cargo:rerun-if-env-changed=KOYANDEFA_LIB");
    let folder = match std::env::var_os("KOYANDEFA_LIB") {
        Some(folder) => PathBuf::from(folder),
        None => PathBuf::from(env!("CARGO_MANIFEST_DIR")).join("../../target/staticlib"),
    };
    println!("cargo:rustc-link-search=native={}", folder.display());
    for name in ["exports", "exports_link"] {
        let archive = folder.join(format!("lib{name}.a"));
        println!("cargo:rerun-if-changed={}", archive.display());
        if !archive.exists() {
            eprintln!("there is no {}", archive.display());
            eprintln!("run bindings/archives, which makes both archives, or let KOYANDEFA_LIB name the folder that they are in");
            std::process::exit(1);
        }
        println!("cargo:rustc-link-lib=static={name}");
    }
}
