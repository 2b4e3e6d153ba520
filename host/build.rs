//! With the feature `port`: finds the port's static library, in the folder that PORT_LIB names (from the repository's root), and links it.
use std::{env, path::PathBuf, process};

fn main() {
    println!("cargo::rerun-if-env-changed=PORT_LIB");
    if env::var_os("CARGO_FEATURE_PORT").is_none() {
        return;
    }
    let here = PathBuf::from(env::var_os("CARGO_MANIFEST_DIR").unwrap());
    // `tools/build capi` writes target/staticlib
    let folder = here.parent().unwrap().join(env::var_os("PORT_LIB").unwrap_or("target/staticlib".into()));
    let archive = folder.join("libcapi.a");
    if !archive.exists() {
        eprintln!("no {}: run 'tools/build capi', or name its folder in PORT_LIB", archive.display());
        process::exit(1);
    }
    println!("cargo::rerun-if-changed={}", archive.display());
    println!("cargo::rustc-link-search=native={}", folder.display());
    println!("cargo::rustc-link-lib=static=capi");
}
