//! Links the static library that FACTBOX_LIB names, under the feature `library`. A library that is not there is an error.
use std::{env, path::Path};

fn main() {
    println!("cargo:rerun-if-env-changed=FACTBOX_LIB");
    if env::var_os("CARGO_FEATURE_LIBRARY").is_none() {
        return;
    }
    let path = env::var("FACTBOX_LIB").expect("FACTBOX_LIB must name the static library, as target/staticlib/libentail.a");
    let file = Path::new(&path).canonicalize().unwrap_or_else(|e| panic!("FACTBOX_LIB={path}: {e}"));
    let name = file.file_stem().and_then(|s| s.to_str()).and_then(|s| s.strip_prefix("lib"));
    let name = name.unwrap_or_else(|| panic!("FACTBOX_LIB={path}: not of the form libNAME.a"));
    println!("cargo:rerun-if-changed={}", file.display());
    println!("cargo:rustc-link-search=native={}", file.parent().unwrap().display());
    println!("cargo:rustc-link-lib=static={name}");
}
