//! Links the proved library. It is looked for in the folder CSS_COMPANION_DIR, and else beside this package, as
//! `tools/library.py DIR` lays both out.
use std::env;
use std::path::PathBuf;

fn main() {
    println!("cargo:rerun-if-env-changed=CSS_COMPANION_DIR");
    let beside = || PathBuf::from(env::var_os("CARGO_MANIFEST_DIR").unwrap_or_default()).join("../..");
    let folder = env::var_os("CSS_COMPANION_DIR").map_or_else(beside, PathBuf::from);
    println!("cargo:rustc-link-search=native={}", folder.join("lib").display());
    println!("cargo:rustc-link-lib=static=css_companion");
}
