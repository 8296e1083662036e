//! Links libzdd_c.a, which `rt lib` writes in crates/zdd_c. ZDD_LIB_DIR names another folder for it.
use std::env;

fn main() {
    let own = env::var("CARGO_MANIFEST_DIR").unwrap_or_else(|_| ".".into());
    let dir = env::var("ZDD_LIB_DIR").unwrap_or_else(|_| format!("{own}/../../crates/zdd_c/out"));
    println!("cargo:rustc-link-search=native={dir}");
    println!("cargo:rustc-link-lib=static=zdd_c");
    println!("cargo:rerun-if-changed={dir}/libzdd_c.a");
    println!("cargo:rerun-if-env-changed=ZDD_LIB_DIR");
}
