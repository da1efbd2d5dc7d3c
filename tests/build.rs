//! Links `libexports.a` from `ST62_LIB_DIR` when the feature `proved` is on
//! and the mock is off, or `libexports.so` where `ST62_LIB_KIND` is `dylib`.
//! `ST62_LIBS` may name further libraries, with commas.

use std::env;

fn main() {
    println!("cargo::rerun-if-env-changed=ST62_LIB_DIR");
    println!("cargo::rerun-if-env-changed=ST62_LIB_KIND");
    println!("cargo::rerun-if-env-changed=ST62_LIBS");
    println!("cargo::rerun-if-changed=build.rs");
    let proved = env::var_os("CARGO_FEATURE_PROVED").is_some();
    let mock = env::var_os("CARGO_FEATURE_MOCK").is_some();
    if !proved || mock {
        return;
    }
    let Ok(folder) = env::var("ST62_LIB_DIR") else {
        println!(
            "cargo::error=the feature `proved` needs ST62_LIB_DIR, the folder of libexports.a"
        );
        return;
    };
    let kind = env::var("ST62_LIB_KIND").unwrap_or_else(|_| "static".to_string());
    println!("cargo::rerun-if-changed={folder}/libexports.a");
    println!("cargo::rustc-link-search=native={folder}");
    println!("cargo::rustc-link-lib={kind}=exports");
    if let Ok(more) = env::var("ST62_LIBS") {
        for library in more.split(',').filter(|l| !l.is_empty()) {
            println!("cargo::rustc-link-lib={library}");
        }
    }
}
