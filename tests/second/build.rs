//! Links the proved library, librrp.a, if the feature `library` is on. The
//! variable RRP_LIB_DIR names its folder.

use std::env;

fn main() {
    println!("cargo:rerun-if-changed=build.rs");
    println!("cargo:rerun-if-env-changed=RRP_LIB_DIR");
    if env::var_os("CARGO_FEATURE_LIBRARY").is_some() {
        let folder = env::var("RRP_LIB_DIR").expect("RRP_LIB_DIR names the folder of librrp.a");
        println!("cargo:rerun-if-changed={folder}/librrp.a");
        println!("cargo:rustc-link-search=native={folder}");
        println!("cargo:rustc-link-lib=static=rrp");
    }
}
