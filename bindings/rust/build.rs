//! Tells the linker where `libconfluo.a` is: in the folder `CONFLUO_LIB_DIR`, or else in `bindings/out`.
use std::env;
use std::path::PathBuf;

fn main() {
    let folder = env::var_os("CONFLUO_LIB_DIR").map_or_else(
        || PathBuf::from(env!("CARGO_MANIFEST_DIR")).join("../out"),
        PathBuf::from,
    );
    println!("cargo:rerun-if-env-changed=CONFLUO_LIB_DIR");
    println!("cargo:rerun-if-changed={}", folder.join("libconfluo.a").display());
    let documents = PathBuf::from(env!("CARGO_MANIFEST_DIR")).join("../../docs/LIBRARY.md");
    println!("cargo:rustc-check-cfg=cfg(confluo_documents)");
    if documents.exists() {
        println!("cargo:rustc-cfg=confluo_documents");
    }
    println!("cargo:rustc-link-search=native={}", folder.display());
    println!("cargo:rustc-link-lib=static=confluo");
}
