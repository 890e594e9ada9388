//! Links libdoor.a, which hosts/rust/run.sh has built in target/staticlib; PONYBLUSTER_LIB names another folder that has it.
use std::env;
use std::path::PathBuf;

fn main() {
    let usual =
        PathBuf::from(env::var("CARGO_MANIFEST_DIR").unwrap()).join("../../target/staticlib");
    let folder = env::var_os("PONYBLUSTER_LIB").map_or(usual, PathBuf::from);
    println!("cargo:rerun-if-env-changed=PONYBLUSTER_LIB");
    println!(
        "cargo:rerun-if-changed={}",
        folder.join("libdoor.a").display()
    );
    println!("cargo:rustc-link-search=native={}", folder.display());
    println!("cargo:rustc-link-lib=static=door");
}
