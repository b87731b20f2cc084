//! Links the archive of the proved unit.

use std::path::PathBuf;

fn main() {
    println!("cargo:rerun-if-env-changed=TPU_SM_STATICLIB");
    let folder = match std::env::var_os("TPU_SM_STATICLIB") {
        Some(folder) => PathBuf::from(folder),
        None => PathBuf::from(env!("CARGO_MANIFEST_DIR")).join("../target/staticlib"),
    };
    let archive = folder.join("libtpu_c.a");
    println!("cargo:rerun-if-changed={}", archive.display());
    if !archive.exists() {
        panic!("{} is missing: run tools/build tpu_c", archive.display());
    }
    println!("cargo:rustc-link-search=native={}", folder.display());
    println!("cargo:rustc-link-lib=static=tpu_c");
}
