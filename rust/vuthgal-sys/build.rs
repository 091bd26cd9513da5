//! Links libvuthgal: that of the folder VUTHGAL_LIB_DIR, that of the clone, or the installed one. Where the folder has
//! libvuthgal.a, that becomes part of the program.
use std::env;
use std::path::PathBuf;

fn main() {
    println!("cargo:rerun-if-env-changed=VUTHGAL_LIB_DIR");
    let named = env::var_os("VUTHGAL_LIB_DIR").map(PathBuf::from);
    if let Some(folder) = &named {
        if !folder.join("libvuthgal.a").is_file() && !folder.join("libvuthgal.so").is_file() {
            panic!("VUTHGAL_LIB_DIR is {}, where there is neither libvuthgal.a nor libvuthgal.so", folder.display());
        }
    }
    let clone = PathBuf::from(env::var("CARGO_MANIFEST_DIR").unwrap()).join("../../lib");
    let folder = named.unwrap_or(clone);
    let library = folder.join("libvuthgal.a");
    println!("cargo:rerun-if-changed={}", library.display());
    if folder.is_dir() {
        println!("cargo:rustc-link-search=native={}", folder.display());
    }
    let kind = if library.is_file() { "static" } else { "dylib" };
    println!("cargo:rustc-link-lib={kind}=vuthgal");
}
