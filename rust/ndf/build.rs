//! Links the library: NDF_LIB is the folder that has libdebounce_c.a, and without it the repository's target/ndf.
use std::env;
use std::path::{Path, PathBuf};

/// The top of the repository that the crate is part of.
fn top() -> PathBuf {
    let package = env::var("CARGO_MANIFEST_DIR").expect("cargo says where the package is");
    Path::new(&package).ancestors().nth(2).unwrap_or(Path::new("/")).to_path_buf()
}

fn main() {
    println!("cargo:rerun-if-env-changed=NDF_LIB");
    let folder = match env::var_os("NDF_LIB").map(PathBuf::from) {
        // The linker is called in another folder than cargo is.
        Some(folder) if folder.is_relative() => panic!("NDF_LIB has to be a whole path, and is {}", folder.display()),
        Some(folder) => folder,
        None => top().join("target/ndf"),
    };
    let archive = folder.join("libdebounce_c.a");
    println!("cargo:rerun-if-changed={}", archive.display());
    if !archive.exists() {
        // Without the archive the crate is checked and documented, and nothing is linked.
        println!("cargo:warning=there is no {}: call scripts/c_library target/ndf", archive.display());
        println!("cargo:warning=at the top of the repository, or name the archive's folder in NDF_LIB");
    }
    println!("cargo:rustc-link-search=native={}", folder.display());
    println!("cargo:rustc-link-lib=static=debounce_c");
}
