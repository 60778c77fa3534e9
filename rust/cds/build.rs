//! Links libcds.a of the folder that CDS_LIB names, or of lib/ of the package that this came with, or of out/library/ of this repository.
use std::path::{Path, PathBuf};

fn main() {
    println!("cargo:rerun-if-env-changed=CDS_LIB");
    let root = Path::new(env!("CARGO_MANIFEST_DIR")).join("../..");
    let named = std::env::var_os("CDS_LIB").map(PathBuf::from);
    let places = [root.join("lib"), root.join("out/library/lib")];
    let folder = named.or_else(|| places.into_iter().find(|it| it.join("libcds.a").is_file()));
    if let Some(folder) = folder {
        println!("cargo:rustc-link-search=native={}", folder.display());
    }
    println!("cargo:rustc-link-lib=static=cds");
}
