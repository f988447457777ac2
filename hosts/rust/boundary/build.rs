//! Links the archive: the one for this machine's processor, which `make library` writes, or the one in the folder
//! TIKOMUCI_ARCHIVE.

use std::env;
use std::path::{Path, PathBuf};

fn main() {
    let made = Path::new(env!("CARGO_MANIFEST_DIR")).join("../../../build");
    let folder = env::var_os("TIKOMUCI_ARCHIVE").map_or(made, PathBuf::from);
    println!("cargo:rerun-if-env-changed=TIKOMUCI_ARCHIVE");
    println!("cargo:rerun-if-changed={}", folder.join("libtikomuci.a").display());
    println!("cargo:rustc-link-search=native={}", folder.display());
    println!("cargo:rustc-link-lib=static=tikomuci");
}
