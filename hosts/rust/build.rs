//! Links libnergutsai.a: from $NERGUTSAI_LIB; else from beside the folder that this crate is installed in; else, in the
//! project's tree, from where hosts/run and hosts/install make it.

use std::env;
use std::path::{Path, PathBuf};

fn main() {
    println!("cargo:rerun-if-env-changed=NERGUTSAI_LIB");
    let folder = match env::var_os("NERGUTSAI_LIB") {
        Some(folder) => PathBuf::from(folder),
        None => beside(Path::new(env!("CARGO_MANIFEST_DIR"))),
    };
    let archive = folder.join("libnergutsai.a");
    if !archive.is_file() {
        panic!(
            "no file {}: run hosts/install or hosts/run at the project's root, or set NERGUTSAI_LIB to the folder that has it",
            archive.display()
        );
    }
    println!("cargo:rerun-if-changed={}", archive.display());
    println!("cargo:rustc-link-search=native={}", folder.display());
    println!("cargo:rustc-link-lib=static=nergutsai");
}

/// The folder of the archive, by where the crate stands: an installed one has that of its own prefix.
fn beside(crate_folder: &Path) -> PathBuf {
    if crate_folder.ends_with("share/nergutsai/rust") {
        return crate_folder.join("../../../lib");
    }
    crate_folder.join("../../target/staticlib")
}
