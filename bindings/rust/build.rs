//! Says where the static library `pondreszi` is found: in the folder that PONDRESZI_LIB
//! names, otherwise in target/staticlib of the repository. That it is linked, and
//! statically, is said in src/library.rs.

use std::env;
use std::path::PathBuf;

pub fn main() {
    println!("cargo::rerun-if-env-changed=PONDRESZI_LIB");
    let Some(folder) = folder() else {
        println!("cargo::error=PONDRESZI_LIB is not set, and no repository is around the package: set PONDRESZI_LIB to the absolute path of the folder that has libpondreszi.a.");
        return;
    };
    let library = folder.join("libpondreszi.a");
    if !library.is_file() {
        println!("cargo::error=There is no {}: run `tools/library` in the repository, which builds target/staticlib/libpondreszi.a, or set PONDRESZI_LIB to the absolute path of the folder that has it.", library.display());
        return;
    }
    println!("cargo::rustc-link-search=native={}", folder.display());
    println!("cargo::rerun-if-changed={}", library.display());
}

fn folder() -> Option<PathBuf> {
    if let Some(folder) = env::var_os("PONDRESZI_LIB") {
        return Some(PathBuf::from(folder));
    }
    let package = PathBuf::from(env::var_os("CARGO_MANIFEST_DIR")?);
    let mut folders = package.ancestors();
    let repository = folders.find(|folder| folder.join("crates.txt").exists())?;
    Some(repository.join("target/staticlib"))
}
