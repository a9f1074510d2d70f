//! Finds the archive: in the folder that MARUZHENU_LIB_DIR names, or in the repository's build/lib, where `make lib`
//! puts it.

use std::env;
use std::path::PathBuf;

fn main() {
    println!("cargo:rerun-if-env-changed=MARUZHENU_LIB_DIR");
    let folder = match env::var_os("MARUZHENU_LIB_DIR") {
        Some(folder) => PathBuf::from(folder),
        None => {
            let package = env::var_os("CARGO_MANIFEST_DIR").expect("cargo names the package");
            PathBuf::from(package).join("../../build/lib")
        }
    };
    let archive = folder.join("libmaruzhenu.a");
    println!("cargo:rerun-if-changed={}", archive.display());
    if !archive.is_file() {
        println!(
            "cargo:warning=there is no {}: run `make lib`, or set MARUZHENU_LIB_DIR to the archive's folder",
            archive.display()
        );
        std::process::exit(1);
    }
    println!("cargo:rustc-link-search=native={}", folder.display());
    println!("cargo:rustc-link-lib=static=maruzhenu");
}
