//! Links `target/staticlib/libgurvazze_host.a` of the repository, or the one in the folder that `GURVAZZE_LIBRARY` names.

use std::env;
use std::path::PathBuf;
use std::process::exit;

fn main() {
    println!("cargo:rerun-if-env-changed=GURVAZZE_LIBRARY");
    let folder = match env::var_os("GURVAZZE_LIBRARY") {
        Some(folder) => PathBuf::from(folder),
        None => PathBuf::from(env::var_os("CARGO_MANIFEST_DIR").expect("cargo sets it")).join("../../target/staticlib"),
    };
    let library = folder.join("libgurvazze_host.a");
    println!("cargo:rerun-if-changed={}", library.display());
    if !library.is_file() {
        eprintln!(
            "{} is not there: run `hosts/library` in the repository, or set GURVAZZE_LIBRARY to its folder",
            library.display()
        );
        exit(1);
    }
    println!("cargo:rustc-link-search=native={}", folder.display());
    println!("cargo:rustc-link-lib=static=gurvazze_host");
}
