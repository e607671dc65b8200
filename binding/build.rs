//! Says where the proved library lies, for whatever calls it to be linked with it.

use std::env;
use std::path::{Path, PathBuf};

fn library_folder() -> PathBuf {
    match env::var_os("PALTHRENNI_LIB_DIR") {
        Some(folder) => PathBuf::from(folder),
        None => {
            let here = env::var_os("CARGO_MANIFEST_DIR").expect("cargo names the crate's folder");
            Path::new(&here).join("../target/staticlib")
        }
    }
}

fn main() {
    let folder = library_folder();
    println!("cargo:rustc-link-search=native={}", folder.display());
    println!(
        "cargo:rerun-if-changed={}",
        folder.join("libdesk.a").display()
    );
    println!("cargo:rerun-if-changed=build.rs");
    println!("cargo:rerun-if-env-changed=PALTHRENNI_LIB_DIR");
}
