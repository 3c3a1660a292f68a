//! Links the proved library, `libjikhvanto.a`: from the folder that
//! JIKHVANTO_LIB_DIR names, or from where `tools/library` leaves it.

use std::env;
use std::path::{Path, PathBuf};
use std::process::exit;

fn main() {
    println!("cargo:rerun-if-env-changed=JIKHVANTO_LIB_DIR");
    let folder = match env::var_os("JIKHVANTO_LIB_DIR") {
        Some(named) => PathBuf::from(named),
        None => Path::new(env!("CARGO_MANIFEST_DIR")).join("../target/staticlib"),
    };
    let library = folder.join("libjikhvanto.a");
    // The folder too, for a library put back is no newer than it was.
    println!("cargo:rerun-if-changed={}", folder.display());
    println!("cargo:rerun-if-changed={}", library.display());

    if env::var("CARGO_CFG_TARGET_ARCH").unwrap() != "x86_64" {
        fail("the proved library is x86-64 code: build for x86_64-unknown-linux-gnu");
    }
    if !library.exists() {
        fail(&format!(
            "no {}: `tools/library` makes it, JIKHVANTO_LIB_DIR names another folder",
            library.display()
        ));
    }
    println!("cargo:rustc-link-search=native={}", folder.display());
    println!("cargo:rustc-link-lib=static=jikhvanto");
}

fn fail(why: &str) -> ! {
    eprintln!("jikhvanto: {why}");
    exit(1)
}
