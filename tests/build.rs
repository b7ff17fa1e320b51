//! Links the engine, libfeedback.a. It is looked for in the directory named by
//! FEEDBACK_LIB_DIR, or else where the engine's own build leaves it.

use std::env;
use std::path::{Path, PathBuf};

fn main() {
    println!("cargo:rerun-if-env-changed=FEEDBACK_LIB_DIR");
    let directory = library_directory();
    let library = directory.join("libfeedback.a");
    println!("cargo:rerun-if-changed={}", library.display());
    assert!(
        library.is_file(),
        "the engine is not there: build {} first, or name its directory in FEEDBACK_LIB_DIR",
        library.display()
    );
    println!("cargo:rustc-link-search=native={}", directory.display());
    println!("cargo:rustc-link-lib=static=feedback");
}

fn library_directory() -> PathBuf {
    match env::var_os("FEEDBACK_LIB_DIR") {
        Some(directory) => PathBuf::from(directory),
        None => package_directory().join("../target/staticlib"),
    }
}

fn package_directory() -> PathBuf {
    let directory = env::var_os("CARGO_MANIFEST_DIR").expect("cargo names the package directory");
    Path::new(&directory).to_path_buf()
}
