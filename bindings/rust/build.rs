//! Links the static library. `STRIP_LIB_DIR` names the folder that has it; without it, it is where
//! `make` puts it. If it is not there, one line says so and the status is 1.

use std::env;
use std::path::{Path, PathBuf};
use std::process::ExitCode;

/// Tells cargo where the library is.
fn main() -> ExitCode {
    let folder = match env::var_os("STRIP_LIB_DIR") {
        Some(folder) => PathBuf::from(folder),
        None => Path::new(env!("CARGO_MANIFEST_DIR")).join("../../target/staticlib"),
    };
    let library = folder.join("libstrip.a");
    println!("cargo:rerun-if-env-changed=STRIP_LIB_DIR");
    println!("cargo:rerun-if-changed={}", library.display());
    if !library.exists() {
        let path = library.display();
        eprintln!("{path} is missing: build it with make lib, or name its folder in STRIP_LIB_DIR");
        return ExitCode::FAILURE;
    }
    println!("cargo:rustc-link-search=native={}", folder.display());
    println!("cargo:rustc-link-lib=static=strip");
    ExitCode::SUCCESS
}
