//! Writes the vectors, a file for each call, into the folder given.

use std::env;
use std::fs;
use std::path::Path;
use std::process::ExitCode;

use strip_tests::vectors::files;

/// Takes the folder from the command line and writes all files.
fn main() -> ExitCode {
    let mut arguments = env::args_os().skip(1);
    let (Some(folder), None) = (arguments.next(), arguments.next()) else {
        eprintln!("vectors: give one folder, in which to write the vectors");
        return ExitCode::FAILURE;
    };
    for (name, text) in files() {
        let path = Path::new(&folder).join(name);
        if let Err(error) = fs::write(&path, text) {
            eprintln!("vectors: cannot write {}: {error}", path.display());
            return ExitCode::FAILURE;
        }
    }
    ExitCode::SUCCESS
}
