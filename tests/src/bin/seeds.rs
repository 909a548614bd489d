//! Writes good and damaged sheets and coordinate files of all sizes, one to a file, into the folder
//! given: what the fuzzer starts from.

use std::env;
use std::fs;
use std::path::Path;
use std::process::ExitCode;

use strip_tests::driver::{items, Item};

/// Takes the folder from the command line and writes all files.
fn main() -> ExitCode {
    let mut arguments = env::args_os().skip(1);
    let (Some(folder), None) = (arguments.next(), arguments.next()) else {
        eprintln!("seeds: give one folder, in which to write the seeds");
        return ExitCode::FAILURE;
    };
    for (i, item) in items().iter().enumerate() {
        let (bytes, ending) = match item {
            Item::Sheet(bytes) => (bytes, "sheet"),
            Item::File(bytes) => (bytes, "file"),
            Item::Numbers(_) | Item::Drawing(_) => continue,
        };
        let path = Path::new(&folder).join(format!("{i:04}.{ending}"));
        if let Err(error) = fs::write(&path, bytes) {
            eprintln!("seeds: cannot write {}: {error}", path.display());
            return ExitCode::FAILURE;
        }
    }
    ExitCode::SUCCESS
}
