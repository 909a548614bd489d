//! Prints the stored cases, the input of the program `library_test`.

use std::io::{self, Write};
use std::process::ExitCode;

use strip_tests::cases;

/// Prints all stored cases.
fn main() -> ExitCode {
    let input = cases::input(&cases::stored());
    match io::stdout().write_all(input.as_bytes()) {
        Ok(()) => ExitCode::SUCCESS,
        Err(error) => {
            eprintln!("cases: cannot write: {error}");
            ExitCode::FAILURE
        }
    }
}
