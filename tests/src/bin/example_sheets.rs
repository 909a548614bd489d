//! Writes the example sheets as `NAME.sheet`, and what `place` prints for them as `NAME.txt`, into
//! the folder given.

use std::env;
use std::fs;
use std::path::Path;
use std::process::ExitCode;

use second::printed::printed;
use strip_tests::examples::examples;

/// Takes the folder from the command line and writes all files.
fn main() -> ExitCode {
    let mut arguments = env::args_os().skip(1);
    let (Some(folder), None) = (arguments.next(), arguments.next()) else {
        eprintln!("example_sheets: give one folder, in which to write the sheets");
        return ExitCode::FAILURE;
    };
    let folder = Path::new(&folder);
    for (name, draft) in examples() {
        let sheet = draft.bytes();
        let text = printed(&sheet).into_bytes();
        for (ending, contents) in [("sheet", sheet), ("txt", text)] {
            let path = folder.join(name).with_extension(ending);
            if let Err(error) = fs::write(&path, contents) {
                eprintln!("example_sheets: cannot write {}: {error}", path.display());
                return ExitCode::FAILURE;
            }
        }
    }
    ExitCode::SUCCESS
}
