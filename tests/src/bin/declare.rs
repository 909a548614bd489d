//! Writes what other files repeat of the header `strip.h`, between the marks there.

use std::fs;
use std::path::Path;

use strip_tests::declare::declared;

/// Writes all files anew.
fn main() -> Result<(), String> {
    let root = Path::new(env!("CARGO_MANIFEST_DIR")).join("..");
    for (file, text) in declared(&root)? {
        fs::write(root.join(file), text).map_err(|error| format!("{file}: {error}"))?;
    }
    Ok(())
}
