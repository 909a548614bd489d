//! Draws the sheet in a file, and prints the drawing or the refusal as the program `place` does.
//!
//! Exit status: 0 drawn, 1 refused, 2 the file cannot be read or the answer cannot be written.

use std::env;
use std::fs;
use std::io::{self, Write};
use std::process::ExitCode;

use strip::{Refusal, MAX_LIST, MAX_NUMBERS, MAX_PLACES};

/// The total, then layer, position and place of each node.
fn drawing(sheet: &[u8]) -> Result<String, Refusal> {
    let mut places = [0; MAX_PLACES];
    let mut numbers = [0; MAX_NUMBERS];
    let total = strip::draw(sheet, &mut places, &mut [0; MAX_LIST])?;
    strip::read(sheet, &mut numbers)?;
    let mut text = format!("total {total}\n");
    let (mut at, mut places) = (2, places.iter());
    for layer in 1..=numbers[1] {
        let count = usize::from(numbers[at]);
        for (position, place) in (1..).zip(places.by_ref().take(count)) {
            text += &format!("{layer} {position} {place}\n");
        }
        at += 2 * count - 1;
    }
    Ok(text)
}

/// Takes the file from the command line.
fn main() -> ExitCode {
    let mut arguments = env::args_os().skip(1);
    let (Some(path), None) = (arguments.next(), arguments.next()) else {
        eprintln!("usage: draw FILE");
        return ExitCode::from(2);
    };
    let sheet = match fs::read(&path) {
        Ok(sheet) => sheet,
        Err(error) => {
            eprintln!("draw: {}: {error}", path.to_string_lossy());
            return ExitCode::from(2);
        }
    };
    let (text, status) = match drawing(&sheet) {
        Ok(text) => (text, 0),
        Err(refusal) => (format!("{refusal}\n"), 1),
    };
    if let Err(error) = io::stdout().write_all(text.as_bytes()) {
        eprintln!("draw: {error}");
        return ExitCode::from(2);
    }
    ExitCode::from(status)
}
