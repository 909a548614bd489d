//! A call as a question, and the answer of the second implementation.

use std::fmt::Display;

use second::checker::check;
use second::coordinates;
use second::drawing::Sheet;
use second::engine::draw;
use second::minimum_width::minimum_width;
use second::refusal::Refusal;
use second::sheet;
use second::totals::totals;

use crate::cases::Call;

/// The name of the function that a call is of, and the fields of the question; nothing if the library
/// has no such function.
pub fn question(call: &Call) -> Option<(&'static str, String)> {
    Some(match call {
        Call::Read { bytes, room } => ("read", format!("{room} {}", hexadecimal(bytes))),
        Call::Write { numbers, room } => ("write", format!("{room} {}", listed(numbers))),
        Call::Draw {
            bytes,
            places,
            list,
        } => ("draw", format!("{places} {list} {}", hexadecimal(bytes))),
        Call::Check {
            bytes,
            places,
            list,
        } => {
            let fields = [hexadecimal(bytes), listed(places), listed(list)];
            ("check", fields.join(" "))
        }
        Call::Narrowest { bytes } => ("narrowest", hexadecimal(bytes)),
        Call::Totals {
            bytes,
            widths,
            room,
        } => {
            let fields = format!("{room} {} {}", listed(widths), hexadecimal(bytes));
            ("totals", fields)
        }
        Call::ReadDrawing { file, room } => {
            ("read_drawing", format!("{room} {}", hexadecimal(file)))
        }
        Call::WriteDrawing { numbers, room } => {
            ("write_drawing", format!("{room} {}", listed(numbers)))
        }
        Call::ReadNumber { .. } | Call::WriteNumber { .. } => return None,
    })
}

/// The answer to such a question.
pub fn answer(call: &Call) -> String {
    let answer = match call {
        Call::Read { bytes, room } => numbers(*room, |slice| sheet::read(bytes, slice)),
        Call::Write { numbers, room } => bytes(*room, |slice| sheet::write(numbers, slice)),
        Call::Draw {
            bytes,
            places,
            list,
        } => drawn(bytes, *places, *list),
        Call::Check {
            bytes,
            places,
            list,
        } => check(bytes, places, list).map(|yes| if yes { "yes" } else { "no" }.to_string()),
        Call::Narrowest { bytes } => {
            minimum_width(bytes).map(|found| format!("{} {}", found.width, found.total))
        }
        Call::Totals {
            bytes,
            widths,
            room,
        } => numbers(*room, |slice| totals(bytes, widths, slice)),
        Call::ReadDrawing { file, room } => numbers(*room, |slice| coordinates::read(file, slice)),
        Call::WriteDrawing { numbers, room } => {
            bytes(*room, |slice| coordinates::write(numbers, slice))
        }
        Call::ReadNumber { .. } | Call::WriteNumber { .. } => panic!("no question: {call:?}"),
    };
    answer.unwrap_or_else(refused)
}

/// The numbers that a call leaves in a slice of so many elements.
fn numbers<T: Clone + Default + Display>(
    room: usize,
    call: impl FnOnce(&mut [T]) -> Result<usize, Refusal>,
) -> Result<String, Refusal> {
    let mut slice = vec![T::default(); room];
    let count = call(&mut slice)?;
    Ok(listed(&slice[..count]))
}

/// The bytes that a writer leaves in a slice of so many elements.
fn bytes(
    room: usize,
    write: impl FnOnce(&mut [u8]) -> Result<usize, Refusal>,
) -> Result<String, Refusal> {
    let mut slice = vec![0; room];
    let count = write(&mut slice)?;
    Ok(hexadecimal(&slice[..count]))
}

/// The total and the places of a drawing.
fn drawn(bytes: &[u8], places: usize, list: usize) -> Result<String, Refusal> {
    let (mut places, mut list) = (vec![0; places], vec![0; list]);
    let total = draw(bytes, &mut places, &mut list)?;
    let nodes = Sheet::from_bytes(bytes)?.node_count();
    Ok(format!("{total} {}", listed(&places[..nodes])))
}

/// A refusal as the program `place` prints it.
fn refused(refusal: Refusal) -> String {
    format!("refused {} at {}", refusal.number, refusal.offset)
}

/// Bytes in hexadecimal, or a hyphen for none.
fn hexadecimal(bytes: &[u8]) -> String {
    match bytes {
        [] => "-".to_string(),
        _ => bytes.iter().map(|byte| format!("{byte:02x}")).collect(),
    }
}

/// Numbers in decimal with commas between them, or a hyphen for none.
fn listed<T: Display>(numbers: &[T]) -> String {
    let numbers: Vec<String> = numbers.iter().map(T::to_string).collect();
    match &numbers[..] {
        [] => "-".to_string(),
        _ => numbers.join(","),
    }
}
