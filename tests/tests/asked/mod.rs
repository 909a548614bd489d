//! The stored vectors, and the answers of a library to their questions.

use std::collections::BTreeMap;
use std::fmt::Display;
use std::fs;
use std::path::Path;
use std::str::FromStr;

use compare::Library;
use second::drawing::Sheet;
use second::refusal::Refusal;

/// The stored files, by their names.
pub fn stored() -> BTreeMap<String, String> {
    let folder = Path::new(env!("CARGO_MANIFEST_DIR")).join("../vectors");
    let mut files = BTreeMap::new();
    for entry in fs::read_dir(folder).expect("the vectors") {
        let path = entry.expect("a file").path();
        if path.extension().is_some_and(|ending| ending == "txt") {
            let name = path.file_name().expect("a name").to_string_lossy();
            let text = fs::read_to_string(&path).expect("a text");
            files.insert(name.into_owned(), text);
        }
    }
    files
}

/// The cases of a file: each question with its answer.
pub fn cases(text: &str) -> Vec<(&str, &str)> {
    let lines = text.lines().filter(|line| !line.starts_with('#'));
    let case = |line: &'_ str| line.find(" = ").expect("a question and an answer");
    lines
        .map(|line| (&line[..case(line)], &line[case(line) + 3..]))
        .collect()
}

/// The numbers of a field.
fn numbers<T: FromStr>(field: &str) -> Vec<T> {
    let number = |text: &str| {
        text.parse()
            .unwrap_or_else(|_| panic!("no number: {field}"))
    };
    field
        .split(',')
        .filter(|text| *text != "-")
        .map(number)
        .collect()
}

/// The bytes of a field.
fn bytes(field: &str) -> Vec<u8> {
    let digits = field.trim_start_matches('-');
    assert_eq!(digits.len() % 2, 0, "{field}");
    let byte = |at| u8::from_str_radix(&digits[at..at + 2], 16).expect("a byte");
    (0..digits.len()).step_by(2).map(byte).collect()
}

/// Numbers as a field.
fn listed<T: Display>(numbers: &[T]) -> String {
    let numbers: Vec<String> = numbers.iter().map(T::to_string).collect();
    match &numbers[..] {
        [] => "-".to_string(),
        _ => numbers.join(","),
    }
}

/// Bytes as a field.
fn digits(bytes: &[u8]) -> String {
    bytes.iter().map(|byte| format!("{byte:02x}")).collect()
}

/// The front of a slice of so many elements that a call fills.
fn filled<T: Clone + Default>(
    room: &str,
    call: impl Fn(&mut [T]) -> Result<usize, Refusal>,
) -> Result<Vec<T>, Refusal> {
    let mut slice = vec![T::default(); room.parse().expect("a length")];
    let count = call(&mut slice)?;
    slice.truncate(count);
    Ok(slice)
}

/// The total and the places of a library's drawing.
fn drawn(
    library: &impl Library,
    room: &str,
    list_room: &str,
    sheet: &[u8],
) -> Result<String, Refusal> {
    let length = |room: &str| room.parse::<usize>().expect("a length");
    let (mut places, mut list) = (vec![0; length(room)], vec![0; length(list_room)]);
    let total = library.draw(sheet, &mut places, &mut list)?;
    let nodes = Sheet::from_bytes(sheet)?.node_count();
    Ok(format!("{total} {}", listed(&places[..nodes])))
}

/// The answer of a library to a question.
pub fn answered(library: &impl Library, question: &str) -> String {
    let fields: Vec<&str> = question.split(' ').collect();
    let answer = match fields[..] {
        ["read", room, sheet] => {
            filled(room, |slice| library.read(&bytes(sheet), slice)).map(|found| listed(&found))
        }
        ["write", room, list] => {
            filled(room, |slice| library.write(&numbers(list), slice)).map(|found| digits(&found))
        }
        ["draw", room, list_room, sheet] => drawn(library, room, list_room, &bytes(sheet)),
        ["check", sheet, places, list] => {
            let word = library.check(&bytes(sheet), &numbers(places), &numbers(list));
            word.map(|yes| if yes { "yes" } else { "no" }.to_string())
        }
        ["narrowest", sheet] => library
            .narrowest(&bytes(sheet))
            .map(|found| format!("{} {}", found.width, found.total)),
        ["totals", room, widths, sheet] => {
            let totals = |slice: &mut [u32]| library.totals(&bytes(sheet), &numbers(widths), slice);
            filled(room, totals).map(|found| listed(&found))
        }
        ["read_drawing", room, file] => {
            let found = filled(room, |slice| library.read_drawing(&bytes(file), slice));
            found.map(|found| listed(&found))
        }
        ["write_drawing", room, list] => {
            let found = filled(room, |slice| library.write_drawing(&numbers(list), slice));
            found.map(|found| digits(&found))
        }
        _ => panic!("no question: {question}"),
    };
    answer.unwrap_or_else(|refusal| format!("refused {} at {}", refusal.number, refusal.offset))
}
