//! The page of the refusals, docs/REFUSALS.md: a row and a section for each refusal of the header,
//! examples in each section that both implementations answer as they say, and the texts of the refusals
//! in each language.

mod tools;

use std::fs;
use std::process::Command;

use compare::Proved;
use second::refusal::Refusal;
use strip_tests::cases::Call;
use strip_tests::document::{crossing, NO_DRAWING, ONE_NODE, REFUSED};
use tools::{compiler, folder, output, python, root, HEADER};

/// The text of the page.
fn page() -> String {
    fs::read_to_string(root().join("docs/REFUSALS.md")).expect("the page")
}

/// The sections of the page: the number in the heading, and the text.
fn sections(page: &str) -> Vec<(u32, &str)> {
    let section = |text| {
        let (number, _) = str::split_once(text, ": ")?;
        Some((number.parse().ok()?, text))
    };
    let sections = page.split("\n## ").skip(1);
    sections
        .map(|text| section(text).unwrap_or_else(|| panic!("a section without a number: {text}")))
        .collect()
}

/// A number in decimal, with commas between groups of three digits.
fn number(text: &str) -> Option<usize> {
    text.replace(',', "").parse().ok()
}

/// The bytes of an example, in hexadecimal.
fn bytes(input: &str) -> Option<Vec<u8>> {
    let byte = |text| u8::from_str_radix(text, 16).ok();
    let input = input.strip_prefix('`')?.strip_suffix('`')?;
    input.split(' ').map(byte).collect()
}

/// The number list of an example.
fn numbers(input: &str) -> Option<Vec<u16>> {
    input.split(", ").map(|text| text.parse().ok()).collect()
}

/// The widths of an example: numbers, or one number and how many times it stands in the list.
fn widths(list: &str) -> Option<Vec<u32>> {
    if let Some((width, times)) = list.split_once(" (") {
        let times = number(times.strip_suffix(" times)")?)?;
        return Some(vec![width.parse().ok()?; times]);
    }
    list.split(", ").map(|text| text.parse().ok()).collect()
}

/// The call of an example, with its slices; `narrowest` has none.
fn call(name: &str, input: &str, slices: &str) -> Option<Call> {
    let room = |unit| number(slices.strip_prefix("a slice of ")?.strip_suffix(unit)?);
    match name {
        "read" => {
            let (bytes, room) = (bytes(input)?, room(" numbers")?);
            Some(Call::Read { bytes, room })
        }
        "read_drawing" => {
            let (file, room) = (bytes(input)?, room(" numbers")?);
            Some(Call::ReadDrawing { file, room })
        }
        "write_drawing" => {
            let (numbers, room) = (numbers(input)?, room(" bytes")?);
            Some(Call::WriteDrawing { numbers, room })
        }
        "narrowest" if slices.is_empty() => {
            let bytes = bytes(input)?;
            Some(Call::Narrowest { bytes })
        }
        "totals" => {
            let (sheet, list) = input.split_once(" at ")?;
            let (bytes, widths) = (bytes(sheet)?, widths(list)?);
            let room = room(" totals")?;
            Some(Call::Totals {
                bytes,
                widths,
                room,
            })
        }
        "draw" => {
            let lengths = slices.strip_prefix("slices of ")?;
            let (places, list) = lengths
                .strip_suffix(" numbers")?
                .split_once(" places and ")?;
            let (places, list) = (number(places)?, number(list)?);
            let bytes = bytes(input)?;
            Some(Call::Draw {
                bytes,
                places,
                list,
            })
        }
        _ => None,
    }
}

/// What an example says: "`CALL` of INPUT with SLICES: refused NUMBER at OFFSET.", or the same without
/// slices; INPUT is bytes or a number list, or for `totals` BYTES at WIDTHS.
fn example(text: &str) -> (Call, Refusal) {
    let read = || {
        let (name, rest) = text.strip_prefix('`')?.split_once("` of ")?;
        let (input, refusal) = rest.split_once(": refused ")?;
        let (input, slices) = input.split_once(" with ").unwrap_or((input, ""));
        let (refused, offset) = refusal.split_once('.')?.0.split_once(" at ")?;
        let refusal = Refusal::new(refused.parse().ok()?, number(offset)?);
        Some((call(name, input, slices)?, refusal))
    };
    read().unwrap_or_else(|| panic!("cannot be read: {text}"))
}

/// The one example of a section with a sheet.
fn only_example(section: &str) -> (Call, Refusal) {
    let lines = section
        .lines()
        .filter_map(|line| line.strip_prefix("Example: "));
    match lines.collect::<Vec<_>>()[..] {
        [text] => example(text),
        _ => panic!("not one example: {section}"),
    }
}

/// The examples of a section with coordinate files, their number lists and lists of widths.
fn other_examples(section: &str) -> Vec<(Call, Refusal)> {
    let lines = section.lines().filter_map(|line| line.strip_prefix("- "));
    let examples = lines.filter(|line| line.contains(": refused "));
    examples.map(example).collect()
}

#[test]
fn each_refusal_of_the_header_has_one_section() {
    let page = page();
    let numbers: Vec<u32> = sections(&page).iter().map(|&(n, _)| n).collect();
    let header: Vec<u32> = tools::numbers("refusals").iter().map(|&(_, n)| n).collect();
    assert_eq!(numbers, header);
}

#[test]
fn examples_are_refused_as_they_say() {
    for (number, section) in sections(&page()) {
        let examples = other_examples(section).into_iter();
        for (call, refusal) in examples.chain([only_example(section)]) {
            assert_eq!(refusal.number, number, "{section}");
            assert_eq!(
                compare::call(&Proved, &call),
                Some(Err(refusal)),
                "{call:?}"
            );
        }
    }
}

#[test]
fn each_refusal_of_coordinate_files_and_widths_has_examples() {
    let page = page();
    let sections = sections(&page);
    let with = |is: fn(&Call) -> bool| -> Vec<u32> {
        let sections = sections.iter().filter(|(_, section)| {
            let mut examples = other_examples(section);
            examples.push(only_example(section));
            examples.iter().any(|(call, _)| is(call))
        });
        sections.map(|&(number, _)| number).collect()
    };
    let read = with(|call| matches!(call, Call::ReadDrawing { .. }));
    let written = with(|call| matches!(call, Call::WriteDrawing { .. }));
    let told = with(|call| matches!(call, Call::Totals { .. }));
    assert_eq!(read, [1, 2, 3, 4, 6, 7]);
    assert_eq!(written, [1, 4, 6, 7]);
    assert_eq!(told, [4, 7, 11]);
}

#[test]
fn examples_are_those_of_document_01() {
    let page = page();
    let examples = sections(&page)
        .into_iter()
        .map(|(_, section)| match only_example(section).0 {
            Call::Read { bytes, .. } | Call::Draw { bytes, .. } => bytes,
            Call::Narrowest { bytes } | Call::Totals { bytes, .. } => bytes,
            call => panic!("{call:?}"),
        });
    let crossing = crossing().bytes();
    let document = REFUSED.iter().map(|&(_, bytes)| bytes);
    let document = document.chain([&ONE_NODE[..], &NO_DRAWING[..], &crossing, &ONE_NODE[..]]);
    assert!(examples.eq(document));
}

/// The greatest number that the texts are asked for.
const GREATEST: u32 = 12;

/// The numbers from 0 on with the texts that they have, by the table of the page; a line for each.
fn texts_of_the_page() -> String {
    let page = page();
    let rows = page.lines().filter(|line| line.starts_with("| ["));
    let cells = rows.map(|row| row.split(" | ").collect::<Vec<_>>());
    let mut texts = vec!["No refusal has this number"; GREATEST as usize + 1];
    texts[0] = "The call succeeded";
    for row in cells {
        let (number, _) = row[0][3..].split_once(']').expect("a number");
        texts[number.parse::<usize>().expect("a number")] = row[2];
    }
    let lines = (0..).zip(&texts).map(|(n, text)| format!("{n} {text}\n"));
    lines.collect()
}

#[test]
fn the_page_has_the_first_sentence_of_each_comment() {
    let page = texts_of_the_page();
    let refusals = tools::header("refusals");
    for item in &refusals {
        let line = format!("\n{} {}\n", item["number"], item[""]);
        assert!(page.contains(&line), "{line}");
        assert!(item[""].len() <= 100 && !item[""].contains(". "), "{line}");
    }
    let none = page.matches("No refusal has this number").count();
    assert_eq!(none + refusals.len(), GREATEST as usize);
    let header = fs::read_to_string(root().join(HEADER)).expect("the header");
    assert!(header.contains("    /* The call succeeded. */\n    STRIP_OK = 0,\n"));
}

#[test]
fn texts_in_c_and_cpp_are_those_of_the_page() {
    for (name, language, standard) in [
        ("gcc", "c", "c99"),
        ("clang", "c", "c99"),
        ("g++", "c++", "c++11"),
        ("clang++", "c++", "c++20"),
    ] {
        let program = folder(&format!("refusals-{name}")).join("texts");
        let mut compiler = compiler(name, standard);
        compiler.args(["-x", language, tools::LIBRARY[0], "tests/c/texts.c", "-o"]);
        output(compiler.arg(&program));
        assert_eq!(output(&mut Command::new(program)), texts_of_the_page());
    }
}

#[test]
fn texts_in_rust_are_those_of_the_page() {
    let texts = (1..=GREATEST).map(|number| {
        let refusal = strip::Refusal { number, offset: 3 };
        let line = format!("refused {number} at 3");
        assert_eq!(refusal.to_string(), line);
        assert_eq!(
            format!("{refusal:#}"),
            format!("{line}: {}", refusal.text())
        );
        format!("{number} {}\n", refusal.text())
    });
    let page = texts_of_the_page();
    assert_eq!(
        page,
        "0 The call succeeded\n".to_string() + &texts.collect::<String>()
    );
}

#[test]
fn texts_in_python_are_those_of_the_page() {
    let code = format!(
        "import strip
for number in range(1, {GREATEST} + 1):
    refusal = strip.Refusal(number, 3)
    assert str(refusal) == f'refused {{number}} at 3'
    print(number, refusal.text)"
    );
    let told = output(python().args(["-c", &code]));
    assert_eq!(texts_of_the_page(), format!("0 The call succeeded\n{told}"));
}
