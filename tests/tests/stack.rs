//! The functions use no more stack than the header and the page of the library say, on sheets of full
//! size.

mod tools;

use std::fs;
use std::process::Command;

use strip_tests::planted::{planted, Plan};
use strip_tests::random::Random;
use tools::{compiler, folder, functions, output, root, LIBRARY};

/// Sheets of full size, some of each kind.
fn sheets() -> Vec<Vec<u8>> {
    let mut random = Random::new(47);
    let mut sheets = Vec::new();
    for layers in [4, 8, 64] {
        for plan in [Plan::FULL_TIGHT, Plan::FULL_WIDE] {
            for _ in 0..10 {
                let plan = Plan { layers, ..plan };
                sheets.push(planted(&mut random, &plan).bytes());
            }
        }
    }
    sheets
}

/// What the C program prints for these sheets.
fn measure(sheets: &[Vec<u8>]) -> String {
    let folder = folder("stack");
    let program = folder.join("stack");
    let mut compiler = compiler("gcc", "c99");
    compiler.arg("tests/c/stack.c").args(LIBRARY);
    output(compiler.arg("-pthread").arg("-o").arg(&program));
    let mut command = Command::new(program);
    for (i, sheet) in sheets.iter().enumerate() {
        let path = folder.join(format!("{i}.sheet"));
        fs::write(&path, sheet).expect("a sheet can be written");
        command.arg(path);
    }
    output(&mut command)
}

/// The name and the stack of a function, from a line of the C program.
fn name_and_bytes(line: &str) -> (&str, usize) {
    let (name, bytes) = line.split_once(' ').expect("a name and a number");
    (name, bytes.parse().expect("a number"))
}

/// The bytes that docs/LIBRARY.md says of a function, in the last row that has its name.
fn said_of(name: &str) -> usize {
    let page = fs::read_to_string(root().join("docs/LIBRARY.md")).expect("the page");
    let start = format!("| `{name}` | ");
    let row = page.lines().rfind(|line| line.starts_with(&start));
    let cell = row.and_then(|row| row[start.len()..].strip_suffix(" |"));
    let bytes = cell.and_then(|cell| cell.replace(',', "").parse().ok());
    bytes.unwrap_or_else(|| panic!("no stack of {name}"))
}

#[test]
fn stack_is_as_the_header_and_the_page_say() {
    let printed = measure(&sheets());
    for (name, bytes) in printed.lines().map(name_and_bytes) {
        // not less, and not much more
        let said = said_of(name);
        assert!(bytes <= said && said < bytes + 1024, "{name}: {bytes}");
    }
    let (mut names, stacks): (Vec<&str>, Vec<usize>) = printed.lines().map(name_and_bytes).unzip();
    names.sort_unstable();
    assert_eq!(names, functions());
    // The header's number is the greatest one in whole pages, with at most one page to spare.
    let page = 4096;
    let greatest = stacks.iter().max().expect("numbers").div_ceil(page);
    let said = strip::STACK_BYTES / page;
    assert!(greatest <= said && said <= greatest + 1, "{printed}");
}
