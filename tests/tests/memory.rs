//! The functions touch no memory but the slices lent to them, and use no contents that nobody wrote:
//! `tests/c/damaged.c` calls them on good and damaged sheets, coordinate files and lists, with
//! each slice in a block of exactly its size, under valgrind and between pages that nobody may touch.

mod process;
mod tools;

use std::collections::{BTreeMap, BTreeSet};
use std::fs;
use std::path::{Path, PathBuf};
use std::process::{Command, Output, Stdio};
use std::time::Duration;

use compare::{grouped, page};
use process::run;
use strip_tests::declare;
use strip_tests::driver::{calls, items, Item};
use strip_tests::files::GOOD;
use tools::{compiler, folder, header, output, LIBRARY};

/// How long one run of the driver may take.
const LIMIT: Duration = Duration::from_secs(120);
/// The exit status of valgrind where it has something to report.
const REPORTED: i32 = 99;
/// What the address sanitizer adds to the build.
const SANITIZER: &str = "-fsanitize=address";

/// A file of the tests' own.
fn made(name: &str) -> PathBuf {
    Path::new(env!("CARGO_TARGET_TMPDIR")).join(name)
}

/// Runs a command to its end and gives what it printed.
fn finished(command: &mut Command) -> Output {
    command.stdin(Stdio::null());
    command.stdout(Stdio::piped()).stderr(Stdio::piped());
    run(command, LIMIT, |_| ())
}

/// Builds the driver with these flags more, in a folder of its own.
fn driver(name: &str, flags: &[&str]) -> PathBuf {
    let path = folder(name).join("damaged");
    let mut gcc = compiler("gcc", "c11");
    gcc.args(["-O1", "-g"]).args(flags);
    gcc.arg("tests/c/damaged.c").args(LIBRARY);
    output(gcc.arg("-o").arg(&path));
    path
}

/// Writes items to a file.
fn file_of(name: &str, items: &[Item]) -> PathBuf {
    let path = made(name);
    let bytes: Vec<u8> = items.iter().flat_map(Item::bytes).collect();
    fs::write(&path, bytes).expect("the file can be written");
    path
}

/// The driver under valgrind, which must be there.
fn valgrind(driver: &Path) -> Command {
    let found = Command::new("valgrind").arg("--version").output();
    assert!(
        found.is_ok(),
        "valgrind is missing; install valgrind and libc6-dbg"
    );
    let mut command = Command::new("valgrind");
    command.args(["--quiet", "--leak-check=full", "--show-leak-kinds=all"]);
    command.args(["--errors-for-leak-kinds=all", "--track-origins=no"]);
    command.arg(format!("--error-exitcode={REPORTED}"));
    command.arg(driver);
    command
}

/// Runs the driver and checks that nothing is reported and all answers are the right ones.
fn check_clean(command: &mut Command, placement: &str, file: &Path, items: &[Item]) {
    let output = finished(command.args([placement, "none"]).arg(file));
    let errors = String::from_utf8_lossy(&output.stderr);
    assert!(output.status.success() && errors.is_empty(), "{errors}");
    let printed = String::from_utf8(output.stdout).expect("the answers are text");
    let expected: Vec<String> = items.iter().flat_map(calls).collect();
    for (found, expected) in printed.lines().zip(&expected) {
        assert_eq!(found, expected);
    }
    assert_eq!(printed.lines().count(), expected.len());
}

/// Runs the driver with a deliberate fault.
fn with_fault(command: &mut Command, placement: &str, fault: &str, file: &Path) -> Output {
    finished(command.args([placement, fault]).arg(file))
}

#[test]
fn there_are_items_of_every_kind_and_size() {
    let items = items();
    assert!(items.len() > 1000, "{}", items.len());
    let lines: Vec<String> = items.iter().flat_map(calls).collect();
    let drawn = lines
        .iter()
        .filter(|line| line.starts_with("strip_draw 00000000"));
    assert!(drawn.count() > 300);
    let count = |end: &str| lines.iter().filter(|line| line.ends_with(end)).count();
    assert!(count("strip_check 0000000000000001") > 300);
    // no width has a drawing
    assert!(count(" 0000000a00000000") > 50);
    // three totals are told, or there are too many widths
    let told = |start: &str| lines.iter().filter(|line| line.starts_with(start)).count();
    assert!(told("strip_totals 0000000000000003 ") > 600);
    assert!(told("strip_totals 0000000b00000000 ") > 300);
}

#[test]
fn the_page_tells_how_many_items_and_calls_there_are() {
    let items = items();
    let count = |is: fn(&&Item) -> bool| grouped(items.iter().filter(is).count());
    let sheets = count(|item| matches!(item, Item::Sheet(_)));
    let files = count(|item| matches!(item, Item::File(_)));
    let lists = count(|item| matches!(item, Item::Numbers(_) | Item::Drawing(_)));
    let calls = grouped(items.iter().flat_map(calls).count());
    page::check_said(&format!(
        "makes {sheets} sheets, {files} coordinate files and {lists} number lists"
    ));
    page::check_said(&format!("That makes {calls} calls."));
}

#[test]
fn every_function_meets_its_refusals_and_no_other() {
    let mut met: BTreeMap<String, BTreeSet<u32>> = BTreeMap::new();
    for line in items().iter().flat_map(calls) {
        let (name, answer) = line.split_once(' ').expect("a name and an answer");
        let number = u32::from_str_radix(&answer[4..8], 16).expect("a number");
        met.entry(name.to_string()).or_default().insert(number);
    }
    let mut functions = header("functions");
    functions.retain(|item| item["result"] == "u64"); // the others give no answer
    let said = |item: &declare::Item| (item["name"].clone(), refusals(&item["Refusals "]));
    assert_eq!(met, functions.iter().map(said).collect());
}

/// The numbers in a text such as `1 to 4, 6 and 7`, and 0.
fn refusals(text: &str) -> BTreeSet<u32> {
    let number = |text: &str| text.parse::<u32>().expect("a number");
    let text = text.replace(" and ", ", ");
    let ends = |part: &str| {
        let (first, last) = part.split_once(" to ").unwrap_or((part, part));
        number(first)..=number(last)
    };
    [0].into_iter()
        .chain(text.split(", ").flat_map(ends))
        .collect()
}

#[test]
fn valgrind_has_nothing_to_report() {
    let items = items();
    let file = file_of("valgrind.items", &items);
    let driver = driver("damaged-valgrind", &[]);
    check_clean(&mut valgrind(&driver), "heap", &file, &items);
}

#[test]
fn no_byte_beside_a_slice_is_touched() {
    let items = items();
    let file = file_of("pages.items", &items);
    let driver = driver("damaged-pages", &[]);
    for placement in ["before", "behind"] {
        check_clean(&mut Command::new(&driver), placement, &file, &items);
    }
}

#[test]
fn the_address_sanitizer_has_nothing_to_report() {
    let items = items();
    let file = file_of("sanitizer.items", &items);
    let driver = driver("damaged-sanitizer", &[SANITIZER]);
    check_clean(&mut Command::new(&driver), "heap", &file, &items);
}

#[test]
fn valgrind_reports_deliberate_faults() {
    let driver = driver("damaged-valgrind-fault", &[]);
    for (fault, item, report) in faults() {
        let file = file_of(&format!("valgrind-{fault}.items"), &[item]);
        let output = with_fault(&mut valgrind(&driver), "heap", fault, &file);
        let errors = String::from_utf8_lossy(&output.stderr);
        assert_eq!(output.status.code(), Some(REPORTED), "{fault}: {errors}");
        assert!(errors.contains(report), "{fault}: {errors}");
    }
}

#[test]
fn a_page_stops_one_byte_or_element_too_many() {
    let driver = driver("damaged-pages-fault", &[]);
    for (fault, item, _) in faults().into_iter().take(6) {
        let file = file_of(&format!("pages-{fault}.items"), &[item]);
        let output = with_fault(&mut Command::new(&driver), "before", fault, &file);
        assert_eq!(output.status.code(), None, "{fault}: ended by a signal");
    }
}

#[test]
fn an_element_written_between_a_slice_and_the_page_is_seen() {
    let driver = driver("damaged-beside-fault", &[]);
    let file = file_of("beside.items", &[Item::sheet(&first())]);
    for fault in ["write", "totals"] {
        let output = with_fault(&mut Command::new(&driver), "behind", fault, &file);
        let errors = String::from_utf8_lossy(&output.stderr);
        assert_eq!(output.status.code(), Some(1), "{fault}: {errors}");
        let line = "written outside its result";
        assert!(errors.contains(line), "{fault}: {errors}");
    }
}

#[test]
fn the_address_sanitizer_reports_an_element_too_many() {
    let driver = driver("damaged-sanitizer-fault", &[SANITIZER]);
    let file = file_of("sanitizer-fault.items", &[Item::sheet(&first())]);
    for fault in ["write", "totals"] {
        let output = with_fault(&mut Command::new(&driver), "heap", fault, &file);
        let errors = String::from_utf8_lossy(&output.stderr);
        assert!(!output.status.success(), "{fault}: {errors}");
        let report = "heap-buffer-overflow";
        assert!(errors.contains(report), "{fault}: {errors}");
    }
}

/// The first sheet of document 01.
fn first() -> Vec<u8> {
    strip_tests::document::first().bytes()
}

/// The deliberate faults, each with an item that it shows on and the words of valgrind's report; pages
/// show all but the last.
fn faults() -> [(&'static str, Item, &'static str); 7] {
    let (sheet, (_, file, _)) = (first(), GOOD[0]);
    [
        ("read", Item::sheet(&sheet[..9]), "Invalid read of size 1"),
        ("write", Item::sheet(&sheet), "Invalid write of size 2"),
        ("read", Item::file(&file[..6]), "Invalid read of size 1"),
        ("write", Item::file(file), "Invalid write of size 2"),
        ("widths", Item::sheet(&sheet), "Invalid read of size 4"),
        ("totals", Item::sheet(&sheet), "Invalid write of size 4"),
        ("undefined", Item::sheet(&sheet), "uninitialised value"),
    ]
}
