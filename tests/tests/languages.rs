//! The examples in C, C++, Rust and Python: each draws the sheet in a file, prints what `place`
//! prints, and says by its exit status whether the sheet was drawn.

mod tools;

use std::fs::{self, File};
use std::path::{Path, PathBuf};
use std::process::{Command, Stdio};

use second::printed::printed;
use second::sheet::PLAIN;
use strip_tests::document::{crossing, stair, NO_DRAWING, REFUSED};
use strip_tests::draft::Draft;
use strip_tests::examples::examples;
use tools::{compiler, folder, output, python, root, run_in, shared_library, LIBRARY};

/// Checks the exit status, the output, and how many lines of errors a command leaves.
fn check_ends(command: &mut Command, status: i32, printed: &str, errors: usize) {
    let output = run_in(&root(), command);
    assert_eq!(
        String::from_utf8_lossy(&output.stdout),
        printed,
        "{command:?}"
    );
    let said = String::from_utf8_lossy(&output.stderr);
    assert_eq!(said.lines().count(), errors, "{command:?}: {said}");
    assert_eq!(output.status.code(), Some(status), "{command:?}: {said}");
}

/// Checks an example on good and bad sheets, and on files that cannot be read.
fn check_draws(name: &str, example: impl Fn() -> Command) {
    check_draws_and(name, example, |_| String::new());
}

/// Checks an example that prints more behind a drawing.
fn check_draws_and(name: &str, example: impl Fn() -> Command, more: impl Fn(&Draft) -> String) {
    for (name, draft) in examples() {
        let path = format!("examples/{name}.sheet");
        let text = printed(&draft.bytes()) + &more(&draft);
        check_ends(example().arg(path), 0, &text, 0);
    }
    let folder = folder(&format!("languages-sheets-{name}"));
    let file = folder.join("refused.sheet");
    let refused = REFUSED.map(|(_, bytes)| bytes);
    for bytes in refused.into_iter().chain([&NO_DRAWING[..], &[]]) {
        fs::write(&file, bytes).expect("a sheet can be written");
        check_ends(example().arg(&file), 1, &printed(bytes), 0);
    }
    for path in [folder.join("none"), folder] {
        check_ends(example().arg(path), 2, "", 1);
    }
    check_ends(&mut example(), 2, "", 1);
    check_ends(example().args(["examples/first.sheet", "more"]), 2, "", 1);
}

/// Checks that an example tells when its answer cannot be written.
fn check_full(mut example: Command) {
    let full = File::options().write(true).open("/dev/full");
    example.stdout(Stdio::from(full.expect("Linux has a full device")));
    check_ends(example.arg("examples/first.sheet"), 2, "", 1);
}

/// Compiles an example with the static library.
fn compiled(name: &str, standard: &str, source: &str) -> PathBuf {
    let stem = Path::new(source).file_stem().expect("a name");
    let place = format!("languages-{name}-{standard}-{}", stem.to_string_lossy());
    let program = folder(&place).join("program");
    let mut compiler = compiler(name, standard);
    output(compiler.arg(source).args(LIBRARY).arg("-o").arg(&program));
    program
}

#[test]
fn c_example_draws() {
    for name in ["gcc", "clang"] {
        let program = compiled(name, "c99", "examples/draw.c");
        check_draws(name, || Command::new(&program));
        check_full(Command::new(&program));
    }
}

/// What examples/check.c prints behind a drawing: the library's list, and a yes.
fn list_and_word(draft: &Draft) -> String {
    let (mut places, mut list) = ([0; strip::MAX_PLACES], [0; strip::MAX_LIST]);
    strip::draw(&draft.bytes(), &mut places, &mut list).expect("a drawing");
    let mut rest = list.iter();
    let mut numbers = |count| -> String {
        let numbers = rest.by_ref().take(count);
        numbers.map(|number| format!(" {number}")).collect()
    };
    let mut text = format!("pulls of the edges:{}\n", numbers(draft.edges.len()));
    for (i, separations) in draft.layers.iter().enumerate() {
        let pushes = numbers(2 * separations.len() + 2);
        text += &format!("pushes of layer {}:{pushes}\n", i + 1);
    }
    text + "checked: yes\n"
}

#[test]
fn c_example_checks() {
    for name in ["gcc", "clang"] {
        let program = compiled(name, "c99", "examples/check.c");
        let example = || Command::new(&program);
        check_draws_and(&format!("{name}-check"), example, list_and_word);
        check_full(example());
    }
}

#[test]
fn cpp_example_draws() {
    for name in ["g++", "clang++"] {
        for standard in ["c++11", "c++20"] {
            let program = compiled(name, standard, "examples/draw.cpp");
            check_draws(&format!("{name}-{standard}"), || Command::new(&program));
            check_full(Command::new(&program));
        }
    }
}

#[test]
fn rust_example_draws() {
    let target = folder("languages-rust");
    let mut cargo = Command::new(env!("CARGO"));
    cargo
        .args(["build", "--quiet", "--offline", "--locked"])
        .args(["--package", "strip", "--example", "draw", "--target-dir"])
        .arg(&target);
    output(&mut cargo);
    let program = target.join("debug/examples/draw");
    check_draws("rust", || Command::new(&program));
    check_full(Command::new(&program));
}

#[test]
fn rust_build_tells_in_a_line_that_the_library_is_missing() {
    let empty = folder("languages-rust-missing");
    let mut cargo = Command::new(env!("CARGO"));
    cargo.args(["build", "--offline", "--locked", "--package", "strip"]);
    cargo.arg("--target-dir").arg(empty.join("target"));
    let ended = run_in(&root(), cargo.env("STRIP_LIB_DIR", &empty));
    let said = String::from_utf8_lossy(&ended.stderr);
    assert!(
        !ended.status.success() && said.contains("(exit status: 1)"),
        "{said}"
    );
    let library = empty.join("libstrip.a");
    let line = format!(
        "  {} is missing: build it with make lib, ",
        library.display()
    );
    assert_eq!(said.matches(&line).count(), 1, "{said}");
    assert!(said.trim_end().ends_with("STRIP_LIB_DIR"), "{said}");
    assert!(
        !said.contains("panicked") && !said.contains("RUST_BACKTRACE"),
        "{said}"
    );
}

#[test]
fn python_example_draws() {
    shared_library();
    let example = || {
        let mut python = python();
        python.arg("examples/draw.py");
        python
    };
    check_draws("python", example);
    check_full(example());
}

#[test]
fn python_module_answers() {
    shared_library();
    let mut python = python();
    python.args([
        "-m",
        "unittest",
        "discover",
        "--start-directory",
        "bindings/python",
    ]);
    let tests = run_in(&root(), &mut python);
    let said = String::from_utf8_lossy(&tests.stderr);
    assert!(tests.status.success(), "{said}");
    assert!(
        !said.contains("Ran 0 tests") && !said.contains("skipped"),
        "{said}"
    );
}

#[test]
fn tour_calls_all_functions() {
    for name in ["gcc", "clang"] {
        let program = compiled(name, "c99", "examples/tour.c");
        let sheet = folder(&format!("languages-tour-{name}")).join("stair.sheet");
        fs::write(&sheet, stair(0, PLAIN).bytes()).expect("a sheet can be written");
        let tour = |width: &str| {
            let mut command = Command::new(&program);
            command.arg(&sheet).arg(width);
            command
        };
        let narrowest = "narrowest: width 1, total 2\n";
        let totals = |width: u16, entry: &str| {
            let lines = format!("width 1: total 2\nwidth {width}: {entry}\nwidth 4095: total 0\n");
            format!("{narrowest}{lines}")
        };
        let told = totals(0, "no drawing") + "draw: refused 8 at 0: No drawing exists\n";
        check_ends(&mut tour("0"), 1, &told, 0);
        for width in [1, 2, 3, 4095] {
            let text = printed(&stair(width, PLAIN).bytes());
            let total = text.lines().next().expect("a total");
            let file = "file: 13 bytes, 10 numbers\n";
            let told = totals(width, total) + &format!("{total}\nchecked: yes\n{file}");
            check_ends(&mut tour(&width.to_string()), 0, &told, 0);
        }
        for width in ["4096", "65535", "65536", "99999999999999999999"] {
            let told = "write: refused 4 at 0: A number lies outside its limits\n";
            check_ends(&mut tour(width), 1, &format!("{narrowest}{told}"), 0);
        }
        for width in [
            "", "abc", "48x", "x48", "-1", "+1", " 1", "1 ", "1.5", "0x1",
        ] {
            check_ends(&mut tour(width), 2, "", 1);
        }
        fs::write(&sheet, crossing().bytes()).expect("a sheet can be written");
        let text = "No width from 0 to 4,095 has a drawing";
        let told = format!("narrowest: refused 10 at 0: {text}\n");
        check_ends(&mut tour("1"), 1, &told, 0);
        fs::write(&sheet, REFUSED[2].1).expect("a sheet can be written");
        let text = "A number is not in the fewest bytes, or takes more than two";
        check_ends(
            &mut tour("1"),
            1,
            &format!("read: refused 3 at 3: {text}\n"),
            0,
        );
        fs::remove_file(&sheet).expect("the sheet is there");
        check_ends(&mut tour("1"), 2, "", 1);
        check_ends(&mut Command::new(&program), 2, "", 1);
    }
}
