//! The gate, `.ci/run`, in a small repository of its own with a kit and a cargo that only talk: where
//! all is well its last line is that of `rt ci`, and any fault gives a status and another last line.

mod fakes;
mod tools;

use std::fs;

use fakes::Repository;

/// What `rt ci` says last where all is well.
const VERDICT: &str = "76 passed, 0 failed";

/// The kit: it keeps what it is asked in a file, and makes what the kit would make.
const KIT: &str = r#"
top=${0%/tools/*}
echo "rt $*" >> "$top/asked"
case $1 in
version) cat .ci/kit ;;
ci) echo "rt: ok, all proved; must-fail edits: 9 refused, 0 bad"; echo "76 passed, 0 failed" ;;
lib) mkdir -p out; true > out/libstrip.a ;;
run) mkdir -p out; true > out/place ;;
esac
"#;

/// The command cargo: it says what cargo says of two test files.
const CARGO: &str = r#"
echo "cargo $*" >> asked
for name in one two; do
    echo "     Running tests/$name.rs (target/cargo/$name)"
    echo "test result: ok. 3 passed; 0 failed; 0 ignored; 0 measured; 0 filtered out"
done
"#;

/// Faults of `rt ci`: what is wrong, and what it does in place of the above.
const KIT_FAULTS: [(&str, &str); 8] = [
    (
        "a must-fail edit is bad",
        "echo 'rt: ok; must-fail edits: 8 refused, 1 bad'; echo '76 passed, 0 failed'; exit 0",
    ),
    (
        "a crate is not proved",
        "echo 'rt: FAILED: sheet'; echo '75 passed, 1 failed'; exit 1",
    ),
    ("broken", "echo '76 passed, 0 failed'; exit 2"),
    ("killed", "echo '76 passed, 0 failed'; kill $$"),
    ("nothing said", "exit 0"),
    ("no verdict", "echo 'rt: ok, all proved'; exit 0"),
    (
        "status 0 with a failure",
        "echo '75 passed, 1 failed'; exit 0",
    ),
    (
        "more behind the verdict",
        "echo '76 passed, 0 failed'; echo '1 warning'; exit 0",
    ),
];

/// Faults of cargo: what is wrong, and what it does before or in place of the above.
const CARGO_FAULTS: [(&str, &str); 6] = [
    (
        "a Rust test fails",
        "echo 'test result: FAILED. 2 passed; 1 failed'; exit 101",
    ),
    ("a status behind good words", "trap 'exit 101' EXIT"),
    (
        "a test file does not run",
        "echo ' Running tests/one.rs (x)'; echo 'test result: ok. 3 passed; 0 failed'; exit 0",
    ),
    (
        "a test file runs no test",
        "for name in one two; do echo \" Running tests/$name.rs (x)\"
        echo 'test result: ok. 0 passed; 0 failed'; done; exit 0",
    ),
    (
        "a test is ignored",
        "echo 'test result: ok. 3 passed; 0 failed; 1 ignored; 0 measured; 0 filtered out'",
    ),
    (
        "a test is filtered out",
        "echo 'test result: ok. 3 passed; 0 failed; 0 ignored; 0 measured; 1 filtered out'",
    ),
];

/// What the fake cargo answers first: the test of tools asks for its version.
const CARGO_VERSION: &str = "[ \"$1\" != --version ] || { echo cargo 1.78.0; exit 0; }\n";

/// A repository with two test files, in which all is well.
fn repository(name: &str) -> Repository {
    let repository = Repository::new(&format!("gate-{name}"));
    repository.command("rt", KIT);
    repository.command("cargo", &format!("{CARGO_VERSION}{CARGO}"));
    repository.program("tests/tests/one.rs", "");
    repository.program("tests/tests/two.rs", "");
    // the library and the program are built by the rules of the Makefile
    repository.system_command("make");
    fs::copy(tools::root().join("Makefile"), repository.path("Makefile")).expect("the Makefile");
    for folder in ["crates/strip", "crates/place"] {
        fs::create_dir_all(repository.path(folder)).expect("folders can be made");
    }
    repository
}

/// Runs the gate: whether it ends well, and what it says, all on its standard output.
fn run(repository: &Repository) -> (bool, String) {
    let (success, [said, errors]) = repository.run(".ci/run", &[], &[]);
    assert_eq!(errors, "");
    (success, said)
}

#[test]
fn last_line_is_that_of_rt_ci() {
    let repository = repository("well");
    let (success, said) = run(&repository);
    assert!(success, "{said}");
    let lines: Vec<&str> = said.lines().rev().take(2).collect();
    assert_eq!(lines, [VERDICT, ".ci/run: 0 tests were skipped"]);
    assert!(said.contains("rt: ok, all proved"));
    assert_eq!(said.matches("test result: ok.").count(), 2);
    let expected = "rt version\nrt ci\nrt lib\nrt run\ncargo test --release --offline --locked\n";
    assert_eq!(repository.asked(), expected);
    repository.check_nothing_left();
}

/// Runs the gate with a fault: it must have a status, and say last what is wrong.
fn check_fault(fault: &str, command: &str, text: &str) {
    let name = format!("{command} {fault}").replace(' ', "-");
    let repository = repository(&name);
    repository.command(command, text);
    let (success, said) = run(&repository);
    assert!(!success, "{command}, {fault}: {said}");
    let last = said.lines().last().expect("a line");
    assert!(last.starts_with(".ci/run: "), "{command}, {fault}: {said}");
}

#[test]
fn faults_of_rt_ci_are_told() {
    for (fault, text) in KIT_FAULTS {
        check_fault(fault, "rt", &format!("case $1 in ci) {text} ;; esac{KIT}"));
    }
}

#[test]
fn a_library_or_a_program_that_is_not_built_is_told() {
    for verb in ["lib", "run"] {
        check_fault(
            verb,
            "rt",
            &format!("case $1 in {verb}) exit 1 ;; esac{KIT}"),
        );
        let nothing = format!("case $1 in {verb}) exit 0 ;; esac{KIT}");
        check_fault(&format!("{verb} made"), "rt", &nothing);
    }
}

#[test]
fn what_an_earlier_run_left_is_told() {
    let repository = repository("left");
    fs::create_dir(repository.path("target")).expect("a folder can be made");
    let (success, said) = run(&repository);
    assert!(!success, "{said}");
    let last = ".ci/run: target/ stands in the way of rt ci: make clean";
    assert_eq!(said.lines().last(), Some(last));
    assert_eq!(repository.asked(), "rt version\n");
}

#[test]
fn faults_of_the_rust_tests_are_told() {
    for (fault, text) in CARGO_FAULTS {
        check_fault(fault, "cargo", &format!("{CARGO_VERSION}{text}{CARGO}"));
    }
}

#[test]
fn skipped_tests_are_counted() {
    let repository = repository("skipped");
    let tests = CARGO.replace("0 ignored", "2 ignored");
    repository.command("cargo", &format!("{CARGO_VERSION}{tests}"));
    let (success, said) = run(&repository);
    assert!(!success, "{said}");
    let last = said.lines().last();
    assert_eq!(last, Some(".ci/run: 4 tests were skipped"));
}

#[test]
fn missing_tools_are_told_before_any_proof() {
    let repository = repository("tools");
    let missing = ["valgrind", "clang", "pkg-config"];
    for name in missing {
        repository.hide(name);
    }
    repository.user(0); // who could install them
    repository.command("apt-get", "echo \"apt-get $*\" >> asked\n");
    let (success, said) = run(&repository);
    assert!(!success, "{said}");
    for name in missing {
        let line = format!("\n    {name:11} is not on the PATH; Debian: {name}\n");
        assert!(said.contains(&line), "{said}");
    }
    let last = said.lines().last();
    assert_eq!(last, Some(".ci/run: something is missing, see above"));
    assert_eq!(repository.asked(), "rt version\n");
    repository.check_nothing_left();
}
