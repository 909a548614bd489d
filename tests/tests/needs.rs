//! `.ci/needs`, the test of everything that `make demo` and the gate need, with commands that only
//! talk: what is missing is told at once, and installed if that is asked for and allowed.

mod fakes;
mod tools;

use std::fs;
use std::path::Path;

use fakes::{Repository, NEEDED};
use tools::root;

/// The test of tools.
const NEEDS: &str = ".ci/needs";

/// What the line to type begins with.
const LINE: &str = "    apt-get update && apt-get install --no-install-recommends ";

/// A command that installs what is hidden, and keeps what it is asked in a file.
const APT_GET: &str = r#"
echo "apt-get $*" >> asked
[ "$1" = update ] || mv hidden/* tools/
"#;

/// A repository in which nothing is missing.
fn repository(name: &str) -> Repository {
    Repository::new(&format!("needs-{name}"))
}

/// Runs the test of tools: whether it ends well, and what it says, all on its standard error.
fn run(repository: &Repository, arguments: &[&str], set: &[(&str, &str)]) -> (bool, String) {
    let (success, [printed, said]) = repository.run(NEEDS, arguments, set);
    assert_eq!(printed, "");
    repository.check_nothing_left();
    (success, said)
}

/// What is said to a set that lacks something; that must be the first line's set.
fn missing(repository: &Repository, set: &str) -> Vec<String> {
    let (success, said) = run(repository, &[set], &[]);
    assert!(!success, "{said}");
    let mut lines = said.lines().map(str::to_owned);
    let first = format!(".ci/needs: missing for make {set}:");
    assert_eq!(lines.next(), Some(first));
    lines.collect()
}

/// The packages in a line to type, the last one said.
fn packages(said: &[String]) -> &str {
    let line = said.last().expect("a line");
    line.strip_prefix(LINE).expect(line)
}

#[test]
fn nothing_is_said_if_nothing_is_missing() {
    let repository = repository("well");
    for set in ["demo", "check"] {
        for arguments in [&[set][..], &["--install", set]] {
            assert_eq!(run(&repository, arguments, &[]), (true, String::new()));
        }
    }
}

#[test]
fn each_missing_command_is_told_with_its_packages() {
    for (name, debian) in NEEDED {
        let repository = repository(&format!("without-{name}"));
        repository.hide(name);
        let said = missing(&repository, "check");
        let line = format!("    {name:11} is not on the PATH; Debian: {debian}");
        assert_eq!((said.len(), &said[0]), (3, &line), "{said:?}");
        assert_eq!(packages(&said), debian);
        let enough = run(&repository, &["demo"], &[]).0;
        assert_eq!(enough, !["make", "cc"].contains(&name), "{name}");
    }
}

#[test]
fn all_that_is_missing_is_told_at_once() {
    let repository = repository("without-all");
    for (name, _) in NEEDED {
        repository.hide(name);
    }
    repository.hide("rt");
    let said = missing(&repository, "check");
    let names = NEEDED.map(|(name, _)| name).into_iter().chain(["rt"]);
    for name in names {
        let start = format!("    {name:11} ");
        let lines = said.iter().filter(|line| line.starts_with(&start));
        assert_eq!(lines.count(), 1, "{name}: {said:?}");
    }
    let mut words: Vec<&str> = NEEDED.iter().flat_map(|(_, all)| all.split(' ')).collect();
    words.sort_unstable();
    words.dedup();
    assert_eq!(packages(&said), words.join(" "));
}

#[test]
fn commands_that_do_not_work_are_told() {
    let faults = [
        ("cc", "builds no C program"),
        ("gcc", "builds no C program"),
        ("clang", "builds no C program"),
        ("c++", "builds no C++ program"),
        ("g++", "builds no C++ program"),
        ("clang++", "builds no C++ program"),
        ("cargo", "does not run"),
        ("rustc", "does not run"),
        ("python3", "lacks ctypes or unittest"),
        ("valgrind", "does not run"),
    ];
    for (name, fault) in faults {
        let repository = repository(&format!("broken-{name}"));
        repository.command(name, "exit 1\n");
        let said = missing(&repository, "check");
        let line = format!("    {name:11} {fault}; Debian: ");
        assert!(said[0].starts_with(&line), "{said:?}");
    }
}

#[test]
fn old_versions_are_told_and_later_ones_are_enough() {
    let repository = repository("versions");
    let check = |version: &str, enough: bool| {
        for (system, suffix) in [("12", "-web"), ("13", "")] {
            repository.system("debian", system);
            let text = format!("echo \"${{0##*/}} {version} (0123abcd 2022-08-05)\"\n");
            for name in ["cargo", "rustc"] {
                repository.command(name, &text);
            }
            if enough {
                assert_eq!(run(&repository, &["check"], &[]), (true, String::new()));
                continue;
            }
            let said = missing(&repository, "check");
            assert_eq!(packages(&said), format!("cargo{suffix} rustc{suffix}"));
            let part = format!("has version {version}, 1.78 is the least");
            assert!(said[0].contains(&part) && said[1].contains(&part));
        }
    };
    for version in ["1.63.0", "1.9.0", "1.77.2", "0.99.0"] {
        check(version, false);
    }
    for version in ["1.78.0", "1.95.0", "1.100.0", "2.0.0"] {
        check(version, true);
    }
}

#[test]
fn a_missing_kit_is_told_with_what_it_is() {
    let repository = repository("kit-none");
    let pin = fs::read_to_string(root().join(".ci/kit")).expect("the pin");
    let other = [("RT", "sh kit")];
    fs::write(repository.path("kit"), "cat .ci/kit\n").expect("a kit");
    repository.hide("rt");
    for set in ["demo", "check"] {
        let said = missing(&repository, set).join("\n");
        assert!(said.starts_with("    rt          does not run."), "{said}");
        assert!(said.contains("the Rattle kit, which has the compiler and the"));
        assert!(said.contains(pin.trim()) && !said.contains("apt-get"));
        assert_eq!(run(&repository, &[set], &other), (true, String::new()));
    }
}

#[test]
fn another_kit_gets_a_warning() {
    let repository = repository("kit-other");
    let pin = fs::read_to_string(root().join(".ci/kit")).expect("the pin");
    for version in ["rattle-kit-9", ""] {
        repository.command("rt", &format!("echo \"{version}\"\n"));
        let (success, said) = run(&repository, &["demo"], &[]);
        assert!(success, "{said}");
        let line = format!(
            ".ci/needs: warning: the kit's version is '{version}', everything here is proved with '{}'\n",
            pin.trim()
        );
        assert_eq!(said, line);
    }
}

#[test]
fn another_machine_is_told() {
    for (name, says, line) in [
        (
            "uname",
            "Linux aarch64",
            "    system      is Linux aarch64, the kit's programs run on Linux x86_64",
        ),
        (
            "getconf",
            "glibc 2.31",
            "    glibc       has version 2.31, 2.34 is the least",
        ),
    ] {
        let repository = repository(name);
        repository.command(name, &format!("echo {says}\n"));
        assert_eq!(missing(&repository, "demo"), [line]);
    }
}

/// A repository without two commands, with apt-get, as root on Debian 12.
fn to_install(name: &str) -> Repository {
    let repository = repository(&format!("install-{name}"));
    repository.hide("valgrind");
    repository.hide("cc");
    repository.command("apt-get", APT_GET);
    repository.user(0);
    repository
}

#[test]
fn root_installs_what_is_missing_on_debian() {
    let repository = to_install("root");
    let (success, said) = run(&repository, &["--install", "check"], &[]);
    assert!(success, "{said}");
    let told = ".ci/needs: installing (SETUP=no forbids it): gcc libc6-dev valgrind\n";
    assert!(said.contains(told), "{said}");
    assert!(said.ends_with(".ci/needs: all is there now\n"), "{said}");
    let install = "apt-get install --yes --no-install-recommends gcc libc6-dev valgrind";
    assert_eq!(repository.asked(), format!("apt-get update\n{install}\n"));
}

/// Checks that nothing is installed, and that the line to type is the last one.
fn check_only_told(repository: &Repository, arguments: &[&str], set: &[(&str, &str)]) {
    let (success, said) = run(repository, arguments, set);
    assert!(!success, "{said}");
    let said: Vec<String> = said.lines().map(str::to_owned).collect();
    assert_eq!(packages(&said), "gcc libc6-dev valgrind");
    assert_eq!(repository.asked(), "");
}

#[test]
fn others_are_told_the_line_to_type() {
    let install = ["--install", "check"];
    check_only_told(&to_install("not-asked"), &install[1..], &[]);
    check_only_told(&to_install("forbidden"), &install, &[("SETUP", "no")]);
    let repository = to_install("user");
    repository.user(1000);
    check_only_told(&repository, &install, &[]);
    let repository = to_install("system");
    repository.system("fedora", "40");
    check_only_told(&repository, &install, &[]);
    fs::remove_file(repository.path("os-release")).expect("a file");
    check_only_told(&repository, &install, &[]);
    let repository = to_install("kit");
    repository.hide("rt");
    check_only_told(&repository, &install, &[]);
}

#[test]
fn an_installation_that_does_not_help_is_told() {
    for (apt_get, last) in [
        ("exit 100\n", ".ci/needs: apt-get failed"),
        ("exit 0\n", &format!("{LINE}gcc libc6-dev valgrind")),
    ] {
        let repository = to_install(last.split(' ').nth(1).unwrap_or("nothing"));
        repository.command("apt-get", apt_get);
        let (success, said) = run(&repository, &["--install", "check"], &[]);
        assert!(!success, "{said}");
        assert_eq!(said.lines().last(), Some(last));
    }
}

#[test]
fn no_other_set_is_known() {
    let repository = repository("usage");
    for arguments in [&[][..], &["--install"], &["all"], &["demo", "check"]] {
        let (success, said) = run(&repository, arguments, &[]);
        assert!(!success);
        assert_eq!(said, ".ci/needs: usage: .ci/needs [--install] demo|check\n");
    }
}

/// The text of a file of the repository.
fn text(file: impl AsRef<Path>) -> String {
    let path = root().join(file);
    fs::read_to_string(&path).unwrap_or_else(|error| panic!("{path:?}: {error}"))
}

#[test]
fn least_version_of_rust_is_that_of_all_packages() {
    let script = text(NEEDS);
    let line = script
        .lines()
        .find_map(|line| line.strip_prefix("least_rust="));
    let line = format!("\nrust-version = \"{}\"\n", line.expect("a version"));
    for folder in ["bindings/rust", "second", "tests", "tests/compare", "fuzz"] {
        let package = text(Path::new(folder).join("Cargo.toml"));
        assert!(package.contains(&line), "{folder}");
    }
}

/// The text of all Rust files below a folder.
fn rust(folder: &Path) -> String {
    let mut found = String::new();
    for entry in fs::read_dir(folder).expect("a folder") {
        let path = entry.expect("an entry").path();
        if path.is_dir() {
            found += &rust(&path);
        } else if path.extension().is_some_and(|end| end == "rs") {
            found += &text(path);
        }
    }
    found
}

#[test]
fn commands_of_the_tests_are_tested_or_of_every_system() {
    const EVERY_SYSTEM: [&str; 5] = ["bash", "chmod", "sh", "sleep", "true"];
    let mut count = 0;
    for start in ["Command::new(\"", "compiler(\""] {
        for part in rust(&root().join("tests")).split(start).skip(1) {
            let (name, _) = part.split_once('"').expect("a name");
            let needed = NEEDED.iter().any(|(needed, _)| *needed == name);
            assert!(needed || EVERY_SYSTEM.contains(&name), "{name}");
            count += 1;
        }
    }
    assert!(count > 15, "{count} commands");
}
