//! The Makefile, in a small repository of its own with a kit that writes down what it is asked.

mod tools;

use std::collections::BTreeMap;
use std::env;
use std::fs::{self, File};
use std::path::{Path, PathBuf};
use std::process::{Command, Output};
use std::time::{Duration, SystemTime};

use tools::{folder, make, root, run_in};

/// The kit of these tests: it keeps in a file what it is asked in which crate's folder, and makes what
/// the kit would make. Like the kit it writes the archive anew each time, and leaves a program that
/// is there.
const KIT: &str = r#"
top=${0%/*}
echo "${PWD##*/} $*" >> "$top/asked"
mkdir -p out
case $1 in
lib) cp "$top/archive.a" out/libstrip.a ;;
run) if [ ! -e out/place ]; then cp "$top/archive.a" out/place; fi ;;
esac
"#;

/// The gate of these tests.
const GATE: &str = "#!/bin/sh\necho 1 passed, 0 failed\n";

/// The test of tools of these tests: it keeps what it is asked, and something is missing if a file
/// says so.
const NEEDS: &str = "#!/bin/sh\necho \"needs $*\" >> asked\n[ ! -e missing ]\n";

/// Files of the repository that the Makefile uses.
const FILES: [&str; 13] = [
    "Makefile",
    "crates.txt",
    "crates/strip/include/strip.h",
    "crates/strip/strip.pc.in",
    "crates/strip/strip-config.cmake.in",
    "crates/strip/strip-config-version.cmake.in",
    "crates/strip/exports.map",
    "examples/check.c",
    "examples/panel.sheet",
    "LICENSE",
    "docs/FORMAT.md",
    "docs/REFUSALS.md",
    "docs/LIBRARY.md",
];

/// Sources of the library, of the program, and of both.
const SOURCES: [&str; 3] = [
    "crates/strip/src/lib.rt",
    "crates/place/src/main.rt",
    "crates/sheet/specs/Sheet.antt",
];

/// What there is to install.
const BUILT: [&str; 3] = [
    "target/staticlib/libstrip.a",
    "target/lib/libstrip.so.0",
    "target/bin/place",
];

/// A small repository.
struct Repository {
    folder: PathBuf,
}

impl Repository {
    /// One in an empty folder, with nothing built.
    fn new(name: &str) -> Repository {
        let folder = folder(&format!("make-{name}"));
        let repository = Repository { folder };
        for file in FILES {
            let contents = fs::read(root().join(file)).expect(file);
            repository.write(file, &contents);
        }
        for file in SOURCES {
            repository.write(file, b"");
        }
        repository.write("rt", KIT.as_bytes());
        repository.program(".ci/run", GATE);
        repository.program(".ci/needs", NEEDS);
        repository.archive(1);
        repository
    }

    /// Writes a file, and the folders that it is in.
    fn write(&self, file: &str, contents: &[u8]) {
        let path = self.folder.join(file);
        fs::create_dir_all(path.parent().expect("a folder")).expect("folders can be made");
        fs::write(path, contents).expect(file);
    }

    /// Writes a file that can be run.
    fn program(&self, file: &str, text: &str) {
        self.write(file, text.as_bytes());
        self.output(Command::new("chmod").args(["755", file]));
    }

    /// The archive that the kit makes from here on; its functions return a number.
    fn archive(&self, number: u64) {
        let names = ["read", "write", "draw", "check"];
        let function = |name| format!("long strip_{name}(void) {{ return {number}; }}\n");
        self.write("code.c", names.map(function).concat().as_bytes());
        let mut compiler = Command::new("gcc");
        self.output(compiler.args(["-c", "-fPIC", "code.c", "-o", "code.o"]));
        let _ = fs::remove_file(self.folder.join("archive.a"));
        self.output(Command::new("ar").args(["rcD", "archive.a", "code.o"]));
    }

    /// Runs a command that must succeed here.
    fn output(&self, command: &mut Command) -> String {
        let output = run_in(&self.folder, command);
        assert!(output.status.success(), "{command:?}: {output:?}");
        String::from_utf8_lossy(&output.stdout).into_owned()
    }

    /// What tells make that a file here is the kit's command.
    fn kit(&self, file: &str) -> String {
        format!("RT=sh {}", self.folder.join(file).display())
    }

    /// Runs make here, with the kit of these tests.
    fn run(&self, arguments: &[&str]) -> Output {
        run_in(&self.folder, make().arg(self.kit("rt")).args(arguments))
    }

    /// What make says on standard error; it must succeed or fail as told.
    fn said(&self, arguments: &[&str], success: bool) -> String {
        let output = self.run(arguments);
        assert_eq!(output.status.success(), success, "{output:?}");
        String::from_utf8_lossy(&output.stderr).into_owned()
    }

    /// What the kit was asked since the last time.
    fn asked(&self) -> Vec<String> {
        let path = self.folder.join("asked");
        let text = fs::read_to_string(&path).unwrap_or_default();
        let _ = fs::remove_file(path);
        text.lines().map(str::to_owned).collect()
    }

    /// Sets the time of a file, so many seconds ago.
    fn date(&self, file: &str, seconds: u64) {
        let file = File::options().write(true).open(self.folder.join(file));
        let time = SystemTime::now() - Duration::from_secs(seconds);
        file.and_then(|file| file.set_modified(time))
            .expect("a file that is ours");
    }

    /// The contents of a file.
    fn read(&self, file: &str) -> Vec<u8> {
        fs::read(self.folder.join(file)).expect(file)
    }

    /// Whether a file or folder is there.
    fn has(&self, file: impl AsRef<Path>) -> bool {
        self.folder.join(file).exists()
    }
}

#[test]
fn kit_is_asked_each_time() {
    let repository = Repository::new("asked");
    for _ in 0..2 {
        assert_eq!(repository.said(&[], true), "");
        assert_eq!(repository.asked(), ["place run", "strip lib"]);
    }
    for file in BUILT {
        assert!(repository.has(file), "{file}");
    }
    repository.said(&["lib"], true);
    assert_eq!(repository.asked(), ["strip lib"]);
}

#[test]
fn shared_library_is_that_of_the_archive() {
    let repository = Repository::new("changed");
    let shared = |number| {
        repository.archive(number);
        repository.said(&["lib"], true);
        repository.read("target/lib/libstrip.so.0")
    };
    let (first, second) = (shared(1), shared(2));
    assert_ne!(first, second);
    assert_eq!(shared(1), first);
}

#[test]
fn a_kit_that_fails_ends_make() {
    let repository = Repository::new("fails");
    repository.said(&[], true);
    let shared = repository.read("target/lib/libstrip.so.0");
    repository.archive(2);
    repository.write("rt", b"exit 1\n");
    repository.said(&[], false);
    assert_eq!(repository.read("target/lib/libstrip.so.0"), shared);
}

#[test]
fn install_builds_nothing() {
    let repository = Repository::new("install");
    for missing in BUILT {
        let said = repository.said(&["install", "DESTDIR=to"], false);
        let line = format!("make install: {missing} is missing, build it with: make");
        assert_eq!(said.lines().next(), Some(&line[..]));
        assert!(!repository.has("to"));
        repository.write(missing, b"");
    }
    assert_eq!(repository.said(&["install", "DESTDIR=to"], true), "");
    assert!(repository.has("to/usr/local/bin/place"));
    assert!(repository.asked().is_empty());
}

#[test]
fn install_tells_what_is_older_than_its_sources() {
    let repository = Repository::new("stale");
    repository.said(&[], true);
    let told = || repository.said(&["install", "DESTDIR=to"], true);
    let line = |files: &[&str]| {
        let text = "older than the sources, installed all the same (build anew with: make)";
        format!("make install: {text}: {}\n", files.join(" "))
    };
    assert_eq!(told(), "");
    for file in SOURCES.iter().chain(&FILES) {
        repository.date(file, 1000);
    }
    for (source, stale) in SOURCES.iter().zip([&BUILT[..2], &BUILT[2..], &BUILT]) {
        for file in BUILT {
            repository.date(file, 500);
        }
        assert_eq!(told(), "");
        repository.date(source, 100);
        assert_eq!(told(), line(stale));
        repository.said(&[], true);
        assert_eq!(told(), "");
        repository.date(source, 1000);
    }
}

#[test]
fn paths_with_a_space_are_installed_to_or_refused() {
    let repository = Repository::new("space");
    repository.said(&[], true);
    for target in ["install", "uninstall"] {
        for (variable, path) in [
            ("PREFIX=/some where", "/some where/bin"),
            ("LIBDIR=/some\twhere", "/some\twhere"),
        ] {
            let said = repository.said(&[target, variable, "DESTDIR=to"], false);
            let reason = "has a space: compilers cannot take such a path from strip.pc";
            let line = format!("make {target}: '{path}' {reason}");
            assert_eq!(said.lines().next(), Some(&line[..]));
        }
        let said = repository.said(&[target, "PREFIX=here", "DESTDIR=to"], false);
        let line = format!("make {target}: 'here/bin' is no absolute path");
        assert_eq!(said.lines().next(), Some(&line[..]));
    }
    assert!(!repository.has("to"));
    for (target, there) in [("install", true), ("uninstall", false)] {
        repository.said(&[target, "DESTDIR=some where"], true);
        assert_eq!(repository.has("some where/usr/local/lib/libstrip.a"), there);
    }
}

#[test]
fn help_has_every_target() {
    let repository = Repository::new("help");
    let help = repository.output(make().arg("help"));
    for target in [
        "demo",
        "lib",
        "install",
        "uninstall",
        "times",
        "check",
        "clean",
        "help",
    ] {
        let start = format!("make {target} ");
        assert!(help.lines().any(|line| line.starts_with(&start)), "{help}");
    }
}

#[test]
fn times_are_those_of_a_copy() {
    let repository = Repository::new("times");
    repository.write(
        "crates.txt",
        b"# NAME: what it uses\nleb128:\nsheet: leb128\n",
    );
    repository.write("crates/leb128/src/lib.rt", b"");
    repository.write(
        "kit",
        b"[ \"$1\" = verdict ] && [ -e ../../crates.txt ] && [ ! -e ../../Makefile ]\n",
    );
    // a clock on which the crates take 6 and 25 seconds
    let clock =
        "#!/bin/sh\nread -r now rest < \"$CLOCK\"\necho \"$rest\" > \"$CLOCK\"\necho \"$now\"\n";
    repository.program("tools/date", clock);
    repository.write("clock", b"10 16 20 45\n");
    for edit in ["one", "two"] {
        repository.write(&format!("crates/sheet/must-fail/{edit}.edit"), b"");
    }
    let times = || {
        let path = env::var("PATH").expect("a PATH");
        let path = format!("{}:{path}", repository.folder.join("tools").display());
        let mut command = make();
        command
            .env("PATH", path)
            .env("CLOCK", repository.folder.join("clock"));
        command.arg(repository.kit("kit")).arg("times");
        run_in(&repository.folder, &mut command)
    };
    let output = times();
    assert!(output.status.success(), "{output:?}");
    let printed = String::from_utf8_lossy(&output.stdout);
    let words = |line: &str| line.split_whitespace().collect::<Vec<_>>().join(" ");
    let printed: Vec<String> = printed.lines().map(words).collect();
    let rows = ["leb128 6 s 0 0 s", "sheet 25 s 2 50 s", "sum 31 s 2 50 s"];
    assert_eq!(printed[0], "crate check edits check x edits");
    assert_eq!(printed[1..], rows);
    repository.write("kit", b"echo sheet: NOT PROVED\nexit 1\n");
    let failed = times();
    assert!(!failed.status.success());
    assert!(String::from_utf8_lossy(&failed.stderr).contains("NOT PROVED"));
    assert!(!repository.has("target"));
}

#[test]
fn check_is_the_gate() {
    let repository = Repository::new("check");
    let printed = repository.output(make().arg("check"));
    assert_eq!(printed.lines().last(), Some("1 passed, 0 failed"));
    assert_eq!(repository.asked(), ["needs --install check"]);
}

#[test]
fn demo_tests_the_tools_and_builds_all() {
    let repository = Repository::new("demo");
    repository.archive(8 << 32); // a library that refuses every sheet ends the demo
    let output = repository.run(&["demo"]);
    assert!(!output.status.success(), "{output:?}");
    let printed = String::from_utf8_lossy(&output.stdout);
    assert!(printed.ends_with("\nrefused 8 at 0\n"), "{printed}");
    let asked = ["needs --install demo", "place run", "strip lib"];
    assert_eq!(repository.asked(), asked);
    for file in BUILT {
        assert!(repository.has(file), "{file}");
    }
}

#[test]
fn nothing_is_built_if_something_is_missing() {
    let repository = Repository::new("missing");
    repository.write("missing", b"");
    for target in ["demo", "check"] {
        repository.said(&[target], false);
        assert_eq!(repository.asked(), [format!("needs --install {target}")]);
        assert!(!repository.has("target"));
    }
}

#[test]
fn flags_of_the_caller_reach_the_linker() {
    let repository = Repository::new("flags");
    for name in ["CFLAGS", "LDFLAGS"] {
        let flags = format!("{name}=-Wl,-Map={name}");
        repository.said(&["lib", &flags], true);
        assert!(repository.has(name), "{flags}");
    }
}

/// The files below a folder, with their contents; those of a link are what it leads to.
fn installed(folder: &Path) -> BTreeMap<PathBuf, Vec<u8>> {
    let mut found = BTreeMap::new();
    let mut folders = vec![folder.to_owned()];
    while let Some(from) = folders.pop() {
        for entry in fs::read_dir(from).expect("a folder") {
            let path = entry.expect("an entry").path();
            match fs::read(&path) {
                Ok(contents) => {
                    let below = path.strip_prefix(folder).expect("it is below");
                    found.insert(below.to_owned(), contents);
                }
                Err(_) => folders.push(path),
            }
        }
    }
    found
}

#[test]
fn paths_have_names_in_small_letters_and_capitals() {
    let repository = Repository::new("names");
    repository.said(&[], true);
    let install = |name: &str, variables: &[&str]| {
        let destination = format!("DESTDIR={name}");
        let arguments = [&["install", &destination], variables].concat();
        assert_eq!(repository.said(&arguments, true), "");
        let files = installed(&repository.folder.join(name));
        let arguments = [&["uninstall", &destination], variables].concat();
        assert_eq!(repository.said(&arguments, true), "");
        assert_eq!(installed(&repository.folder.join(name)), BTreeMap::new());
        files
    };
    let check = |files: &BTreeMap<PathBuf, Vec<u8>>, paths: &str| {
        for path in paths.split(' ') {
            assert!(files.contains_key(Path::new(path)), "{path}");
        }
    };
    let small = install("a", &["prefix=/p"]);
    assert_eq!(small, install("b", &["PREFIX=/p"]));
    assert_eq!(small, install("c", &["prefix=/other", "PREFIX=/p"]));
    check(&small, "p/bin/place p/include/strip.h p/lib/libstrip.a");
    check(&small, "p/share/doc/strip/LICENSE");
    let small = install(
        "d",
        &["bindir=/b", "includedir=/i", "libdir=/l/m", "docdir=/d"],
    );
    let capital = install(
        "e",
        &["BINDIR=/b", "INCLUDEDIR=/i", "LIBDIR=/l/m", "DOCDIR=/d"],
    );
    assert_eq!(small, capital);
    check(&small, "b/place i/strip.h l/m/libstrip.so.0 d/FORMAT.md");
    check(&small, "l/m/pkgconfig/strip.pc");
    let config = &small[Path::new("l/m/cmake/strip/strip-config.cmake")];
    let header = "\"${strip_folder}/../../../../i\"";
    assert!(String::from_utf8_lossy(config).contains(header));
    let parts = install("f", &["exec_prefix=/e", "datarootdir=/r"]);
    check(
        &parts,
        "e/bin/place e/lib/libstrip.a usr/local/include/strip.h",
    );
    check(&parts, "r/doc/strip/LIBRARY.md r/doc/strip/REFUSALS.md");
}

#[test]
fn clean_takes_away_what_was_built() {
    let repository = Repository::new("clean");
    repository.said(&[], true);
    repository.said(&["clean"], true);
    assert!(!repository.has("target"));
    assert!(SOURCES.iter().all(|file| repository.has(file)));
}
