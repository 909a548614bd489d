//! Compilers and other programs, run from the root of the repository. Not every test file needs all
//! of them.

use std::fs;
use std::path::{Path, PathBuf};
use std::process::{Command, Output};
use std::sync::Once;

use strip_tests::declare::{parse, Item};

/// The header and the static library, as a compiler takes them.
#[allow(dead_code)]
pub const LIBRARY: [&str; 2] = ["-Icrates/strip/include", "target/staticlib/libstrip.a"];

#[allow(unused_imports)]
pub use strip_tests::declare::HEADER;

/// The root of the repository.
pub fn root() -> PathBuf {
    Path::new(env!("CARGO_MANIFEST_DIR")).join("..")
}

/// An empty folder for a test; names differ between tests.
#[allow(dead_code)]
pub fn folder(name: &str) -> PathBuf {
    let folder = Path::new(env!("CARGO_TARGET_TMPDIR")).join(name);
    if folder.exists() {
        fs::remove_dir_all(&folder).expect("the folder of an earlier run can be removed");
    }
    fs::create_dir_all(&folder).expect("a folder can be made");
    folder
}

/// What a command leaves, run in a folder. It must be there.
pub fn run_in(folder: &Path, command: &mut Command) -> Output {
    match command.current_dir(folder).output() {
        Ok(output) => output,
        Err(error) => panic!("cannot run {:?}: {error}", command.get_program()),
    }
}

/// What a command prints. It must be there and succeed.
#[allow(dead_code)]
pub fn output(command: &mut Command) -> String {
    let output = run_in(&root(), command);
    let printed = String::from_utf8_lossy(&output.stdout);
    assert!(
        output.status.success(),
        "{command:?}: {}\n{printed}{}",
        output.status,
        String::from_utf8_lossy(&output.stderr)
    );
    printed.into_owned()
}

/// The `constants`, the `refusals` or the `functions` of the header, in its order.
#[allow(dead_code)]
pub fn header(kind: &str) -> Vec<Item> {
    let text = fs::read_to_string(root().join(HEADER)).expect("the header");
    let mut header = parse(&text).expect("a header that can be read");
    header.remove(kind).expect(kind)
}

/// The names of all functions of the header, in alphabetical order.
#[allow(dead_code)]
pub fn functions() -> Vec<String> {
    let mut names: Vec<String> = header("functions").iter().map(name).collect();
    names.sort_unstable();
    names
}

/// The name of an item of the header.
fn name(item: &Item) -> String {
    item["name"].clone()
}

/// The numbers of constants or refusals of the header, by their names without `STRIP_`.
#[allow(dead_code)]
pub fn numbers(kind: &str) -> Vec<(String, u32)> {
    let number = |item: &Item| item["number"].parse().expect("a number");
    let items = header(kind);
    items
        .iter()
        .map(|item| (name(item), number(item)))
        .collect()
}

/// A command that compiles and allows no warning.
#[allow(dead_code)]
pub fn compiler(name: &str, standard: &str) -> Command {
    let mut command = Command::new(name);
    command.arg(format!("-std={standard}"));
    command.args(["-Wall", "-Wextra", "-pedantic", "-Werror"]);
    command
}

/// The command make, on its own even where make runs the tests.
#[allow(dead_code)]
pub fn make() -> Command {
    let mut command = Command::new("make");
    for name in ["MAKEFLAGS", "MFLAGS", "MAKELEVEL", "MAKEOVERRIDES"] {
        command.env_remove(name);
    }
    command
}

/// What makes make ask no kit: what is there stays as it is, and the shared library is linked of it.
#[allow(dead_code)]
pub const NO_KIT: &str = "RT=exit 0;";

/// Makes the shared library of the static one that is there, once in a test file.
#[allow(dead_code)]
pub fn shared_library() {
    static MADE: Once = Once::new();
    MADE.call_once(|| {
        output(make().args(["lib", NO_KIT]));
    });
}

/// The command python3, which finds the module `strip` and leaves no files beside it.
#[allow(dead_code)]
pub fn python() -> Command {
    let mut command = Command::new("python3");
    command.env("PYTHONPATH", "bindings/python");
    command.env("PYTHONDONTWRITEBYTECODE", "1");
    command.env_remove("STRIP_LIBRARY");
    command
}

/// The module and the name of each function that a line `pub use MODULE::..` hands on.
#[allow(dead_code)]
pub fn handed_on(line: &str) -> Vec<(String, String)> {
    let Some(path) = line.strip_prefix("pub use ") else {
        return Vec::new();
    };
    let path = path.trim_end_matches(';').trim_start_matches("crate::");
    let (module, names) = path.rsplit_once("::").expect("a module and a name");
    let names = names.trim_start_matches('{').trim_end_matches('}');
    let pair = |name: &str| (module.to_string(), name.to_string());
    names.split(", ").map(pair).collect()
}

/// The contract of a function: what stands between its signature and its body.
#[allow(dead_code)]
pub fn contract(text: &str, name: &str) -> Option<String> {
    let (_, rest) = text.split_once(&format!("fn {name}("))?;
    let header = rest.lines().take_while(|line| !line.ends_with('{'));
    let signature = |line: &&str| {
        let word = line.split_whitespace().next();
        !matches!(word, Some("requires" | "ensures"))
    };
    let contract: Vec<&str> = header.skip_while(signature).collect();
    (!contract.is_empty()).then(|| contract.join("\n"))
}
