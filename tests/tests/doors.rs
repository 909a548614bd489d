//! Public calls and doors. A public call, a `pub fn` at a crate's root, asks for nothing and has a
//! contract. Any other function that can be called from outside stands behind the module `inside`,
//! and only the crates that docs/ARCHITECTURE.md names for that door use it.

mod tools;

use std::collections::{BTreeMap, BTreeSet};
use std::fs;
use std::path::Path;

/// The code of a crate: the text of each module by its path, `lib` for the root.
type Modules = BTreeMap<String, String>;

/// The modules in a folder, whose names begin so.
fn modules(folder: &Path, prefix: &str, found: &mut Modules) {
    for entry in fs::read_dir(folder).expect("a folder of code") {
        let path = entry.expect("an entry").path();
        let name = path.file_stem().expect("a name").to_string_lossy();
        let name = format!("{prefix}{name}");
        if path.is_dir() {
            modules(&path, &format!("{name}::"), found);
        } else {
            found.insert(name, fs::read_to_string(&path).expect("a text"));
        }
    }
}

/// The crates of the repository, by name.
fn crates() -> BTreeMap<String, Modules> {
    let mut crates = BTreeMap::new();
    for entry in fs::read_dir(tools::root().join("crates")).expect("the crates") {
        let entry = entry.expect("a crate");
        let mut code = Modules::new();
        modules(&entry.path().join("src"), "", &mut code);
        crates.insert(entry.file_name().to_string_lossy().into_owned(), code);
    }
    crates
}

/// What is wrong with the contract of a function, if something is: it asks, or it promises nothing.
fn fault(text: &str, name: &str) -> Option<&'static str> {
    if !text.contains(&format!("fn {name}(")) {
        return None;
    }
    let contract = tools::contract(text, name).unwrap_or_default();
    let has = |word: &str| {
        contract
            .lines()
            .any(|line| line.trim_start().starts_with(word))
    };
    match (has("requires"), has("ensures")) {
        (true, _) => Some("asks for something"),
        (_, false) => Some("has no contract"),
        _ => None,
    }
}

/// The functions that can be called from outside through a module of a crate, and what is wrong
/// with each; those behind the door `inside` are left out.
fn faults(code: &Modules, module: &str) -> BTreeMap<String, Option<&'static str>> {
    let mut found = BTreeMap::new();
    let text = &code[module];
    for line in text.lines() {
        for (home, name) in tools::handed_on(line) {
            found.insert(format!("{home}::{name}"), fault(&code[&home], &name));
        }
        let line = line.replace("extern \"C\" ", "");
        if let Some(function) = line.strip_prefix("pub fn ") {
            let (name, _) = function.split_once('(').expect("parameters");
            found.insert(format!("{module}::{name}"), fault(text, name));
        } else if let Some(inner) = line.strip_prefix("pub mod ") {
            let inner = inner.trim_end_matches(';');
            if inner != "inside" {
                found.extend(faults(code, inner));
            }
        }
    }
    found
}

#[test]
fn what_asks_for_something_stands_behind_a_door() {
    let mut lines = Vec::new();
    let mut calls = 0;
    for (library, code) in crates() {
        // a program has no root to call
        if !code.contains_key("lib") {
            continue;
        }
        for (function, fault) in faults(&code, "lib") {
            calls += 1;
            lines.extend(fault.map(|fault| format!("{library}: {function} {fault}")));
        }
    }
    assert!(lines.is_empty(), "\n{}", lines.join("\n"));
    assert!(calls >= 30, "{calls} public calls");
}

#[test]
fn faults_that_are_planted_are_found() {
    let code = |root: &str, leaf: &str| {
        let texts = [("lib", root), ("leaf", leaf)];
        let code = texts.map(|(name, text)| (name.to_string(), text.to_string()));
        faults(&code.into(), "lib")
            .into_values()
            .collect::<Vec<_>>()
    };
    let asks = "pub fn f(x: u8) -> u8\n    requires { x < 9 }\n{\n    x\n}\n";
    let empty = "pub fn f(x: u8) -> u8 {\n    x\n}\n";
    let good = "pub fn f(x: u8) -> u8\n    ensures { result ≡ x }\n{\n    x\n}\n";
    for root in [
        "pub mod leaf;\n",
        "mod leaf;\npub use leaf::f;\n",
        "mod leaf;\npub use leaf::{f};\n",
    ] {
        assert_eq!(code(root, asks), [Some("asks for something")]);
        assert_eq!(code(root, empty), [Some("has no contract")]);
        assert_eq!(code(root, good), [None]);
    }
    assert_eq!(code("mod leaf;\npub mod inside;\n", asks), []);
    assert_eq!(code(good, ""), [None]);
}

/// Which crates use the door of a crate, as docs/ARCHITECTURE.md names them: rows of a table that
/// begin with the door and end with the crates.
fn named() -> BTreeMap<String, BTreeSet<String>> {
    let page = tools::root().join("docs/ARCHITECTURE.md");
    let page = fs::read_to_string(page).expect("the page");
    let rows = page.lines().filter_map(|line| line.strip_prefix("| `"));
    let doors = rows.filter_map(|row| row.split_once("::inside` | "));
    let users = |row: &str| {
        let last = row.trim_end_matches(" |").rsplit(" | ").next();
        let spans = last.unwrap_or_default().split('`').skip(1).step_by(2);
        spans.map(str::to_string).collect()
    };
    doors
        .map(|(door, row)| (door.to_string(), users(row)))
        .collect()
}

#[test]
fn doors_are_used_by_the_crates_that_are_named() {
    let mut used: BTreeMap<String, BTreeSet<String>> = BTreeMap::new();
    let crates = crates();
    for (user, code) in &crates {
        for door in crates.keys() {
            let path = format!("{door}::inside::");
            if code.values().any(|text| text.contains(&path)) {
                used.entry(door.clone()).or_default().insert(user.clone());
            }
        }
    }
    assert!(!used.is_empty());
    assert_eq!(used, named());
}
