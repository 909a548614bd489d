//! The header: a C program that calls every function, every language standard, what the library needs
//! of others, the numbers that the crates give, and those of the Python module.

mod tools;

use std::collections::BTreeSet;
use std::fs;
use std::process::Command;

use tools::{
    compiler, folder, functions, header, numbers, output, python, root, run_in, shared_library,
    HEADER, LIBRARY,
};

#[test]
fn calls_from_c_are_answered() {
    for name in ["gcc", "clang"] {
        let program = folder(&format!("calls-{name}")).join("calls");
        let mut compiler = compiler(name, "c99");
        compiler.arg("tests/c/calls.c").args(LIBRARY);
        output(compiler.arg("-pthread").arg("-o").arg(&program));
        let printed = output(&mut Command::new(program));
        assert_eq!(printed, "all as documents 01 and 02 say\n");
    }
}

#[test]
fn header_is_clean_in_every_standard() {
    let c = ["c99", "c11", "c17"];
    let cpp = ["c++11", "c++14", "c++17", "c++20"];
    for (names, language, standards) in [
        (["gcc", "clang"], "c", &c[..]),
        (["g++", "clang++"], "c++", &cpp[..]),
    ] {
        for name in names {
            for standard in standards {
                let mut command = compiler(name, standard);
                command.args(["-Wconversion", "-Wshadow", "-Wundef", "-fsyntax-only"]);
                if language == "c++" {
                    command.arg("-Wold-style-cast");
                }
                let file = ["-include", HEADER, "-x", language, "/dev/null"];
                output(command.args(file));
            }
        }
    }
}

/// A program that looks at no answer: each function is called with zeros, on a line of its own.
fn looking_at_no_answer() -> (String, usize) {
    let mut answering = header("functions");
    answering.retain(|item| item["result"] == "u64");
    let mut text =
        String::from("#include <strip.h>\nvoid call_all(void);\nvoid call_all(void) {\n");
    for item in &answering {
        let zeros = vec!["0"; item["rust"].split(", ").count()].join(", ");
        text += &format!("    {}({zeros});\n", item["name"]);
    }
    (text + "}\n", answering.len())
}

#[test]
fn an_answer_that_nobody_looks_at_is_warned_of() {
    let folder = folder("calls-ignored");
    let (source, object) = (folder.join("ignored.c"), folder.join("ignored.o"));
    let (text, count) = looking_at_no_answer();
    fs::write(&source, text).expect("a program can be written");
    for (name, language, standard) in [
        ("gcc", "c", "c99"),
        ("clang", "c", "c99"),
        ("gcc", "c", "c2x"),
        ("clang", "c", "c2x"),
        ("g++", "c++", "c++11"),
        ("clang++", "c++", "c++11"),
        ("g++", "c++", "c++17"),
        ("clang++", "c++", "c++17"),
    ] {
        let mut compiler = compiler(name, standard);
        compiler.args(["-Wno-error", LIBRARY[0], "-x", language, "-c"]);
        compiler.arg(&source).arg("-o").arg(&object);
        let output = run_in(&root(), &mut compiler);
        let said = String::from_utf8_lossy(&output.stderr);
        assert!(output.status.success(), "{name} {standard}: {said}");
        let warned = said.matches("[-Wunused-result]").count();
        assert_eq!(warned, count, "{name} {standard}: {said}");
    }
}

/// The names of an archive that nm lists with this flag, in alphabetical order.
fn symbols(flag: &str) -> BTreeSet<String> {
    let listed = output(Command::new("nm").args([flag, "--format=posix", LIBRARY[1]]));
    let lines = listed.lines().filter(|line| !line.ends_with(':'));
    let names = lines.filter_map(|line| line.split(' ').next());
    names
        .filter(|name| !name.is_empty())
        .map(str::to_owned)
        .collect()
}

#[test]
fn library_needs_what_the_header_the_page_and_the_makefile_say() {
    let defined = symbols("--defined-only");
    assert!(functions().iter().all(|name| defined.contains(name)));
    let needed = &symbols("--undefined-only") - &defined;
    let needed: Vec<&str> = needed.iter().map(String::as_str).collect();
    let plain = needed.join(" and ");
    let quoted = format!("`{}`", needed.join("` and `"));
    for (file, sentence) in [
        (HEADER, format!(" They need {plain} of the C library, ")),
        (
            "docs/LIBRARY.md",
            format!(" Of the C library they need {quoted}, and nothing else"),
        ),
        ("Makefile", format!(" needs nothing but {plain}.")),
    ] {
        let text = fs::read_to_string(root().join(file)).expect(file);
        let text = text.replace("\n *", "").replace('\n', " ");
        assert!(text.contains(&sentence), "{file}: {sentence}");
    }
}

#[test]
fn a_program_without_the_c_library_draws() {
    for name in ["gcc", "clang"] {
        let program = folder(&format!("freestanding-{name}")).join("freestanding");
        let mut compiler = compiler(name, "c99");
        compiler.args([
            "-ffreestanding",
            "-nostdlib",
            "-static",
            "-fno-stack-protector",
        ]);
        compiler.arg("tests/c/freestanding.c").args(LIBRARY);
        output(compiler.arg("-o").arg(&program));
        assert_eq!(output(&mut Command::new(program)), "total 1, checked\n");
    }
}

/// The number and the name of a refusal in a line of a crate's code, if it has one.
fn refusal(line: &str) -> Option<(u32, String)> {
    let (name, number) = line.strip_prefix("pub const ")?.split_once(": u8 = ")?;
    Some((number.strip_suffix(';')?.parse().ok()?, name.to_string()))
}

/// The numbers and names of the refusals in the crates that give them.
fn given() -> Vec<(u32, String)> {
    let mut found = Vec::new();
    for entry in fs::read_dir(root().join("crates")).expect("the crates") {
        let path = entry.expect("a crate").path().join("src/refusals.rt");
        let text = fs::read_to_string(path).unwrap_or_default();
        found.extend(text.lines().filter_map(refusal));
    }
    found.sort_unstable();
    found
}

#[test]
fn refusals_of_the_header_are_those_that_the_crates_give() {
    // a crate that knows no sheets gives 2
    let own = |name: String| name.replace("OTHER_MAGIC", "NOT_A_SHEET");
    let given: Vec<_> = given()
        .into_iter()
        .map(|(n, name)| (own(name), n))
        .collect();
    assert_eq!(numbers("refusals"), given);
    assert!(given.len() >= 10 && given.iter().all(|&(_, number)| number != 9));
}

#[test]
fn every_function_is_called_and_has_its_wrappers() {
    for (file, start) in [
        ("examples/tour.c", "strip_"),
        ("tests/c/calls.c", "strip_"),
        ("bindings/rust/src/lib.rs", "pub fn "),
        ("bindings/python/strip.py", "def "),
    ] {
        let text = fs::read_to_string(root().join(file)).expect(file);
        for name in functions() {
            let name = name.trim_start_matches("strip_");
            assert!(text.contains(&format!("{start}{name}(")), "{file}: {name}");
        }
    }
}

/// What Python prints, with the module at hand.
fn told_by_python(code: &str) -> String {
    output(python().args(["-c", &format!("import strip\n{code}")]))
}

#[test]
fn python_module_has_the_numbers_of_the_header() {
    let mut numbers = [numbers("constants"), numbers("refusals")].concat();
    numbers.sort_unstable();
    let lines = numbers.iter().map(|(name, n)| format!("{name} {n}\n"));
    let code = "for name in sorted(n for n in vars(strip) if n.isupper() and n[0] != '_'):
    print(name, vars(strip)[name])";
    assert_eq!(told_by_python(code), lines.collect::<String>());
}

#[test]
fn python_refuses_a_library_of_other_rules() {
    let folder = folder("other-rules");
    let source = folder.join("other.c");
    for (code, told) in [
        ("unsigned strip_version(void) { return 0x500; }", "0.5.0"),
        ("int nothing;", "0.0.0"),
    ] {
        fs::write(&source, code).expect("a source can be written");
        let library = folder.join(format!("{told}.so"));
        let mut compiler = Command::new("gcc");
        compiler.args(["-shared", "-fPIC", "-o"]).arg(&library);
        output(compiler.arg(&source));
        let mut python = python();
        python.env("STRIP_LIBRARY", &library);
        let failed = run_in(
            &root(),
            python.args(["-c", "import strip\nstrip.version()"]),
        );
        assert!(!failed.status.success());
        let said = String::from_utf8_lossy(&failed.stderr);
        let library = library.display();
        let line = format!(
            "{library} has version {told}, and strip.py is {}",
            strip::VERSION
        );
        assert_eq!(
            said.lines().last(),
            Some(format!("ImportError: {line}").as_str())
        );
    }
}

#[test]
fn version_is_the_same_everywhere() {
    let header = fs::read_to_string(root().join(HEADER)).expect("the header");
    let part = |name: &str| {
        let start = format!("#define STRIP_VERSION_{name} ");
        let part = header.lines().find_map(|line| line.strip_prefix(&start));
        part.expect(name)
    };
    let version = ["MAJOR", "MINOR", "PATCH"].map(part).join(".");
    let text = format!("#define STRIP_VERSION \"{version}\"\n");
    assert!(header.contains(&text), "{text}");
    assert_eq!(strip::VERSION, version);
    assert_eq!(
        strip::version().map(|part| part.to_string()).join("."),
        version
    );
    shared_library();
    assert_eq!(
        told_by_python("print(strip.__version__, *strip.version())"),
        format!("{version} {}\n", version.replace('.', " "))
    );
    let changelog = fs::read_to_string(root().join("CHANGELOG.md")).expect("the changelog");
    let newest = changelog.lines().find_map(|line| line.strip_prefix("## "));
    assert!(newest.is_some_and(|line| line.starts_with(&format!("{version}, "))));
}
