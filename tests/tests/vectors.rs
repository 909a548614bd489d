//! The vectors: the stored files are what the program `vectors` writes, the library gives every answer,
//! every example of the documents is there, and the runner tells right answers from wrong ones.

mod asked;
mod tools;

use std::collections::BTreeMap;
use std::fs;
use std::process::Command;

use asked::{answered, cases, stored};
use compare::Proved;
use strip_tests::vectors::{files, CALLS};
use tools::{header, python, root, run_in, shared_library};

/// The command that writes the files anew, from the root of the repository.
const REWRITE: &str = "cargo run --release --bin vectors -- vectors";

#[test]
fn stored_files_are_up_to_date() {
    let computed: BTreeMap<String, String> = files().into_iter().collect();
    let stored = stored();
    assert!(
        stored.keys().eq(computed.keys()),
        "write them with: {REWRITE}"
    );
    for (name, text) in computed {
        assert!(
            stored[&name] == text,
            "{name} differs; write it with: {REWRITE}"
        );
    }
}

#[test]
fn the_library_gives_every_answer() {
    let mut count = 0;
    for (name, text) in stored() {
        for (question, answer) in cases(&text) {
            assert_eq!(answered(&Proved, question), answer, "{name}: {question}");
            assert!(
                question.starts_with(&name.replace(".txt", " ")),
                "{question}"
            );
            count += 1;
        }
    }
    println!("compared: {count} vectors");
    assert!(count > 2000, "{count}");
}

/// The numbers of refusals that a comment names, as "1 to 6 and 10".
fn named(text: &str) -> Vec<u32> {
    let text = text.replace(" and ", ", ");
    let range = |part: &str| {
        let (first, last) = part.split_once(" to ").unwrap_or((part, part));
        let number = |text: &str| text.parse::<u32>().expect("a number");
        number(first)..=number(last)
    };
    text.split(", ").flat_map(range).collect()
}

#[test]
fn each_call_has_a_file_with_each_of_its_refusals() {
    let stored = stored();
    let mut functions = header("functions");
    functions.retain(|function| !function["Refusals "].is_empty());
    assert_eq!(functions.len(), CALLS.len());
    let page = fs::read_to_string(root().join("vectors/README.md")).expect("the page");
    for function in functions {
        let name = function["name"].trim_start_matches("strip_");
        let text = &stored[&format!("{name}.txt")];
        let mut told: Vec<u32> = Vec::new();
        for (_, answer) in cases(text) {
            let number = answer
                .strip_prefix("refused ")
                .and_then(|rest| rest.split(' ').next());
            told.extend(number.map(|number| number.parse::<u32>().expect("a number")));
        }
        told.sort();
        let taken = cases(text).len() - told.len();
        told.dedup();
        assert_eq!(told, named(&function["Refusals "]), "{name}");
        assert!(taken >= 50, "{name}: {taken} are taken");
        assert!(page.contains(&format!("\n| `{name} ")), "{name}");
    }
}

#[test]
fn no_question_is_asked_twice_and_no_file_is_large() {
    for (name, text) in stored() {
        let mut questions: Vec<&str> = cases(&text).iter().map(|case| case.0).collect();
        let count = questions.len();
        questions.sort();
        questions.dedup();
        assert_eq!(questions.len(), count, "{name}");
        assert!(text.is_ascii() && text.ends_with('\n'), "{name}");
        assert!(text.len() < 150_000, "{name}: {} bytes", text.len());
    }
}

#[test]
fn both_words_are_told() {
    let text = &stored()["check.txt"];
    for (word, least) in [("yes", 200), ("no", 300)] {
        let count = cases(text).iter().filter(|case| case.1 == word).count();
        assert!(count >= least, "{count} times {word}");
    }
}

/// The examples of documents 01 and 02, as the documents tell them, in slices that are long enough where
/// nothing is said.
const DOCUMENTS: &str = "\
read 2559 5350 = refused 1 at 2
read 2559 535131 = refused 2 at 0
read 2559 5350318000 = refused 3 at 3
read 2559 5350310500 = refused 4 at 4
read 2559 5350310501020302 = refused 5 at 7
read 2559 5350310001010000 = refused 6 at 7
draw 0 2 53503100010100 = refused 7 at 0
draw 256 1024 535031000102010000 = refused 8 at 0
draw 256 1024 535031050202010001020101010001020100 = 1 0,1,0
check 535031050202010001020101010001020100 0,1,0 1,-1,0,1,0,0,0,0 = yes
check 535031050202010001020101010001020100 0,1,0 0,0,0,0,0,0,0,0 = no
draw 256 1024 5350310003020100020100020100020102010002020100 = refused 8 at 0
draw 256 1024 5350310103020100020100020100020102010002020100 = 2 0,1,0,1,0,1
draw 256 1024 5350310203020100020100020100020102010002020100 = 1 0,1,0,1,1,2
draw 256 1024 5350310303020100020100020100020102010002020100 = 0 0,1,1,2,2,3
draw 256 1024 5350310103020100020100020100020102010002020101 = refused 8 at 0
draw 256 1024 5350310203020100020100020100020102010002020101 = 1 0,1,0,1,1,2
draw 256 1024 535031ff1f02020100020100020101020101020101 = refused 8 at 0
draw 256 1024 53503102020201010301000100020101010001020300 = 1 0,1,0,1,2
draw 256 1024 53503102020201000301000100020101010001020300 = 0 0,2,0,1,2
draw 256 1024 535031020201030100010003010101000101030001010300 = 2 0,0,1,2
draw 256 1024 53503100010100 = 0 0
read 2559 535031ff1f010100 = 4095,1,1,0
read 2559 5350318020010100 = refused 4 at 3
read 2559 5350318080010100 = refused 3 at 3
narrowest 5350310303020100020100020100020102010002020100 = 1 2
narrowest 535031ff1f02020100020100020101020101020101 = refused 10 at 0
totals 64 0,1,2,3,4 5350310203020100020100020100020102010002020100 = 4294967295,2,1,0,0
totals 64 0,1,2,3,4 5350310203020100020100020100020102010002020101 = 4294967295,4294967295,1,0,0
totals 64 0,1,4095 535031ff1f02020100020100020101020101020101 = 4294967295,4294967295,4294967295
totals 64 5,0 535031050202010001020101010001020100 = 1,4294967295
totals 64 - 53503100010100 = -
totals 64 - 535031000101 = refused 1 at 6
totals 64 0,4095,4096 53503100010100 = refused 4 at 2
totals 64 0,4095,65541 53503100010100 = refused 4 at 2
totals 64 0,4095,4294967295 53503100010100 = refused 4 at 2
read_drawing 321 534431020200010100 = 2,2,0,1,1,0
write_drawing 645 2,2,0,1,1,0 = 534431020200010100
read_drawing 321 53443101020000 = refused 4 at 6
read_drawing 321 5344310102ff1f01 = refused 4 at 7
write_drawing 645 1,2,5,5 = refused 4 at 3
read_drawing 321 53503100010100 = refused 2 at 0
check 535031020201030100010003010101000101030001010300 0,0,1,2 -1,1,0,0,0,0,1,0,1,0,0 = yes
check 535031020201030100010003010101000101030001010300 0,0,1,2 -1,0,1,0,0,0,1,0,1,0,0 = no
check 535031020201030100010003010101000101030001010301 2,0,1,2 -1,2,0,0,1,1,2,0,2,0,0 = yes
";

#[test]
fn examples_of_the_documents_are_there() {
    let stored = stored();
    for line in DOCUMENTS.lines() {
        let (name, _) = line.split_once(' ').expect("a name");
        let text = &stored[&format!("{name}.txt")];
        assert!(text.lines().any(|stored| stored == line), "{line}");
    }
}

/// What the runner says of a command that is run by a shell, and its exit status.
fn run(command: &str) -> (String, Option<i32>) {
    shared_library();
    let mut runner = python();
    runner.args(["vectors/run.py", "sh", "-c", command]);
    ended(&mut runner)
}

/// What a command prints, and its exit status.
fn ended(command: &mut Command) -> (String, Option<i32>) {
    let output = run_in(&root(), command);
    let printed = String::from_utf8_lossy(&output.stdout).into_owned();
    (printed, output.status.code())
}

#[test]
fn the_runner_passes_the_library() {
    let (printed, status) = run("exec python3 examples/answer.py");
    assert_eq!(status, Some(0), "{printed}");
    let lines = stored().into_iter();
    let lines = lines.map(|(name, text)| {
        let count = cases(&text).len();
        format!("{name}: {count} of {count} right\n")
    });
    assert_eq!(printed, lines.collect::<String>());
}

#[test]
fn the_runner_tells_faults() {
    for (behind, told) in [
        ("| sed 's/^no$/yes/'", "yes; right is no\n"),
        ("| sed '7s/$/0/'", "0; right is "),
        ("| sed 's/at 0$/at 1/'", "at 1; right is refused "),
        ("| sed 9d", "lines for "),
        ("; echo yes", "lines for "),
        ("; exit 3", "the command ended with status 3\n"),
        ("> /dev/null", ": 0 lines for "),
    ] {
        let (printed, status) = run(&format!("python3 examples/answer.py {behind}"));
        assert_eq!(status, Some(1), "{behind}: {printed}");
        assert!(printed.contains(told), "{behind}: {printed}");
    }
}

#[test]
fn the_runner_tells_a_command_that_is_not_there() {
    for arguments in [&[][..], &["no-such-command"]] {
        let mut runner = python();
        let (printed, status) = ended(runner.arg("vectors/run.py").args(arguments));
        assert_eq!((printed.as_str(), status), ("", Some(2)));
    }
}
