//! The stored input of `library_test` is the stored cases, and the stored output, which the program
//! prints, is what the second implementation computes.

use std::fs;
use std::path::Path;

use compare::page;
use strip_tests::cases::{draw, input, lines, stored, Group, Line};

/// The commands that write the stored files anew, from the root of the repository.
const REWRITE: &str = "cargo run --release --bin cases > crates/library_test/stdin; \
    target/bin/library_test < crates/library_test/stdin > crates/library_test/stdout";

/// A stored file of the program.
fn file(name: &str) -> String {
    let folder = Path::new(env!("CARGO_MANIFEST_DIR")).join("../crates/library_test");
    let path = folder.join(name);
    match fs::read_to_string(&path) {
        Ok(stored) => stored,
        Err(error) => panic!("cannot read {}: {error}", path.display()),
    }
}

#[test]
fn stored_input_is_up_to_date() {
    let (stored, computed) = (file("stdin"), input(&stored()));
    let mut both = stored.lines().zip(computed.lines());
    let differing = both.position(|(stored, computed)| stored != computed);
    assert_eq!(differing, None, "write it with: {REWRITE}");
    assert!(stored == computed, "write it with: {REWRITE}");
}

#[test]
fn the_page_tells_how_many_cases_are_stored() {
    let count = stored().iter().flat_map(Group::calls).count();
    page::check_said(&format!("answers the {count} cases in "));
}

#[test]
fn stored_output_is_what_the_second_implementation_computes() {
    let (output, groups) = (file("stdout"), stored());
    let count = lines(&groups).count();
    assert_eq!(output.lines().count(), count, "write it with: {REWRITE}");
    for (i, (line, output)) in lines(&groups).zip(output.lines()).enumerate() {
        assert!(
            line.is_answered_by(output),
            "stdout differs at line {}\nstored: {output}\ncomputed: {}\nwrite it with: {REWRITE}",
            i + 1,
            line.output(),
        );
    }
}

#[test]
fn other_totals_places_lists_and_words_are_no_answers() {
    let mut tried = 0;
    for line in lines(&draw::stored()) {
        let output = line.output();
        assert!(line.is_answered_by(&output));
        let Some((answer, list)) = output.split_once(';') else {
            continue;
        };
        if !output.starts_with("total ") {
            continue;
        }
        let first = list.split(' ').nth(1).expect("a list has numbers");
        let first: i32 = first.parse().expect("a number");
        let rest = &list[first.to_string().len() + 1..];
        for other in [
            output.replacen("total ", "total 1", 1),
            output.replacen(": 0", ": 1", 1),
            output.replace("; yes", "; no"),
            format!("{answer}; {}{rest}", first + 1),
            format!("{answer}; {}{rest}", first - 1),
            format!("{answer};{rest}"),
        ] {
            assert!(!line.is_answered_by(&other), "{other}");
        }
        tried += 1;
    }
    assert!(tried >= 25, "{tried}");
}

#[test]
fn stored_files_can_be_read() {
    for file in [file("stdin"), file("stdout")] {
        assert!(file.is_ascii());
        assert!(file.lines().count() < 530, "{}", file.lines().count());
        assert!(file.lines().all(|line| line.len() < 600));
        // 64 widths, their totals, and 65 widths
        let long = file.lines().filter(|line| line.len() >= 320);
        assert!(long.count() <= 2);
    }
}

/// The parts of a line of input that is a case.
fn parts(line: &Line) -> Option<[String; 4]> {
    let Line::Case(_) = line else {
        return None;
    };
    let parts: Vec<String> = line.input().split(' ').map(str::to_owned).collect();
    let parts: [String; 4] = parts.try_into().expect("a line has four parts");
    assert!(parts[0].len() == 1 && parts[1].len() == 4 && parts[2].len() == 4);
    Some(parts)
}

#[test]
fn payloads_are_whole_elements() {
    let hexadecimal = |digits: &str| usize::from_str_radix(digits, 16).expect("a number");
    let groups = stored();
    for [operation, first, second, payload] in lines(&groups).filter_map(parts) {
        let (before, digits) = match &operation[..] {
            "R" | "G" | "D" | "N" | "F" => (0, 2),
            "W" | "S" => (0, 4),
            "P" => (0, 8),
            "C" => (4 * hexadecimal(&first) + 8 * hexadecimal(&second), 2),
            "T" => (8 * hexadecimal(&second), 2),
            _ => panic!("no such operation: {operation}"),
        };
        assert!(payload.len() >= before, "{payload}");
        assert_eq!((payload.len() - before) % digits, 0, "{payload}");
    }
}

#[test]
fn each_refusal_and_each_word_is_stored() {
    let output = file("stdout");
    let count = |answer: &str| {
        output
            .lines()
            .filter(|line| line.starts_with(answer))
            .count()
    };
    let numbers = (1..=8).chain([10, 11]);
    let refused = numbers.map(|number| count(&format!("refused {number} at ")));
    let refused: Vec<usize> = refused.collect();
    assert!(refused.iter().all(|&count| count > 0), "{refused:?}");
    assert_eq!(refused.iter().sum::<usize>(), count("refused"));
    for answer in [
        "value ",
        "next ",
        "no form:",
        "no room:",
        "done ",
        "total ",
        "yes",
        "no",
        "narrowest ",
    ] {
        assert!(count(answer) > 0, "{answer}");
    }
}
