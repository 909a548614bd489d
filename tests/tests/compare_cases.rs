//! Cases by hand, answered by the library and the second implementation.

use compare::{grouped, page, Proved};
use strip_tests::cases::{
    check, coordinates, draw, format, narrowest, others, stored, totals, Group, Line,
};

/// How often a case is taken or gets a yes, gets a no, and is refused.
#[derive(Default)]
struct Answers {
    taken: usize,
    no: usize,
    refused: [usize; 12],
}

impl Answers {
    /// Compares all cases of these groups that the library has a function for, prints the counts, and
    /// checks that the page has them.
    fn of(kind: &str, groups: &[Group]) -> Answers {
        let mut answers = Answers::default();
        for call in groups.iter().flat_map(Group::calls) {
            match compare::call(&Proved, call) {
                Some(Ok(true)) => answers.taken += 1,
                Some(Ok(false)) => answers.no += 1,
                Some(Err(refusal)) => answers.refused[refusal.number as usize] += 1,
                None => {}
            }
        }
        let refused: usize = answers.refused.iter().sum();
        let sum = answers.taken + answers.no + refused;
        let row = [sum, answers.taken, answers.no, refused];
        let [sum, taken, no, refused] = row.map(grouped);
        println!("compared: {sum} {kind}: {taken} taken or yes, {no} no, {refused} refused");
        page::check_row(kind, &row);
        answers
    }
}

#[test]
fn stored_cases() {
    let answers = Answers::of("stored cases", &stored());
    assert!(answers.taken > 50 && answers.no > 20);
    assert!((1..=8)
        .chain([10, 11])
        .all(|number| answers.refused[number] > 0));
}

#[test]
fn sheets_and_lists_at_the_limits_read_and_written() {
    let answers = Answers::of("cases of reading and writing", &format::others());
    assert!(answers.taken > 100);
    for (number, least) in [(1, 20), (2, 10), (3, 8), (4, 80), (5, 10), (6, 10), (7, 40)] {
        assert!(answers.refused[number] >= least, "refused {number}");
    }
}

#[test]
fn rules_and_extremes_checked() {
    let answers = Answers::of("cases of the checker", &check::others());
    assert!(answers.taken > 100 && answers.no > 400 && answers.refused[7] > 15);
}

#[test]
fn slices_and_extremes_drawn() {
    let answers = Answers::of("cases of the engine", &draw::others());
    assert!(answers.taken > 25 && answers.refused[7] > 60 && answers.refused[8] > 5);
}

#[test]
fn widths_and_extremes_narrowed() {
    let answers = Answers::of("cases of the minimum width", &narrowest::others());
    assert!(answers.taken > 70);
    for (number, least) in [(1, 4), (3, 5), (4, 4), (5, 1), (10, 9)] {
        assert!(answers.refused[number] >= least, "refused {number}");
    }
}

#[test]
fn lists_and_widths_at_their_limits() {
    let answers = Answers::of("cases of totals at many widths", &totals::others());
    assert!(answers.taken > 70);
    for (number, least) in [
        (1, 8),
        (2, 3),
        (3, 7),
        (4, 40),
        (5, 3),
        (6, 3),
        (7, 9),
        (11, 10),
    ] {
        assert!(answers.refused[number] >= least, "refused {number}");
    }
}

#[test]
fn coordinate_files_at_the_limits_read_and_written() {
    let answers = Answers::of("cases of coordinate files", &coordinates::others());
    assert!(answers.taken > 100);
    for (number, least) in [(1, 20), (2, 30), (3, 30), (4, 150), (6, 10), (7, 30)] {
        assert!(answers.refused[number] >= least, "refused {number}");
    }
}

/// The word of the checker in a line of output: its last part, without offset.
fn word(output: &str) -> Option<&str> {
    output.rsplit("; ").next()?.split(' ').next()
}

#[test]
fn notes_tell_the_words() {
    let mut told = 0;
    for group in stored().iter().chain(&others()) {
        let mut note = "";
        for line in &group.lines {
            match line {
                Line::Note(text) => note = text,
                Line::Case(_) => {
                    if let expected @ Some("yes" | "no" | "refused") = note.rsplit(": ").next() {
                        assert_eq!(word(&line.output()), expected, "{note}");
                        told += 1;
                    }
                }
            }
        }
    }
    assert!(told > 700, "{told}");
}

#[test]
fn no_group_is_empty() {
    for group in stored().iter().chain(&others()) {
        assert!(group.calls().count() > 0, "{}", group.name);
    }
}
