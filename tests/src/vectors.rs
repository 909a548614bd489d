//! The vectors: questions and answers in lines of text, which a program of another house can be asked
//! too. The answers are the second implementation's; `vectors/README.md` describes the lines.

mod calls;
mod document;
mod families;
mod files;
mod line;

use std::collections::HashSet;

use crate::cases::{self, Call, Group, Line};

/// The calls, each with a file of its name.
pub const CALLS: [&str; 8] = [
    "read",
    "write",
    "draw",
    "check",
    "narrowest",
    "totals",
    "read_drawing",
    "write_drawing",
];

/// Groups of cases by hand of which one case in so many is a vector.
const THINNED: [(&str, usize); 14] = [
    ("the largest sheet", 6),
    ("sheets of full size", 2),
    ("coordinate files of full size", 3),
    ("two numbers at the ends of 32 bits", 13),
    ("other drawings with the same list", 3),
    ("the minimum width of sheets in several widths", 2),
    ("limits of places in coordinate files", 5),
    ("long forms in coordinate files: refused", 3),
    ("the order of refusals, coordinate files", 3),
    ("checking with slices of every length", 2),
    ("drawing into slices of every length", 5),
    (
        "slices of every length: too short, exact, with elements kept",
        5,
    ),
    ("slices of every length for coordinate files", 5),
    (
        "reading and writing the sheets on either side of each edge",
        3,
    ),
];

/// A call, and a note that says what it is.
pub struct Vector {
    pub note: String,
    pub call: Call,
}

/// The files, by their names.
pub fn files() -> Vec<(String, String)> {
    let vectors = vectors();
    let file = |call: &&str| (format!("{call}.txt"), text(call, &vectors));
    CALLS.iter().map(file).collect()
}

/// All vectors: the documents' examples, those by hand, those of the families of sheets and files.
fn vectors() -> Vec<Vector> {
    let mut vectors = document::examples();
    for group in cases::stored().iter().chain(&cases::others()) {
        vectors.extend(by_hand(group));
    }
    vectors.extend(families::vectors());
    vectors.extend(files::vectors());
    vectors
}

/// The cases of a group by hand, or some of them.
fn by_hand(group: &Group) -> Vec<Vector> {
    let thinned = THINNED.iter().find(|(name, _)| *name == group.name);
    let step = thinned.map_or(1, |&(_, step)| step);
    let name = without_word(group.name);
    let (mut note, mut vectors) = (name.to_string(), Vec::new());
    for line in &group.lines[1..] {
        match line {
            Line::Note(text) => note = format!("{name}: {}", without_word(text)),
            Line::Case(call) => vectors.push(Vector {
                note: note.clone(),
                call: call.clone(),
            }),
        }
    }
    vectors.into_iter().step_by(step).collect()
}

/// A note without the checker's word, which the answer tells.
fn without_word(note: &str) -> &str {
    let mut words = [": yes", ": no", ": refused"].into_iter();
    let cut = words.find_map(|word| note.strip_suffix(word));
    cut.unwrap_or(note)
}

/// The lines of a call: a note above what it is about, and each question once.
fn text(name: &str, vectors: &[Vector]) -> String {
    let (mut text, mut known, mut note) = (String::new(), HashSet::new(), "");
    for vector in vectors {
        let Some((_, fields)) = line::question(&vector.call).filter(|(found, _)| *found == name)
        else {
            continue;
        };
        if !known.insert(fields.clone()) {
            continue;
        }
        if note != vector.note {
            note = &vector.note;
            text += &format!("# {note}\n");
        }
        let answer = line::answer(&vector.call);
        text += &format!("{name} {fields} = {answer}\n");
    }
    text
}
