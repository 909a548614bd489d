//! Cases by hand, in groups: calls that the second implementation answers too.
//!
//! The stored ones are the input of the program `library_test`. The others are more than a reader
//! would read there; the tests give them to the library.
//!
//! A note that ends in `: yes`, `: no` or `: refused` tells the checker's word on every case below it.
//! Where a case draws, that is the word on the slices after the call.

mod call;
pub mod check;
pub mod coordinates;
pub mod draw;
pub mod format;
pub mod narrowest;
mod text;
pub mod totals;

pub use call::Call;

/// A line of a group.
pub enum Line {
    /// Names the cases below it.
    Note(String),
    Case(Call),
}

/// Test cases that belong together.
pub struct Group {
    pub name: &'static str,
    pub lines: Vec<Line>,
}

impl Group {
    /// A group without cases; its name is its first line.
    fn new(name: &'static str) -> Group {
        let lines = vec![Line::Note(name.to_string())];
        Group { name, lines }
    }

    /// Names the cases that follow.
    fn note(&mut self, text: &str) {
        self.lines.push(Line::Note(text.to_string()));
    }

    /// Adds a case.
    fn add(&mut self, call: Call) {
        self.lines.push(Line::Case(call));
    }

    /// The cases, without the lines that name them.
    pub fn calls(&self) -> impl Iterator<Item = &Call> {
        self.lines.iter().filter_map(|line| match line {
            Line::Case(call) => Some(call),
            Line::Note(_) => None,
        })
    }
}

/// The groups that are stored, in the order of the files: document 01's sheets and refusals, single
/// numbers, which the library does not export, and coordinate files.
pub fn stored() -> Vec<Group> {
    let mut groups = format::stored();
    groups.extend(check::stored());
    groups.extend(draw::stored());
    groups.extend(narrowest::stored());
    groups.extend(totals::stored());
    groups.extend(coordinates::stored());
    groups
}

/// The groups that are not stored.
pub fn others() -> Vec<Group> {
    let mut groups = format::others();
    groups.extend(check::others());
    groups.extend(draw::others());
    groups.extend(narrowest::others());
    groups.extend(totals::others());
    groups.extend(coordinates::others());
    groups
}

/// The lines of these groups, in the order of the files.
pub fn lines(groups: &[Group]) -> impl Iterator<Item = &Line> {
    groups.iter().flat_map(|group| &group.lines)
}

/// The program's input for these groups.
pub fn input(groups: &[Group]) -> String {
    lines(groups).map(|line| line.input() + "\n").collect()
}
