//! Counts on the page docs/TESTING.md, held against those of a run.

use std::fs;
use std::path::Path;

use crate::{grouped, scale};

/// The page that has all counts, from the root of the repository.
const PAGE: &str = "docs/TESTING.md";

/// The text of the page.
fn text() -> String {
    let root = Path::new(env!("CARGO_MANIFEST_DIR")).join("../..");
    fs::read_to_string(root.join(PAGE)).expect(PAGE)
}

/// Fails where the page does not say this, wherever its lines end.
pub fn check_said(sentence: &str) {
    let words = text();
    let words: Vec<&str> = words.split_whitespace().collect();
    let is_said = words.join(" ").contains(sentence);
    assert!(is_said, "{PAGE} does not say: {sentence}");
}

/// A row of counts on the page: what is counted, and the counts.
type Row = (String, Vec<usize>);

/// A row that has a name and counts only. Behind the name and a colon the page says more.
fn row(line: &str) -> Option<Row> {
    let mut cells = line.strip_prefix("| ")?.strip_suffix(" |")?.split(" | ");
    let name = cells.next()?.split(": ").next()?;
    let count = |cell: &str| cell.replace(',', "").parse().ok();
    let counts: Vec<usize> = cells.map(count).collect::<Option<_>>()?;
    Some((name.to_string(), counts))
}

/// The rows of the page with this many counts.
pub fn rows(count: usize) -> Vec<Row> {
    let text = text();
    let rows = text.lines().filter_map(row);
    rows.filter(|(_, counts)| counts.len() == count).collect()
}

/// Fails where the page does not have one row with this name and these counts. Where more is compared than
/// by default, nothing is looked at.
pub fn check_row(name: &str, counts: &[usize]) {
    if scale() == 1 {
        let mut rows = rows(counts.len());
        rows.retain(|(other, _)| other == name);
        let cells: Vec<String> = counts.iter().map(|&count| grouped(count)).collect();
        let row = format!("| {name} | {} |", cells.join(" | "));
        let expected = (name.to_string(), counts.to_vec());
        assert_eq!(rows, [expected], "{PAGE} does not have the row: {row}");
    }
}
