//! The example sheets have drawings, and their stored files are what the second implementation draws.

use std::fs;
use std::path::{Path, PathBuf};

use second::printed::printed;
use second::sheet::STRAIGHT;
use strip_tests::examples::examples;

/// The command that writes the stored files anew, from the root of the repository.
const REWRITE: &str = "cargo run --release --bin example_sheets -- examples";

/// A file of the repository.
fn stored(path: &str) -> PathBuf {
    Path::new(env!("CARGO_MANIFEST_DIR")).join("..").join(path)
}

/// Checks that a stored file has the contents computed.
fn check_stored(path: &str, computed: &[u8]) {
    let found = fs::read(stored(path)).unwrap_or_else(|error| panic!("{path}: {error}; {REWRITE}"));
    assert!(
        found == computed,
        "{path} differs; write it with: {REWRITE}"
    );
}

#[test]
fn stored_examples_are_up_to_date() {
    for (name, draft) in examples() {
        check_stored(&format!("examples/{name}.sheet"), &draft.bytes());
        check_stored(
            &format!("examples/{name}.txt"),
            printed(&draft.bytes()).as_bytes(),
        );
    }
}

#[test]
fn the_program_is_run_on_the_first_example() {
    let (_, draft) = &examples()[0];
    check_stored("crates/place/stdin", &draft.bytes());
    check_stored("crates/place/stdout", printed(&draft.bytes()).as_bytes());
}

#[test]
fn first_example_prints_what_the_document_shows() {
    let (_, draft) = &examples()[0];
    assert_eq!(printed(&draft.bytes()), "total 1\n1 1 0\n1 2 1\n2 1 0\n");
}

#[test]
fn panel_has_what_each_panel_takes() {
    let examples = examples();
    let (_, draft) = examples.iter().find(|(name, _)| *name == "panel").unwrap();
    let counts: Vec<usize> = draft.layers.iter().map(|layer| layer.len() + 1).collect();
    assert_eq!(counts, [12, 3, 1], "tiles, boards, cable");
}

#[test]
fn examples_have_drawings_with_a_total() {
    for (name, draft) in &examples()[1..] {
        let text = printed(&draft.bytes());
        assert!(
            text.starts_with("total ") && !text.starts_with("total 0"),
            "{name}"
        );
        let nodes: usize = draft.layers.iter().map(|layer| layer.len() + 1).sum();
        assert_eq!(text.lines().count(), nodes + 1, "{name}");
        assert!(draft.layers.len() >= 3, "{name}");
        assert!(
            draft.edges.iter().any(|edge| edge.kind == STRAIGHT),
            "{name}"
        );
    }
}
