//! The kinds of sheets that the benchmark times are what they are said to be.

use second::drawing::Sheet;
use second::minimum_width::least_width;
use second::solver::solve;
use strip_tests::draft::Draft;
use strip_tests::kinds::{bad, full, panels, undrawn, widths, with_nodes};

/// The counts of nodes and edges of a sheet.
fn sizes(draft: &Draft) -> (usize, usize) {
    (draft.sheet().node_count(), draft.edges.len())
}

/// How many nodes of a sheet are in chains: those with a straight edge. Each has one edge to every
/// layer beside it.
fn chained(sheet: &Sheet) -> usize {
    let count = |node: usize| {
        let ends = sheet.edges.iter().flat_map(|edge| [edge.upper, edge.lower]);
        ends.filter(|&end| end == node).count()
    };
    let straight = sheet.edges.iter().filter(|edge| edge.straight);
    let mut nodes: Vec<usize> = straight.flat_map(|edge| [edge.upper, edge.lower]).collect();
    nodes.sort_unstable();
    nodes.dedup();
    assert!(nodes.iter().all(|&node| count(node) == 2));
    nodes.len()
}

#[test]
fn layered_sheets_have_their_chains_and_a_drawing() {
    for (kind, percent) in full().iter().zip([0usize, 15, 25, 40, 60]) {
        assert_eq!(kind.sheets.len(), 30);
        for draft in &kind.sheets {
            let sheet = draft.sheet();
            assert_eq!(sizes(draft), (256, 512));
            assert!((256 * percent / 100).abs_diff(chained(&sheet)) <= 1);
            assert!(least_width(&sheet).is_some_and(|width| width <= sheet.width));
        }
        let has_maximum = |draft: &&Draft| draft.layers.iter().flatten().any(|s| s.maximum > 0);
        assert_eq!(kind.sheets.iter().filter(has_maximum).count(), 12);
        let is_narrowest = |draft: &&Draft| least_width(&draft.sheet()) == Some(draft.width);
        assert!(kind.sheets.iter().filter(is_narrowest).count() >= 6);
        for layers in [6, 10, 16, 24, 40, 64] {
            assert!(kind.sheets.iter().any(|draft| draft.layers.len() == layers));
        }
    }
}

#[test]
fn smaller_sheets_have_their_sizes_and_a_drawing() {
    for nodes in [16, 32, 64, 128] {
        let kind = with_nodes(nodes);
        assert_eq!(kind.sheets.len(), 150);
        for draft in &kind.sheets {
            assert_eq!(sizes(draft), (nodes.into(), 2 * usize::from(nodes)));
            assert!(solve(&draft.sheet()).is_some(), "{draft:?}");
        }
    }
    let panels = panels().sheets;
    assert_eq!(panels.len(), 24);
    assert!(panels.iter().all(|draft| solve(&draft.sheet()).is_some()));
}

#[test]
fn widths_are_64_different_ones_from_the_minimum_on() {
    let mut kinds = full();
    kinds.extend([128, 64, 32, 16].map(with_nodes));
    kinds.push(panels());
    for draft in kinds.iter().flat_map(|kind| &kind.sheets) {
        let sheet = draft.sheet();
        let widths = widths(&sheet);
        let ends = (widths[0], widths[63], widths.len());
        let minimum = least_width(&sheet).expect("a minimum width");
        assert_eq!(ends, (minimum.into(), 4095, 64));
        assert!(widths.windows(2).all(|pair| pair[0] < pair[1]));
    }
}

#[test]
fn sheets_to_refuse_have_full_size_and_no_drawing() {
    for kind in undrawn() {
        assert!(kind.sheets.len() >= 20, "{}", kind.name);
        for draft in &kind.sheets {
            assert_eq!(sizes(draft), (256, 512));
            assert!(solve(&draft.sheet()).is_none(), "{}", kind.name);
        }
    }
}

#[test]
fn bad_sheets_meet_each_refusal_of_the_reader() {
    let numbers: Vec<u32> = bad()
        .iter()
        .filter_map(|bytes| Sheet::from_bytes(bytes).err())
        .map(|refusal| refusal.number)
        .collect();
    assert_eq!(numbers.len(), bad().len());
    assert!(
        (1..=6).all(|number| numbers.contains(&number)),
        "{numbers:?}"
    );
}
