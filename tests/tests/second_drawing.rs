//! The second implementation's drawings and totals, against the sheets of document 01 written out by
//! hand, and brute force.

use second::drawing::{
    drawings, is_drawing, least_drawings, leftmost, total, Edge, Layer, Separation, Sheet,
};
use second::sheet::{PLAIN, STRAIGHT};
use strip_tests::document;
use strip_tests::draft::Draft;
use strip_tests::generate::tiny;
use strip_tests::random::Random;

/// How many random tiny sheets a test takes.
const SHEETS: usize = 3000;

/// The least total and the leftmost least drawing of a tiny sheet, by brute force.
fn best(draft: &Draft) -> Option<(u32, Vec<u16>)> {
    let (total, least) = least_drawings(&draft.sheet())?;
    Some((total, leftmost(&least)))
}

#[test]
fn numbers_are_taken_apart() {
    let sheet = Sheet::from_numbers(&[9, 3, 2, 1, 4, 1, 3, 2, 0, 5, 5, 2, 1, 2, 1, 0, 2, 1, 3, 1]);
    let separation = |left, minimum, maximum| Separation {
        left,
        right: left + 1,
        minimum,
        maximum,
    };
    let layer = |first, last, separations| Layer {
        first,
        last,
        separations,
    };
    let edge = |upper, lower, straight| Edge {
        upper,
        lower,
        straight,
    };
    let expected = Sheet {
        width: 9,
        layers: vec![
            layer(0, 1, vec![separation(0, 1, Some(4))]),
            layer(2, 2, vec![]),
            layer(
                3,
                5,
                vec![separation(3, 2, None), separation(4, 5, Some(5))],
            ),
        ],
        edges: vec![edge(1, 2, false), edge(2, 5, true)],
    };
    assert_eq!(sheet, expected);
    assert_eq!(sheet.node_count(), 6);
}

#[test]
fn sheets_of_the_document_have_its_totals_and_places() {
    let expected: [(Draft, u32, &[u16]); 9] = [
        (document::first(), 1, &[0, 1, 0]),
        (document::stair(1, PLAIN), 2, &[0, 1, 0, 1, 0, 1]),
        (document::stair(2, PLAIN), 1, &[0, 1, 0, 1, 1, 2]),
        (document::stair(3, PLAIN), 0, &[0, 1, 1, 2, 2, 3]),
        (document::stair(2, STRAIGHT), 1, &[0, 1, 0, 1, 1, 2]),
        (document::two_over_three(1), 1, &[0, 1, 0, 1, 2]),
        (document::two_over_three(0), 0, &[0, 2, 0, 1, 2]),
        (document::one_over_three(), 2, &[0, 0, 1, 2]),
        (document::one_node(), 0, &[0]),
    ];
    for (draft, total, places) in expected {
        assert_eq!(best(&draft), Some((total, places.to_vec())), "{draft:?}");
    }
}

#[test]
fn sheets_of_the_document_without_a_drawing_have_none() {
    assert_eq!(best(&Draft::new(0, &[2])), None);
    assert_eq!(best(&document::stair(0, PLAIN)), None);
    assert_eq!(best(&document::stair(1, STRAIGHT)), None);
    let crossing = document::crossing();
    for width in 0..=9 {
        let narrow = Draft {
            width,
            ..crossing.clone()
        };
        assert_eq!(best(&narrow), None);
    }
}

#[test]
fn each_rule_of_a_drawing_counts() {
    let draft = Draft::new(9, &[2, 1])
        .separation(1, 1, 2, 4)
        .edge(1, 2, 1, STRAIGHT);
    let sheet = draft.sheet();
    for places in [[0, 2, 2], [0, 4, 4], [5, 9, 9]] {
        assert!(is_drawing(&sheet, &places), "{places:?}");
    }
    for places in [
        [0, 1, 1],
        [0, 5, 5],
        [2, 0, 0],
        [6, 10, 10],
        [0, 2, 3],
        [0, 2, 1],
        [65535, 1, 1],
    ] {
        assert!(!is_drawing(&sheet, &places), "{places:?}");
    }
    assert!(is_drawing(&sheet, &[0, 2, 2, 65535]), "excess counts not");
    let loose = Draft::new(4095, &[2]).sheet();
    assert!(is_drawing(&loose, &[0, 4095]), "maximum 0 is none");
}

#[test]
fn sheets_of_ticket_4_have_its_totals_and_places() {
    for traced in document::traced() {
        let expected = Some((traced.total, traced.places.to_vec()));
        assert_eq!(best(&traced.draft), expected, "{}", traced.name);
    }
}

#[test]
fn total_adds_every_edge_and_parallel_ones_once() {
    let sheet = Draft::new(5, &[1, 3])
        .edge(1, 1, 3, PLAIN)
        .edge(1, 1, 1, PLAIN)
        .edge(1, 1, 3, STRAIGHT)
        .edge(1, 1, 2, PLAIN)
        .edge(1, 1, 1, PLAIN)
        .edge(1, 1, 3, PLAIN)
        .sheet();
    assert_eq!(total(&sheet, &[0, 1, 10, 100]), 111);
    assert_eq!(total(&sheet, &[100, 0, 0, 0]), 300);
    assert_eq!(total(&sheet, &[65535, 0, 0, 0]), 3 * 65535);
}

#[test]
fn only_edges_with_both_ends_equal_are_parallel() {
    // the positions are the same in both layers, and the first three edges share one end
    let sheet = Draft::new(9, &[2, 2, 2])
        .edge(1, 1, 1, PLAIN)
        .edge(1, 1, 2, PLAIN)
        .edge(1, 2, 1, PLAIN)
        .edge(2, 1, 1, PLAIN)
        .edge(2, 1, 2, PLAIN)
        .sheet();
    assert_eq!(total(&sheet, &[0, 0, 1, 1, 0, 0]), 5);
}

#[test]
fn every_list_of_places_is_tried() {
    assert_eq!(drawings(&Draft::new(4, &[1, 1, 1]).sheet()).len(), 125);
    assert_eq!(drawings(&Draft::new(5, &[3]).sheet()).len(), 20);
}

#[test]
fn leftmost_of_least_drawings_is_one_of_them() {
    let mut random = Random::new(6);
    let (mut drawn, mut several) = (0, 0);
    for _ in 0..SHEETS {
        if let Some((_, least)) = least_drawings(&tiny(&mut random).sheet()) {
            assert!(least.contains(&leftmost(&least)));
            drawn += 1;
            several += usize::from(least.len() > 2);
        }
    }
    assert!(drawn > SHEETS / 3 && drawn < SHEETS, "{drawn}");
    assert!(several > SHEETS / 4, "{several}");
}
