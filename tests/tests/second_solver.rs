//! The drawings and lists that the second implementation finds, against its checker, brute force and
//! the cancelling of cycles.

use second::cancelling;
use second::certificate::{floor, length};
use second::checker::check;
use second::drawing::{least_drawings, leftmost, total};
use second::network::arcs;
use second::solver::solve;
use strip_tests::document;
use strip_tests::generate::{small, tiny};
use strip_tests::planted::{planted, Plan};
use strip_tests::random::Random;

/// How many random sheets a test takes.
const SHEETS: usize = 3000;

#[test]
fn solutions_of_tiny_sheets_are_the_leftmost_least_drawings() {
    let mut random = Random::new(11);
    let mut drawn = 0;
    for _ in 0..SHEETS {
        let draft = tiny(&mut random);
        let sheet = draft.sheet();
        let expected = least_drawings(&sheet).map(|(_, least)| leftmost(&least));
        let found = solve(&sheet);
        let places = found.as_ref().map(|solution| solution.places.clone());
        assert_eq!(places, expected, "{draft:?}");
        if let Some(found) = found {
            let answer = check(&draft.bytes(), &found.places, &found.list);
            assert_eq!(answer, Ok(true), "{draft:?}");
            drawn += 1;
        }
    }
    assert!(drawn > SHEETS / 3 && drawn < SHEETS, "{drawn}");
}

#[test]
fn solutions_of_small_sheets_get_a_yes() {
    let mut random = Random::new(12);
    let (mut drawn, mut long, mut most_nodes, mut most_edges) = (0, 0, 0, 0);
    for _ in 0..2 * SHEETS {
        let draft = small(&mut random);
        let sheet = draft.sheet();
        if let Some(found) = solve(&sheet) {
            let answer = check(&draft.bytes(), &found.places, &found.list);
            assert_eq!(answer, Ok(true), "{draft:?}");
            drawn += 1;
            long += usize::from(total(&sheet, &found.places) > 0);
            most_nodes = sheet.node_count().max(most_nodes);
            most_edges = sheet.edges.len().max(most_edges);
        }
    }
    assert!(drawn > SHEETS && long > SHEETS / 2, "{drawn} {long}");
    assert_eq!((most_nodes, most_edges), (12, 12));
}

/// Sheets of medium size.
const MEDIUM: Plan = Plan {
    layers: 6,
    nodes: 40,
    edges: 60,
    distance: 6,
    play: 4,
    margin: 9,
    straight: 2,
    maximum: 3,
};

#[test]
fn cancelling_cycles_gives_the_same_places() {
    let mut random = Random::new(14);
    let mut drafts: Vec<_> = (0..SHEETS).map(|_| small(&mut random)).collect();
    drafts.extend((0..SHEETS / 20).map(|_| planted(&mut random, &MEDIUM)));
    let mut drawn = 0;
    for draft in drafts {
        let sheet = draft.sheet();
        let found = solve(&sheet).map(|solution| solution.places);
        let expected = cancelling::solve(&sheet).map(|solution| solution.places);
        assert_eq!(found, expected, "{draft:?}");
        drawn += usize::from(found.is_some());
    }
    assert!(drawn > SHEETS / 2 && drawn < SHEETS, "{drawn}");
}

#[test]
fn sheets_of_the_document_are_solved() {
    let undrawn = ["stair, width 0", "stair, second edge straight, width 1"];
    for (name, draft) in document::sheets() {
        let crosses = name.starts_with("crossing");
        match solve(&draft.sheet()) {
            Some(found) => {
                let answer = check(&draft.bytes(), &found.places, &found.list);
                assert_eq!(answer, Ok(true), "{name}");
                assert!(!crosses && !undrawn.contains(&&name[..]), "{name}");
            }
            None => assert!(crosses || undrawn.contains(&&name[..]), "{name}"),
        }
    }
}

#[test]
fn arcs_stand_in_the_order_of_the_list() {
    let mut random = Random::new(13);
    for _ in 0..SHEETS {
        let sheet = small(&mut random).sheet();
        let arcs = arcs(&sheet);
        assert_eq!(arcs.len(), length(&sheet));
        for (i, arc) in arcs.iter().enumerate() {
            let mut list = vec![0; arcs.len()];
            list[i] = 1;
            assert_eq!(floor(&sheet, &list), -arc.cost);
        }
    }
}
