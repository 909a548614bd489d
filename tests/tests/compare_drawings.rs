//! Drawings of the library, against those of the second implementation, and brute force.

use compare::{scale, Outcome, Proved, Tally};
use second::drawing::{least_drawings, leftmost};
use strip_tests::draft::Draft;
use strip_tests::families::{exhaustive, parallel, realistic, sizes};
use strip_tests::generate;
use strip_tests::random::Random;

/// Compares an answer with that of brute force.
fn compare_with_brute_force(draft: &Draft, outcome: &Outcome) {
    let expected = least_drawings(&draft.sheet());
    let expected = expected.map(|(total, least)| (total, leftmost(&least)));
    assert_eq!(outcome.drawn.clone().ok(), expected, "{draft:?}");
}

#[test]
fn all_sheets_within_very_small_limits() {
    let mut tally = Tally::default();
    for draft in exhaustive::sheets() {
        let outcome = compare::sheet(&Proved, &draft.bytes());
        compare_with_brute_force(&draft, &outcome);
        tally.add(&outcome);
    }
    tally.print("very small");
    assert_eq!((tally.sheets, tally.undrawn()), (27_208, 18_300));
    assert!(tally.drawn > 6_000 && tally.long > 1_000);
    assert_eq!((tally.narrowed, tally.without_width), (23_032, 4_176));
}

#[test]
fn tiny_sheets() {
    let mut random = Random::new(101);
    let mut tally = Tally::default();
    for _ in 0..10_000 * scale() {
        let draft = generate::tiny(&mut random);
        let outcome = compare::sheet(&Proved, &draft.bytes());
        compare_with_brute_force(&draft, &outcome);
        tally.add(&outcome);
    }
    tally.print("tiny");
    assert!(tally.drawn > 4_000 && tally.long > 1_000 && tally.yes > 10_000);
    assert!(tally.undrawn() > 2_000);
    assert!(tally.narrowed > 8_000 && tally.without_width > 300);
}

#[test]
fn small_sheets() {
    let tally = Tally::of_random(&Proved, "small", (102, 20_000), generate::small);
    assert!(tally.drawn > 6_000 && tally.long > 4_000);
    assert!(tally.undrawn() > 4_000);
    assert!(tally.narrowed > 14_000 && tally.without_width > 3_000);
}

#[test]
fn sheets_of_any_numbers() {
    let tally = Tally::of_random(&Proved, "any numbers", (103, 5_000), generate::good);
    assert!(tally.drawn > 500 && tally.undrawn() > 1_000);
    assert!(tally.narrowed > 1_500 && tally.without_width > 2_000);
}

#[test]
fn medium_sheets() {
    let tally = Tally::of_random(&Proved, "medium", (104, 5_000), sizes::medium);
    assert_eq!(tally.drawn, 5_000 * scale());
    assert_eq!(tally.narrowed, tally.sheets);
    assert!(tally.long > tally.sheets / 2);
}

#[test]
fn sheets_with_parallel_edges() {
    let tally = Tally::of_random(&Proved, "parallel edges", (105, 3_000), sizes::parallel);
    assert_eq!(tally.drawn, 3_000 * scale());
    assert_eq!(tally.narrowed, tally.sheets);
    assert!(tally.long > tally.sheets / 2);
}

#[test]
fn parallel_edges_of_all_kinds_in_each_order() {
    let mut tally = Tally::default();
    for draft in parallel::all_kinds() {
        let outcome = compare::sheet(&Proved, &draft.bytes());
        compare_with_brute_force(&draft, &outcome);
        tally.add(&outcome);
    }
    tally.print("parallel edges of all kinds in each order");
    assert_eq!((tally.sheets, tally.drawn), (672, 672));
    assert!(tally.long > 300);
}

#[test]
fn realistic_sheets() {
    let tally = Tally::of_random(&Proved, "realistic", (106, 4_000), realistic::any);
    assert!(tally.drawn > tally.sheets / 2 && tally.long > tally.sheets / 2);
    assert!(tally.narrowed > tally.sheets / 2 && tally.without_width > 20);
}

/// Compares sheets of full size in this many layers.
fn compare_full(kind: &str, layers: u16) {
    let full = |random: &mut Random| sizes::full(random, layers);
    let tally = Tally::of_random(&Proved, kind, (110 + u64::from(layers), 200), full);
    assert_eq!(tally.drawn, 200 * scale());
    assert_eq!(tally.narrowed, tally.sheets);
    assert!(tally.long > tally.sheets / 2);
}

#[test]
fn full_sheets_of_few_layers() {
    compare_full("full size, 4 layers", 4);
    compare_full("full size, 5 layers", 5);
    compare_full("full size, 8 layers", 8);
}

#[test]
fn full_sheets_of_many_layers() {
    compare_full("full size, 16 layers", 16);
    compare_full("full size, 32 layers", 32);
    compare_full("full size, 64 layers", 64);
}

#[test]
fn fullest_sheets() {
    let tally = Tally::of(&Proved, "fullest", (1..=64).map(generate::fullest));
    assert_eq!((tally.undrawn(), tally.without_width), (64, 64));
}
