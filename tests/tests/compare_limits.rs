//! Sheets that just have a drawing, others that just have none, those about as large as the arrays for
//! small sheets, and those with the longest edges, drawn by the library and the second implementation.

use compare::{scale, Proved, Tally};
use strip_tests::draft::Draft;
use strip_tests::families::conflicts::{any_spiral, crossed, held, spiral};
use strip_tests::families::turned::{mirrored, upside_down};
use strip_tests::families::{realistic, sizes, widths};
use strip_tests::generate;
use strip_tests::random::Random;

/// Compares sheets in the narrowest width in which the engine draws them, and next to it.
fn compare_narrowest(kind: &str, seed: u64, count: usize, draft: impl Fn(&mut Random) -> Draft) {
    let mut random = Random::new(seed);
    let mut tally = Tally::default();
    let mut answer = |draft: &Draft, width: u16| {
        let narrow = widths::in_width(draft, width);
        let outcome = compare::sheet(&Proved, &narrow.bytes());
        tally.add(&outcome);
        let least = outcome.minimum.map(|minimum| minimum.width);
        (outcome.drawn.is_ok(), least)
    };
    for _ in 0..count * scale() {
        let draft = draft(&mut random);
        if let Some(width) = widths::narrowest(&draft) {
            assert_eq!(answer(&draft, width), (true, Ok(width)));
            assert_eq!(answer(&draft, width + 1), (true, Ok(width)));
            if width > 0 {
                assert_eq!(answer(&draft, width - 1), (false, Ok(width)));
            }
        }
    }
    tally.print(kind);
    assert!(tally.undrawn() > count / 3 && tally.long > count / 4);
}

#[test]
fn small_sheets_in_the_narrowest_width() {
    compare_narrowest("narrowest, small", 130, 3_000, generate::small);
}

#[test]
fn realistic_sheets_in_the_narrowest_width() {
    compare_narrowest("narrowest, realistic", 131, 500, realistic::any);
}

#[test]
fn full_sheets_in_the_narrowest_width() {
    let full = |random: &mut Random| {
        let layers = [4, 8, 64][random.index(3)];
        sizes::full(random, layers)
    };
    compare_narrowest("narrowest, full size", 132, 100, full);
}

/// Compares sheets in which something is missing or not, each also turned around both ways.
fn compare_missing(kind: &str, drafts: impl Iterator<Item = (u16, Draft)>) -> Tally {
    let mut tally = Tally::default();
    for (missing, draft) in drafts {
        for draft in [mirrored(&draft), upside_down(&draft), draft] {
            let outcome = compare::sheet(&Proved, &draft.bytes());
            assert_eq!(outcome.drawn.is_ok(), missing == 0, "{draft:?}");
            tally.add(&outcome);
        }
    }
    tally.print(kind);
    tally
}

#[test]
fn spirals_of_steps_of_1() {
    let lengths = (2..=64).flat_map(|layers| [(0, layers), (1, layers)]);
    let drafts = lengths.map(|(missing, layers)| (missing, spiral(&vec![1; layers], missing)));
    let tally = compare_missing("spirals of steps of 1", drafts);
    assert_eq!((tally.drawn, tally.undrawn()), (189, 189));
}

#[test]
fn random_spirals() {
    let mut random = Random::new(133);
    let missing = (0..400 * scale()).map(|i| i as u16 % 2);
    let drafts = missing.map(|missing| (missing, any_spiral(&mut random, missing)));
    let tally = compare_missing("random spirals", drafts);
    assert_eq!(tally.drawn, 600 * scale());
    assert_eq!(tally.undrawn(), 600 * scale());
}

#[test]
fn maxima_against_minima_through_straight_edges() {
    let mut random = Random::new(134);
    let missing = (0..1_500 * scale()).map(|i| i as u16 % 3);
    let drafts = missing.map(|missing| (missing, held(&mut random, missing)));
    let tally = compare_missing("maxima against minima", drafts);
    assert_eq!(tally.drawn, 1_500 * scale());
    assert_eq!(tally.undrawn(), 3_000 * scale());
}

#[test]
fn straight_edges_that_cross() {
    let mut random = Random::new(135);
    let mut tally = Tally::default();
    for i in 0..1_000 * scale() {
        let draft = match i % 10 {
            0 => sizes::full(&mut random, 8),
            1..=4 => realistic::any(&mut random),
            _ => sizes::medium(&mut random),
        };
        if let Some(crossed) = crossed(&mut random, &draft) {
            tally.add(&compare::sheet(&Proved, &crossed.bytes()));
        }
    }
    tally.print("crossing straight edges");
    assert_eq!(tally.undrawn(), tally.sheets);
    assert_eq!(tally.without_width, tally.sheets);
    assert!(tally.undrawn() > 900);
}

#[test]
fn sheets_about_as_large_as_small_arrays() {
    let kind = "about as large as small arrays";
    let tally = Tally::of_random(&Proved, kind, (137, 1_000), sizes::nearly_small);
    assert_eq!(tally.drawn, tally.sheets);
}

#[test]
fn longest_edges_without_parallel_ones() {
    // both draw it alike, and both checkers say yes to both lists
    let outcome = compare::sheet(&Proved, &sizes::longest_edges().bytes());
    let (total, places) = outcome.drawn.expect("a drawing");
    // 532 less than 512 times the width
    assert_eq!(total, 2_096_108);
    assert!(places.iter().all(|&place| place <= 2 || place >= 4094));
}

#[test]
fn longest_edges_all_of_them_parallel() {
    let outcome = compare::sheet(&Proved, &sizes::longest_parallel().bytes());
    assert_eq!(outcome.drawn, Ok((4095, vec![0, 4095, 0, 4095])));
}

#[test]
fn turned_sheets_keep_their_totals_and_widths() {
    let mut random = Random::new(136);
    let (mut tally, mut tally_turned) = (Tally::default(), Tally::default());
    for _ in 0..1_500 * scale() {
        let draft = match random.within(0..=2) {
            0 => generate::small(&mut random),
            1 => sizes::medium(&mut random),
            _ => realistic::any(&mut random),
        };
        let outcome = compare::sheet(&Proved, &draft.bytes());
        let total = outcome.drawn.as_ref().map(|&(total, _)| total);
        for turned in [mirrored(&draft), upside_down(&draft)] {
            let other = compare::sheet(&Proved, &turned.bytes());
            let other_total = other.drawn.as_ref().map(|&(total, _)| total);
            assert_eq!(other_total, total, "{draft:?}");
            assert_eq!(other.minimum, outcome.minimum, "{draft:?}");
            tally_turned.add(&other);
        }
        tally.add(&outcome);
    }
    tally_turned.print("mirrored and upside down");
    assert!(tally.long > 500 && tally.undrawn() > 100);
}
