//! Damaged sheets, answered by the library and the second implementation.

use compare::{page, scale, Proved, Tally};
use strip_tests::damage::DAMAGES;
use strip_tests::document::{self, REFUSED};
use strip_tests::draft::Draft;
use strip_tests::examples::examples;
use strip_tests::families::{realistic, sizes};
use strip_tests::generate;
use strip_tests::mutation::{byte_changes, damages};
use strip_tests::random::Random;

/// Compares random sheets of a kind, each with damage of every kind.
fn compare_damaged(
    kind: &str,
    (seed, count): (u64, usize),
    draft: impl Fn(&mut Random) -> Draft,
) -> Tally {
    let mut random = Random::new(seed);
    let mut tally = Tally::default();
    for _ in 0..count * scale() {
        let bytes = draft(&mut random).bytes();
        for (_, damage) in DAMAGES {
            let damaged = damage(&mut random, &bytes);
            tally.add(&compare::sheet(&Proved, &damaged));
        }
    }
    tally.print(kind);
    tally
}

/// Checks that each of refusals 1 to 6 has come up this many times.
fn check_refusals(tally: &Tally, least: [usize; 6]) {
    for (number, least) in (1..).zip(least) {
        let count = tally.refused[number];
        assert!(count >= least, "refused {number}: {count} times only");
    }
}

#[test]
fn the_page_tells_how_many_kinds_of_damage_there_are() {
    page::check_said(&format!("Damage is of {} kinds: ", DAMAGES.len()));
}

#[test]
fn damaged_tiny_sheets() {
    let tally = compare_damaged("damaged, tiny", (151, 5_000), generate::tiny);
    check_refusals(&tally, [5_000, 2_000, 4_000, 10_000, 2_000, 4_000]);
    assert!(tally.drawn > 1_000 && tally.undrawn() > 1_000);
    assert!(tally.narrowed > 5_000 && tally.without_width > 200);
}

#[test]
fn damaged_sheets_of_any_numbers() {
    let tally = compare_damaged("damaged, any numbers", (152, 3_000), generate::good);
    check_refusals(&tally, [2_000, 700, 3_000, 7_000, 2_000, 2_000]);
    assert!(tally.drawn > 100 && tally.undrawn() > 100);
    assert!(tally.narrowed > 1_000 && tally.without_width > 1_000);
}

#[test]
fn damaged_medium_and_realistic_sheets() {
    let tally = compare_damaged("damaged, medium", (153, 800), sizes::medium);
    check_refusals(&tally, [600, 10, 700, 3_000, 300, 600]);
    assert!(tally.drawn > 800 && tally.undrawn() > 50);
    let tally = compare_damaged("damaged, realistic", (154, 800), realistic::any);
    check_refusals(&tally, [600, 10, 700, 3_000, 300, 600]);
    assert!(tally.drawn > 800 && tally.undrawn() > 50);
}

#[test]
fn damaged_full_sheets() {
    let full = |random: &mut Random| {
        let layers = [4, 8, 16, 64][random.index(4)];
        sizes::full(random, layers)
    };
    let tally = compare_damaged("damaged, full size", (155, 120), full);
    check_refusals(&tally, [80, 3, 80, 400, 50, 80]);
    assert!(tally.drawn > 100);
}

#[test]
fn every_damage_of_the_examples() {
    let mut tally = Tally::default();
    for (_, bytes) in REFUSED {
        tally.add(&compare::sheet(&Proved, bytes));
    }
    for (_, draft) in &examples()[..3] {
        for (_, damaged) in damages(&draft.bytes(), byte_changes) {
            for bytes in damaged {
                tally.add(&compare::sheet(&Proved, &bytes));
            }
        }
    }
    tally.print("damaged examples");
    check_refusals(&tally, [300, 40, 100, 300, 10, 10]);
    assert!(tally.drawn > 100);
}

#[test]
fn every_damage_of_the_sheets_of_the_document() {
    let mut tally = Tally::default();
    for (_, draft) in document::sheets() {
        for (_, damaged) in damages(&draft.bytes(), byte_changes) {
            for bytes in damaged {
                tally.add(&compare::sheet(&Proved, &bytes));
            }
        }
    }
    tally.print("damaged sheets of document 01");
    check_refusals(&tally, [300, 200, 100, 500, 50, 50]);
    assert!(tally.drawn > 100 && tally.undrawn() > 50);
}
