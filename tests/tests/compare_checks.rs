//! Checkers: what the library and the second implementation say to places and pull lists of any
//! kind, most of them near misses.

mod judged;

use compare::scale;
use judged::{Drawn, Words};
use second::sheet::STRAIGHT;
use strip_tests::document;
use strip_tests::draft::Draft;
use strip_tests::generate;
use strip_tests::mutation::{
    around_layers, around_pairs, around_parallel_edges, byte_changes, changed, damages, exchanged,
    moved_pushes, place_changes, pull_changes, truncated,
};
use strip_tests::random::Random;

/// What a number of a list is changed to at the ends of 32 bits.
fn extreme_changes(n: i32) -> Vec<i32> {
    vec![i32::MIN, i32::MAX, -i32::MAX, 0, n.wrapping_add(2), !n]
}

/// Compares every near miss of a drawing.
fn judge_all(words: &mut Words, drawn: &Drawn) {
    let (sheet, places, list) = (&drawn.sheet, &drawn.places, &drawn.list);
    assert!(words.judge(drawn, places, list));
    let mut lists = changed(list, pull_changes);
    lists.extend(changed(list, extreme_changes));
    lists.extend(exchanged(list));
    lists.extend(moved_pushes(sheet, list));
    lists.extend(truncated(list));
    for amount in [1, -1, 2, 1 << 24] {
        lists.extend(around_layers(sheet, list, amount));
        lists.extend(around_pairs(sheet, list, amount));
        for list in around_parallel_edges(sheet, list, amount) {
            assert!(!words.judge(drawn, places, &list), "{list:?}");
        }
    }
    for list in lists {
        words.judge(drawn, places, &list);
    }
    let mut moved = changed(places, place_changes);
    moved.extend(changed(places, |_| vec![0, 4095, 4096, 65535]));
    moved.extend(exchanged(places));
    moved.extend(truncated(places));
    for places in moved {
        words.judge(drawn, &places, list);
    }
}

#[test]
fn every_near_miss_of_the_sheets_of_the_document() {
    let mut words = Words::default();
    for (_, draft) in document::sheets() {
        if let Some(drawn) = Drawn::new(&draft) {
            judge_all(&mut words, &drawn);
        }
    }
    words.check("near misses of document 01", 20, 500, 90);
}

#[test]
fn lists_of_the_document_with_damaged_sheets() {
    let mut words = Words::default();
    for (_, draft) in document::sheets() {
        let Some(mut drawn) = Drawn::new(&draft) else {
            continue;
        };
        let (places, list) = (drawn.places.clone(), drawn.list.clone());
        for (_, damaged) in damages(&draft.bytes(), byte_changes) {
            for bytes in damaged {
                drawn.bytes = bytes;
                words.judge(&drawn, &places, &list);
            }
        }
    }
    words.check("lists of document 01 with damaged sheets", 20, 50, 500);
}

#[test]
fn every_near_miss_of_small_sheets() {
    let mut random = Random::new(191);
    let mut words = Words::default();
    for _ in 0..1_500 * scale() {
        if let Some(drawn) = Drawn::new(&generate::small(&mut random)) {
            judge_all(&mut words, &drawn);
        }
    }
    words.check("near misses of small sheets", 3_000, 100_000, 10_000);
}

#[test]
fn sums_that_pass_32_bits() {
    let mut random = Random::new(196);
    let mut words = Words::default();
    for _ in 0..20_000 * scale() {
        let layers = random.within(3..=8);
        let mut draft = Draft::new(0, &vec![1; layers.into()]);
        for layer in 1..layers {
            draft = draft.edge(layer, 1, 1, STRAIGHT);
        }
        let drawn = Drawn::new(&draft).expect("a chain of straight edges has a drawing");
        let ends = [i32::MAX, -i32::MAX, i32::MIN, 1, 2, 1 << 30, -(1 << 30)];
        let pulls: Vec<i32> = (1..layers).map(|_| ends[random.index(7)]).collect();
        // what the boundaries push against, in 32 bits
        let above = [0].iter().chain(&pulls);
        let below = pulls.iter().chain(&[0]);
        let pulled = above
            .zip(below)
            .map(|(above, below)| above.wrapping_sub(*below));
        let pushes = pulled.flat_map(|pull| [pull.max(0), pull.wrapping_neg().max(0)]);
        let list: Vec<i32> = pulls.iter().copied().chain(pushes).collect();
        words.judge(&drawn, &drawn.places, &list);
    }
    words.check("lists of pulls that pass 32 bits", 100, 10_000, 0);
}

#[test]
fn any_places_and_lists() {
    let mut random = Random::new(197);
    let mut words = Words::default();
    for _ in 0..5_000 * scale() {
        let draft = generate::good(&mut random);
        let drawn = Drawn {
            sheet: draft.sheet(),
            bytes: draft.bytes(),
            places: Vec::new(),
            list: Vec::new(),
        };
        let places: Vec<u16> = (0..256).map(|_| random.within(0..=65535)).collect();
        let list: Vec<i32> = (0..1024).map(|_| random.signed()).collect();
        words.judge(&drawn, &places, &list);
        words.judge(&drawn, &[0; 256], &[0; 1024]);
        words.judge(&drawn, &places[..random.index(20)], &list);
    }
    words.check("any places and lists", 10, 5_000, 1_000);
}
