//! Checkers: what the library and the second implementation say on random ways from least drawings
//! and their lists.

mod judged;

use compare::scale;
use judged::{Drawn, Words};
use second::certificate;
use second::drawing::Sheet;
use strip_tests::draft::Draft;
use strip_tests::families::turned::mirrored;
use strip_tests::families::{realistic, sizes};
use strip_tests::generate;
use strip_tests::mutation::circulate;
use strip_tests::random::Random;

/// The rightmost least drawing: the leftmost one of the mirrored sheet, mirrored.
fn rightmost(draft: &Draft, sheet: &Sheet) -> Vec<u16> {
    let drawn = Drawn::new(&mirrored(draft)).expect("mirrored sheets have drawings");
    let layers = sheet.layers.iter();
    let nodes = layers.flat_map(|layer| (layer.first..=layer.last).rev());
    nodes.map(|node| sheet.width - drawn.places[node]).collect()
}

/// The leftmost and the rightmost least drawing, and the middle of both, rounded both ways.
fn least(draft: &Draft, drawn: &Drawn) -> [Vec<u16>; 4] {
    let rightmost = rightmost(draft, &drawn.sheet);
    let middle = |more: u16| {
        let both = drawn.places.iter().zip(&rightmost);
        both.map(|(left, right)| (left + right + more) / 2)
            .collect()
    };
    [middle(0), middle(1), drawn.places.clone(), rightmost]
}

/// Changes places or a list a little.
fn step(random: &mut Random, sheet: &Sheet, places: &mut [u16], list: &mut [i32]) {
    let aside = [1, u16::MAX][random.index(2)];
    match random.within(0..=5) {
        0 => {
            let place = &mut places[random.index(sheet.node_count())];
            *place = place.wrapping_add(aside);
        }
        1 => {
            let layer = &sheet.layers[random.index(sheet.layers.len())];
            let from = layer.first + random.index(layer.last + 1 - layer.first);
            for place in &mut places[from..=layer.last] {
                *place = place.wrapping_add(aside);
            }
        }
        2 => list[random.index(certificate::length(sheet))] = random.signed(),
        _ => {
            let amounts = [1, -1, 2, 1 << 30, i32::MAX];
            let amount = amounts[random.index(amounts.len())];
            circulate(random, sheet, list, amount);
        }
    }
}

/// Compares places and lists on random ways from those of least drawings; each way ends at a no.
fn judge_ways_from(
    words: &mut Words,
    random: &mut Random,
    (draft, drawn): (&Draft, &Drawn),
    steps: usize,
) {
    let least = least(draft, drawn);
    for places in &least {
        assert!(words.judge(drawn, places, &drawn.list), "{places:?}");
    }
    let start = |random: &mut Random| (least[random.index(4)].clone(), drawn.list.clone());
    let (mut places, mut list) = start(random);
    for _ in 0..steps {
        step(random, &drawn.sheet, &mut places, &mut list);
        if !words.judge(drawn, &places, &list) {
            (places, list) = start(random);
        }
    }
}

/// Compares random ways from drawings of a kind.
fn judge_ways(
    kind: &str,
    (seed, count, steps): (u64, usize, usize),
    draft: impl Fn(&mut Random) -> Draft,
) {
    let mut random = Random::new(seed);
    let mut words = Words::default();
    for _ in 0..count * scale() {
        let draft = draft(&mut random);
        if let Some(drawn) = Drawn::new(&draft) {
            judge_ways_from(&mut words, &mut random, (&draft, &drawn), steps);
        }
    }
    words.check(kind, count * 2, count * steps / 3, 0);
}

#[test]
fn ways_from_tiny_drawings() {
    judge_ways("lists and places, tiny", (192, 6_000, 20), generate::tiny);
}

#[test]
fn ways_from_medium_drawings() {
    judge_ways("lists and places, medium", (193, 1_000, 60), sizes::medium);
}

#[test]
fn ways_from_realistic_drawings() {
    let plan = (194, 1_000, 60);
    judge_ways("lists and places, realistic", plan, realistic::any);
}

#[test]
fn ways_from_full_drawings() {
    let full = |random: &mut Random| sizes::full(random, 8);
    judge_ways("lists and places, full size", (195, 100, 100), full);
}
