//! Sheets that take long, found by hill-climbing: a sheet is changed a little, and the change is kept where
//! drawing it takes longer.

use crate::clock::Clock;
use crate::sample::Sample;
use strip_tests::draft::{Draft, Separation};
use strip_tests::random::Random;

/// How many changes are tried with each sheet to start from.
const TRIES: usize = 5_000;
/// How many times a changed sheet is drawn; the least time counts.
const DRAWS: usize = 3;
/// How many times as long a changed sheet takes where it is kept: less may be chance.
const LONGER: f64 = 1.01;
/// The greatest minimum separation that a change sets.
const MINIMUM: u16 = 60;

/// The worst sheet found from the one of these that takes longest.
pub fn worst(clock: &Clock, random: &mut Random, sheets: Vec<Draft>) -> Draft {
    climb(clock, random, slowest(clock, sheets))
}

/// The sheet that takes longest.
fn slowest(clock: &Clock, sheets: Vec<Draft>) -> Draft {
    let timed = sheets.into_iter().map(|draft| (time(clock, &draft), draft));
    let longest = timed.max_by(|(a, _), (b, _)| a.partial_cmp(b).expect("times"));
    longest.expect("a sheet").1
}

/// The worst sheet found from a sheet. Both are timed in turn, so that they meet the same load.
fn climb(clock: &Clock, random: &mut Random, start: Draft) -> Draft {
    let mut worst = start;
    for _ in 0..TRIES {
        let mut draft = worst.clone();
        for _ in 0..random.within(1..=4) {
            change(random, &mut draft);
        }
        let longest = time(clock, &worst).expect("a drawing");
        if time(clock, &draft).is_some_and(|time| time > LONGER * longest) {
            worst = draft;
        }
    }
    worst
}

/// The least microseconds for drawing a sheet, if it has a drawing.
fn time(clock: &Clock, draft: &Draft) -> Option<f64> {
    let mut sample = Sample::new(draft.bytes());
    let mut least = f64::INFINITY;
    for _ in 0..DRAWS {
        let (time, total) = clock.time(|| sample.draw());
        total?;
        least = least.min(time);
    }
    Some(least)
}

/// Changes the width, a separation or, most often, the ends of an edge.
fn change(random: &mut Random, draft: &mut Draft) {
    match random.index(8) {
        0 => draft.width = (draft.width + random.within(0..=20)).saturating_sub(10),
        1 | 2 => change_separation(random, draft),
        _ => change_edge(random, draft),
    }
}

/// Gives two neighbours of a layer another minimum separation and no maximum.
fn change_separation(random: &mut Random, draft: &mut Draft) {
    let index = random.index(draft.layers.len());
    let layer = &mut draft.layers[index];
    if !layer.is_empty() {
        let index = random.index(layer.len());
        layer[index] = Separation {
            minimum: random.within(1..=MINIMUM),
            maximum: 0,
        };
    }
}

/// Gives an edge other ends in its layers.
fn change_edge(random: &mut Random, draft: &mut Draft) {
    let index = random.index(draft.edges.len());
    let edge = &mut draft.edges[index];
    let upper = usize::from(edge.layer) - 1;
    let count = |layer: usize| draft.layers[layer].len() as u16 + 1;
    edge.upper = random.within(1..=count(upper));
    edge.lower = random.within(1..=count(upper + 1));
}
