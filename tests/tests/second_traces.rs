//! Traces in the second implementation, against document 02's ticket 4 written out by hand, and word
//! for word on random sheets.

use second::drawing::{Edge, Sheet};
use second::sheet::{PLAIN, STRAIGHT};
use second::traces::{pulls, traces, Pull, Trace};
use strip_tests::document;
use strip_tests::draft::Draft;
use strip_tests::families::{parallel, sizes};
use strip_tests::generate::small;
use strip_tests::random::Random;

/// What a trace is that has its first edge there and is straight or not.
fn trace(first: usize, straight: bool) -> Trace {
    Trace { first, straight }
}

#[test]
fn ends_decide_and_not_kinds_or_order() {
    let sheet = Draft::new(9, &[2, 2, 1])
        .edge(1, 1, 1, PLAIN)
        .edge(1, 1, 2, PLAIN)
        .edge(2, 1, 1, STRAIGHT)
        .edge(1, 1, 1, STRAIGHT)
        .edge(1, 2, 1, PLAIN)
        .edge(2, 1, 1, PLAIN)
        .edge(1, 1, 1, PLAIN)
        .edge(1, 2, 1, PLAIN)
        .sheet();
    let expected = [
        ((0, 2), trace(0, true)),
        ((0, 3), trace(1, false)),
        ((1, 2), trace(4, false)),
        ((2, 4), trace(2, true)),
    ];
    assert_eq!(traces(&sheet), expected.into_iter().collect());
    let (none, plain, free) = (Pull::None, Pull::Plain, Pull::Free);
    let expected = [free, plain, free, none, plain, none, none, none];
    assert_eq!(pulls(&sheet), expected);
}

#[test]
fn the_first_parallel_edge_of_ticket_4_carries_the_pull() {
    let [next, apart, straight] = document::traced().map(|traced| pulls(&traced.draft.sheet()));
    assert_eq!(next, [Pull::Plain, Pull::Plain, Pull::None]);
    assert_eq!(apart, [Pull::Plain, Pull::Plain, Pull::None]);
    assert_eq!(straight, [Pull::Plain, Pull::Free, Pull::None]);
}

/// The pull that an edge may carry, by comparing it with all others.
fn pull(sheet: &Sheet, i: usize) -> Pull {
    let is_parallel = |other: &&Edge| other.ends() == sheet.edges[i].ends();
    if sheet.edges[..i].iter().any(|other| is_parallel(&other)) {
        return Pull::None;
    }
    let mut parallel = sheet.edges.iter().filter(is_parallel);
    match parallel.any(|edge| edge.straight) {
        true => Pull::Free,
        false => Pull::Plain,
    }
}

#[test]
fn every_edge_carries_what_the_ticket_says() {
    let mut random = Random::new(60);
    let mut counts = [0; 3];
    for i in 0..400 {
        let draft = match i % 4 {
            0 => sizes::parallel(&mut random),
            1 => parallel::far_apart(&mut random),
            2 => parallel::layers_of_64(&mut random),
            _ => small(&mut random),
        };
        let sheet = draft.sheet();
        let expected: Vec<Pull> = (0..sheet.edges.len()).map(|i| pull(&sheet, i)).collect();
        assert_eq!(pulls(&sheet), expected, "{draft:?}");
        for pull in expected {
            counts[pull as usize] += 1;
        }
    }
    assert!(counts.iter().all(|&count| count > 1_000), "{counts:?}");
}
