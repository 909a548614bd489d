//! The families of sheets are what they are said to be.

use std::collections::HashSet;

use second::drawing::{total, Edge, Sheet};
use second::sheet::{read, NUMBER_LIMIT};
use second::solver::solve;
use second::traces::traces;
use strip_tests::damage::DAMAGES;
use strip_tests::draft::Draft;
use strip_tests::families::conflicts::{crossed, held};
use strip_tests::families::turned::{mirrored, upside_down};
use strip_tests::families::{exhaustive, orders, parallel, realistic, sizes, widths};
use strip_tests::random::Random;

/// The sheet of a draft, which must be good.
fn good(draft: &Draft) -> Sheet {
    let mut numbers = [0; NUMBER_LIMIT];
    let read = read(&draft.bytes(), &mut numbers);
    assert_eq!(read, Ok(draft.numbers().len()), "{draft:?}");
    draft.sheet()
}

#[test]
fn all_very_small_sheets_differ() {
    let sheets = exhaustive::sheets();
    let different: HashSet<Vec<u8>> = sheets.iter().map(Draft::bytes).collect();
    assert_eq!(different.len(), sheets.len());
    assert!(sheets.iter().all(|draft| good(draft).node_count() <= 4));
}

#[test]
fn full_sheets_have_all_nodes_and_edges() {
    let mut random = Random::new(51);
    for layers in 4..=64 {
        let sheet = good(&sizes::full(&mut random, layers));
        let sizes = (sheet.layers.len(), sheet.node_count(), sheet.edges.len());
        assert_eq!(sizes, (layers.into(), 256, 512));
    }
}

/// The different pairs of ends that the edges of a sheet have.
fn different_ends(sheet: &Sheet) -> HashSet<(usize, usize)> {
    sheet.edges.iter().map(Edge::ends).collect()
}

#[test]
fn parallel_edges_are_parallel() {
    let mut random = Random::new(52);
    for _ in 0..200 {
        let sheet = good(&sizes::parallel(&mut random));
        assert!(sheet.edges.len() >= 30 && different_ends(&sheet).len() < sheet.edges.len());
        let sheet = good(&parallel::far_apart(&mut random));
        let (first, last) = (&sheet.edges[0], &sheet.edges[sheet.edges.len() * 3 / 4..]);
        assert!(last.iter().any(|edge| edge.ends() == first.ends()));
    }
}

#[test]
fn longest_edges_are_512_and_parallel_or_not() {
    let (parallel, others) = (sizes::longest_parallel(), sizes::longest_edges());
    let counts = |draft: &Draft| {
        (
            good(draft).edges.len(),
            different_ends(&draft.sheet()).len(),
        )
    };
    assert_eq!(counts(&parallel), (512, 1));
    assert_eq!(counts(&others), (512, 512));
    assert_eq!(others.sheet().node_count(), 256);
}

#[test]
fn parallel_edges_of_all_kinds_and_counts_differ() {
    let (kinds, counts) = (parallel::all_kinds(), parallel::all_counts());
    for sheets in [&kinds, &counts] {
        let different: HashSet<Vec<u8>> = sheets.iter().map(Draft::bytes).collect();
        assert_eq!(different.len(), sheets.len());
        assert!(sheets.iter().all(|draft| good(draft).edges.len() >= 2));
    }
    assert!(counts.iter().any(|draft| draft.edges.len() == 512));
}

#[test]
fn layers_of_64_have_nodes_64_apart_and_straight_edges_at_every_place() {
    let mut random = Random::new(58);
    let (mut is_first, mut is_later) = (false, false);
    for _ in 0..50 {
        let sheet = good(&parallel::layers_of_64(&mut random));
        assert_eq!((sheet.node_count(), sheet.edges.len()), (256, 512));
        let ends = different_ends(&sheet);
        let apart = |&(upper, lower): &(usize, usize)| ends.contains(&(upper + 64, lower + 64));
        assert!(ends.iter().any(apart));
        for (&(upper, lower), trace) in &traces(&sheet) {
            let first = &sheet.edges[trace.first];
            assert_eq!(first.ends(), (upper, lower));
            is_first |= trace.straight && first.straight;
            is_later |= trace.straight && !first.straight;
        }
    }
    assert!(is_first && is_later);
}

#[test]
fn the_only_straight_edge_is_a_later_one() {
    let mut random = Random::new(59);
    for _ in 0..300 {
        let draft = sizes::medium(&mut random);
        let changed = parallel::only_later_straight(&mut random, &draft).expect("edges");
        let sheet = good(&changed);
        let straight: Vec<usize> = (0..sheet.edges.len())
            .filter(|&i| sheet.edges[i].straight)
            .collect();
        assert_eq!(straight.len(), 1);
        let ends = sheet.edges[straight[0]].ends();
        assert!(traces(&sheet)[&ends].first < straight[0]);
    }
}

/// The layers of a draft's edges, in the order of the sheet.
fn edge_layers(draft: &Draft) -> Vec<u16> {
    good(draft);
    draft.edges.iter().map(|edge| edge.layer).collect()
}

#[test]
fn orders_of_edges_have_each_edge_once_and_differ() {
    let mut random = Random::new(61);
    let draft = sizes::full(&mut random, 16);
    let own: Vec<usize> = (0..512).collect();
    let orders = orders::orders(&mut random, &draft);
    let different: HashSet<&Vec<usize>> = orders.iter().chain([&own]).collect();
    assert_eq!((orders.len(), different.len()), (6, 7));
    for order in &orders {
        let mut sorted = order.clone();
        sorted.sort();
        assert_eq!(sorted, own);
    }
    let [reversed, top_first, bottom_first] =
        [0, 1, 2].map(|i| edge_layers(&orders::in_order(&draft, &orders[i])));
    assert!(edge_layers(&draft).into_iter().rev().eq(reversed));
    assert!(top_first.windows(2).all(|pair| pair[0] <= pair[1]));
    assert!(bottom_first.windows(2).all(|pair| pair[0] >= pair[1]));
}

#[test]
fn edges_are_in_the_layers_they_are_meant_to_be_in() {
    let mut random = Random::new(62);
    for layers in [2, 3, 16, 64] {
        let each: Vec<u16> = (1..layers).collect();
        assert_eq!(edge_layers(&orders::turns(layers)), each);
        assert_eq!(edge_layers(&orders::chain(layers)), each);
        let mut found = edge_layers(&orders::one_in_each_pair(&mut random, layers));
        found.sort();
        assert_eq!(found, each);
        for upper_layer in [1, layers - 1] {
            let draft = orders::in_one_pair(&mut random, layers, upper_layer);
            assert_eq!(edge_layers(&draft), [upper_layer; 512]);
            assert!(different_ends(&draft.sheet()).len() > 400);
        }
    }
}

#[test]
fn realistic_sheets_are_of_all_sizes() {
    let mut random = Random::new(53);
    for family in [
        realistic::panel,
        realistic::boards,
        realistic::wall,
        realistic::bends,
    ] {
        let (mut least, mut most, mut straight) = (256, 0, 0);
        for _ in 0..300 {
            let sheet = good(&family(&mut random));
            least = sheet.node_count().min(least);
            most = sheet.node_count().max(most);
            straight += usize::from(sheet.edges.iter().any(|edge| edge.straight));
        }
        assert!(least < 30 && most > 100, "{least} {most}");
        assert!(straight > 50, "{straight}");
    }
}

#[test]
fn turning_twice_gives_the_same_sheet() {
    let mut random = Random::new(54);
    let mut changed = 0;
    for _ in 0..300 {
        let draft = sizes::medium(&mut random);
        for turn in [mirrored, upside_down] {
            let turned = turn(&draft);
            good(&turned);
            changed += usize::from(turned.numbers() != draft.numbers());
            assert_eq!(turn(&turned).numbers(), draft.numbers());
        }
    }
    assert!(changed > 500, "{changed}");
}

#[test]
fn the_drawing_of_a_sheet_upside_down_is_upside_down() {
    let mut random = Random::new(55);
    for _ in 0..300 {
        let draft = sizes::medium(&mut random);
        let (sheet, turned) = (draft.sheet(), upside_down(&draft).sheet());
        let places = solve(&sheet).expect("a drawing").places;
        let layers = sheet.layers.iter().rev();
        let expected: Vec<u16> = layers
            .flat_map(|layer| places[layer.first..=layer.last].to_vec())
            .collect();
        assert_eq!(solve(&turned).expect("a drawing").places, expected);
        assert_eq!(total(&turned, &expected), total(&sheet, &places));
    }
}

#[test]
fn narrowest_widths_and_conflicts_are_at_the_limit() {
    let mut random = Random::new(56);
    let is_drawn = |draft: &Draft| solve(&good(draft)).is_some();
    for _ in 0..100 {
        let draft = sizes::medium(&mut random);
        let width = widths::narrowest(&draft).expect("a drawing");
        assert!(is_drawn(&widths::in_width(&draft, width)));
        assert!(width == 0 || !is_drawn(&widths::in_width(&draft, width - 1)));
        assert!(is_drawn(&held(&mut random, 0)) && !is_drawn(&held(&mut random, 1)));
        let crossed = crossed(&mut random, &draft);
        assert!(crossed.map_or(true, |draft| !is_drawn(&draft)));
    }
}

#[test]
fn every_damage_changes_most_sheets() {
    let mut random = Random::new(57);
    for (name, damage) in DAMAGES {
        let mut changed = 0;
        for _ in 0..100 {
            let bytes = sizes::medium(&mut random).bytes();
            changed += usize::from(damage(&mut random, &bytes) != bytes);
        }
        assert!(changed > 50, "{name}: {changed}");
    }
}
