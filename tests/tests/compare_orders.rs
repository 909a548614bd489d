//! The order of edges: a sheet with its edges in its own order, reversed, layer by layer and shuffled,
//! answered by the library and the second implementation; and totals in which each layer counts.

mod judged;

use compare::{scale, Outcome, Proved, Tally};
use judged::{Drawn, Words};
use second::certificate::{floor, meets_rules};
use second::drawing::{is_drawing, total};
use strip_tests::draft::Draft;
use strip_tests::families::orders::{
    chain, in_one_pair, in_order, list_in_order, one_in_each_pair, orders, turns,
};
use strip_tests::families::{parallel, sizes};
use strip_tests::generate;
use strip_tests::mutation::lowest;
use strip_tests::random::Random;

/// What is compared of sheets whose edges come in several orders.
struct Orders {
    random: Random,
    tally: Tally,
    words: Words,
}

impl Orders {
    /// Nothing yet; the orders depend on the seed only.
    fn new(seed: u64) -> Orders {
        Orders {
            random: Random::new(seed),
            tally: Tally::default(),
            words: Words::default(),
        }
    }

    /// Compares a sheet in its own order and in others, and gives what is answered. The total, the
    /// places and the minimum width stay; the list serves once its pulls stand in the new order.
    fn compare(&mut self, draft: &Draft) -> Outcome {
        let own = compare::sheet(&Proved, &draft.bytes());
        self.tally.add(&own);
        let drawn = Drawn::new(draft);
        for order in orders(&mut self.random, draft) {
            let other = in_order(draft, &order);
            let outcome = compare::sheet(&Proved, &other.bytes());
            assert_eq!(outcome.drawn, own.drawn, "{draft:?}\n{order:?}");
            assert_eq!(outcome.minimum, own.minimum, "{draft:?}\n{order:?}");
            self.tally.add(&outcome);
            if let (Some(drawn), Some(other)) = (&drawn, Drawn::new(&other)) {
                let list = list_in_order(&drawn.sheet, &drawn.list, &order);
                let is_shown = self.words.judge(&other, &drawn.places, &list);
                assert!(is_shown, "{draft:?}\n{order:?}\n{list:?}");
            }
        }
        own
    }

    /// Checks that most drawings are of other orders, with a list taken over, and tells the counts, with
    /// these lists.
    fn check(&mut self, kind: &str) {
        let Words { yes, no, refused } = self.words;
        assert!(yes >= self.tally.drawn / 2 && no + refused == 0);
        self.tally.yes += yes;
        self.tally.print(kind);
    }
}

#[test]
fn full_sheets_in_each_order() {
    let mut orders = Orders::new(201);
    for layers in [4, 8, 16, 32, 64] {
        for _ in 0..8 * scale() {
            let draft = sizes::full(&mut orders.random, layers);
            orders.compare(&draft);
        }
    }
    orders.check("orders of edges, full size");
    assert_eq!(orders.tally.drawn, orders.tally.sheets);
    assert!(orders.tally.long > orders.tally.sheets / 2);
}

#[test]
fn smaller_sheets_in_each_order() {
    let mut orders = Orders::new(202);
    for i in 0..400 * scale() {
        let draft = match i % 4 {
            0 => sizes::medium(&mut orders.random),
            _ => generate::small(&mut orders.random),
        };
        orders.compare(&draft);
    }
    orders.check("orders of edges, small and medium");
    assert!(orders.tally.long > 1_000 && orders.tally.undrawn() > 300);
}

#[test]
fn parallel_edges_in_each_order() {
    let mut orders = Orders::new(203);
    for i in 0..100 * scale() {
        let draft = match i % 2 {
            0 => parallel::far_apart(&mut orders.random),
            _ => sizes::parallel(&mut orders.random),
        };
        orders.compare(&draft);
    }
    orders.check("orders of edges, parallel");
    assert_eq!(orders.tally.drawn, orders.tally.sheets);
    assert!(orders.tally.long > orders.tally.sheets / 2);
}

#[test]
fn all_edges_in_the_first_or_in_the_last_pair_of_layers() {
    let mut orders = Orders::new(204);
    for layers in [2, 3, 8, 64] {
        for upper_layer in [1, layers - 1] {
            for _ in 0..4 * scale() {
                let draft = in_one_pair(&mut orders.random, layers, upper_layer);
                orders.compare(&draft);
            }
        }
    }
    orders.check("orders of edges, all in one pair of layers");
    assert_eq!(orders.tally.long, orders.tally.sheets);
}

#[test]
fn one_edge_in_each_pair_of_layers() {
    let mut orders = Orders::new(205);
    for layers in [2, 3, 16, 63, 64] {
        for _ in 0..10 * scale() {
            let draft = one_in_each_pair(&mut orders.random, layers);
            orders.compare(&draft);
        }
    }
    orders.check("orders of edges, one in each pair of layers");
    assert_eq!(orders.tally.drawn, orders.tally.sheets);
    assert!(orders.tally.long > orders.tally.sheets / 2);
}

#[test]
fn every_layer_adds_its_length() {
    let mut orders = Orders::new(206);
    let mut total = 0;
    for layers in 1..=64 {
        // the edge into the last layer, with lengths 1, 2 and 3 in turn
        total += if layers > 1 { (layers - 2) % 3 + 1 } else { 0 };
        let outcome = orders.compare(&turns(layers));
        let places = [0, 1, 2, 3].repeat(layers.into());
        assert_eq!(outcome.drawn, Ok((total.into(), places)));
    }
    assert_eq!(total, 126);
    orders.check("orders of edges, each node with one place only");
}

#[test]
fn sheets_without_edges() {
    let mut tally = Tally::default();
    for layers in 1..=64 {
        let counts = generate::full_counts(layers);
        let outcome = compare::sheet(&Proved, &Draft::new(63, &counts).bytes());
        let places = counts.iter().flat_map(|&count| 0..count).collect();
        assert_eq!(outcome.drawn, Ok((0, places)));
        tally.add(&outcome);
    }
    tally.print("without edges");
}

#[test]
fn a_step_in_any_pair_of_layers_is_rejected() {
    let (layers, mut random) = (64, Random::new(207));
    let draft = chain(layers);
    let mut words = Words::default();
    let mut sheets = vec![draft.clone()];
    for order in orders(&mut random, &draft) {
        sheets.push(in_order(&draft, &order));
    }
    for draft in sheets {
        let drawn = Drawn::new(&draft).expect("a drawing");
        let list = vec![0; drawn.list.len()];
        for (above, below) in [(0, 1), (1, 0)] {
            assert!(words.judge(&drawn, &vec![above; layers.into()], &list));
            for last_above in 1..layers {
                let place = |layer| if layer <= last_above { above } else { below };
                let places: Vec<u16> = (1..=layers).map(place).collect();
                assert_eq!(total(&drawn.sheet, &places), 1);
                assert!(!words.judge(&drawn, &places, &list), "{last_above}");
            }
        }
    }
    words.check("steps in one pair of layers", 10, 630, 0);
}

#[test]
fn a_list_that_leaves_out_any_layer_is_rejected() {
    let draft = turns(64);
    let drawn = Drawn::new(&draft).expect("a drawing");
    let mut words = Words::default();
    assert!(words.judge(&drawn, &drawn.places, &drawn.list));
    for left_out in 0..draft.edges.len() {
        let mut fewer = draft.clone();
        fewer.edges.remove(left_out);
        let mut list = Drawn::new(&fewer).expect("a drawing").list;
        list.insert(left_out, 0);
        // the list meets the rules and shows the total without that layer
        assert!(meets_rules(&drawn.sheet, &list));
        let length = left_out as i64 % 3 + 1;
        assert_eq!(floor(&drawn.sheet, &list), 126 - length);
        assert!(!words.judge(&drawn, &drawn.places, &list), "{left_out}");
    }
    words.check("lists that leave out a layer", 1, 63, 0);
}

#[test]
fn longer_drawings_of_many_layers_are_rejected() {
    let mut random = Random::new(208);
    let mut words = Words::default();
    for i in 0..60 * scale() {
        let draft = sizes::full(&mut random, [16, 32, 64][i % 3]);
        let drawn = Drawn::new(&draft).expect("a drawing");
        let places = lowest(&drawn.sheet).expect("a drawing");
        assert!(is_drawing(&drawn.sheet, &places));
        let [least, found] = [&drawn.places, &places].map(|places| total(&drawn.sheet, places));
        let word = words.judge(&drawn, &places, &drawn.list);
        assert_eq!(word, found == least, "{draft:?}");
    }
    words.check("leftmost drawings of many layers", 0, 30, 0);
}
