//! Parallel edges: the sheets of document 02's ticket 4 by hand, sheets of all kinds, and changes of
//! parallel edges that leave the drawing as it is; answered by the library and the second implementation.

mod judged;

use compare::{scale, Library, Outcome, Proved, Tally};
use judged::{Drawn, Words};
use second::sheet::{PLAIN, STRAIGHT};
use strip_tests::document;
use strip_tests::draft::Draft;
use strip_tests::families::{parallel, realistic, sizes};
use strip_tests::generate;
use strip_tests::mutation::{around_parallel_edges, moved_pull, parallel_pairs};
use strip_tests::random::Random;

/// Compares all that is answered to a sheet.
fn compared(draft: &Draft) -> Outcome {
    compare::sheet(&Proved, &draft.bytes())
}

#[test]
fn sheets_of_ticket_4_are_drawn() {
    for traced in document::traced() {
        let expected = Ok((traced.total, traced.places.to_vec()));
        assert_eq!(compared(&traced.draft).drawn, expected, "{}", traced.name);
    }
    // whichever of the two is straight
    for kinds in [[STRAIGHT, PLAIN], [STRAIGHT, STRAIGHT]] {
        let drawn = compared(&document::one_over_three_of(kinds)).drawn;
        assert_eq!(drawn, Ok((2, vec![2, 0, 1, 2])), "{kinds:?}");
    }
}

#[test]
fn lists_of_ticket_4_are_checked() {
    for traced in document::traced() {
        let bytes = traced.draft.bytes();
        let word = |list: &[i32]| Proved.check(&bytes, &traced.places, list);
        assert_eq!(word(&traced.list), Ok(true), "{}", traced.name);
        for amount in [-2, -1, 1, 2] {
            for list in around_parallel_edges(&traced.draft.sheet(), &traced.list, amount) {
                assert_eq!(word(&list), Ok(false), "{}, {list:?}", traced.name);
            }
        }
    }
}

#[test]
fn a_list_that_counts_each_edge_is_rejected() {
    // with each edge counted the upper node stands at 2, and this list shows it
    let bytes = document::one_over_three().bytes();
    let list = [-1, 1, 1, 0, 1, 1, 2, 0, 2, 0, 0];
    assert_eq!(Proved.check(&bytes, &[2, 0, 1, 2], &list), Ok(false));
    // the places have the least total all the same
    let list = [-1, 1, 0, 0, 0, 0, 1, 0, 1, 0, 0];
    assert_eq!(Proved.check(&bytes, &[2, 0, 1, 2], &list), Ok(true));
}

#[test]
fn from_two_to_512_edges() {
    let sheets = parallel::all_counts().into_iter();
    let tally = Tally::of(&Proved, "from 2 to 512 parallel edges", sheets);
    assert_eq!((tally.sheets, tally.drawn), (2_043, 2_043));
    assert_eq!(tally.long, 2_039);
    for count in [2, 3, 255, 256, 257, 511] {
        // a straight edge draws the lower node below the second one
        let drawn = |straight| compared(&parallel::counted(count, straight)).drawn;
        assert_eq!(drawn(None), Ok((1, vec![0, 1, 0])));
        assert_eq!(drawn(Some(count - 1)), Ok((1, vec![0, 1, 1])));
    }
}

#[test]
fn edges_far_apart() {
    let plan = (171, 1_000);
    let tally = Tally::of_random(&Proved, "parallel, far apart", plan, parallel::far_apart);
    assert_eq!(tally.drawn, tally.sheets);
    assert!(tally.long > tally.sheets / 2);
}

#[test]
fn edges_of_layers_of_64() {
    let plan = (172, 150);
    let tally = Tally::of_random(
        &Proved,
        "parallel, layers of 64",
        plan,
        parallel::layers_of_64,
    );
    assert_eq!((tally.drawn, tally.long), (tally.sheets, tally.sheets));
}

#[test]
fn only_a_later_edge_is_straight() {
    let mut random = Random::new(173);
    let mut tally = Tally::default();
    for i in 0..3_000 * scale() {
        let draft = match i % 10 {
            0 => sizes::medium(&mut random),
            _ => generate::small(&mut random),
        };
        if let Some(draft) = parallel::only_later_straight(&mut random, &draft) {
            tally.add(&compared(&draft));
        }
    }
    tally.print("parallel, only a later one straight");
    assert!(tally.drawn > 1_000 && tally.long > 500 && tally.undrawn() > 300);
}

/// A sheet with parallel edges or without.
fn any(random: &mut Random) -> Draft {
    match random.within(0..=4) {
        0 => sizes::parallel(random),
        1 => parallel::far_apart(random),
        2 => realistic::any(random),
        _ => generate::small(random),
    }
}

/// Compares sheets with changed ones: the total, the places and the minimum width stay.
fn compare_changed(
    kind: &str,
    seed: u64,
    change: impl Fn(&mut Random, &Draft) -> Option<Draft>,
    least: usize,
) {
    let mut random = Random::new(seed);
    let mut tally = Tally::default();
    for _ in 0..1_000 * scale() {
        let draft = any(&mut random);
        if let Some(changed) = change(&mut random, &draft) {
            let (before, after) = (compared(&draft), compared(&changed));
            assert_eq!(before.drawn, after.drawn, "{draft:?}\n{changed:?}");
            assert_eq!(before.minimum, after.minimum, "{draft:?}\n{changed:?}");
            tally.add(&after);
        }
    }
    tally.print(kind);
    assert!(tally.long > least, "{}", tally.long);
}

#[test]
fn without_later_plain_edges_the_drawing_stays() {
    let dropped = |_: &mut Random, draft: &Draft| {
        let (reduced, _) = parallel::without_later_plain(draft);
        (reduced.edges.len() < draft.edges.len()).then_some(reduced)
    };
    compare_changed("later plain parallel edges dropped", 174, dropped, 300);
}

#[test]
fn with_a_plain_edge_doubled_the_drawing_stays() {
    let doubled = parallel::with_plain_doubled;
    compare_changed("a plain edge doubled", 175, doubled, 300);
}

#[test]
fn with_the_kinds_of_parallel_edges_exchanged_the_drawing_stays() {
    let exchanged = parallel::with_kinds_exchanged;
    compare_changed("kinds of parallel edges exchanged", 176, exchanged, 100);
}

#[test]
fn lists_without_later_plain_edges_serve_with_zeros() {
    let mut random = Random::new(177);
    let mut words = Words::default();
    for _ in 0..1_000 * scale() {
        let draft = any(&mut random);
        let (reduced, stays) = parallel::without_later_plain(&draft);
        let (Some(drawn), Some(fewer)) = (Drawn::new(&draft), Drawn::new(&reduced)) else {
            continue;
        };
        let mut numbers = fewer.list.iter().copied();
        let mut list: Vec<i32> = Vec::new();
        for stays in stays {
            list.push(if stays {
                numbers.next().expect("a pull")
            } else {
                0
            });
        }
        list.extend(numbers);
        assert!(words.judge(&drawn, &fewer.places, &list), "{draft:?}");
    }
    words.check("lists with zeros for later plain edges", 500, 0, 0);
}

#[test]
fn pulls_on_later_edges_are_rejected() {
    let mut random = Random::new(178);
    let mut words = Words::default();
    for _ in 0..2_000 * scale() {
        let draft = any(&mut random);
        let Some(drawn) = Drawn::new(&draft) else {
            continue;
        };
        let pairs = parallel_pairs(&drawn.sheet);
        if pairs.is_empty() {
            continue;
        }
        let (first, later) = pairs[random.index(pairs.len())];
        for amount in [drawn.list[first], 1, -1, 2, i32::MAX] {
            if amount != 0 {
                let list = moved_pull(&drawn.list, first, later, amount);
                assert!(!words.judge(&drawn, &drawn.places, &list), "{draft:?}");
            }
        }
    }
    words.check("pulls moved to later parallel edges", 0, 3_000, 0);
}
