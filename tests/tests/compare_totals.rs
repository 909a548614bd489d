//! Totals at many widths, told by the library and the second implementation: what documents 01 and 02 say of
//! sheets by hand, lists at their limits, refusals in their order, lists and slices of every length, and 64
//! different widths.

mod answers;

use std::collections::BTreeSet;

use answers::Answers;
use compare::totals::{into, Entries};
use compare::{grouped, page, scale, Library, Proved};
use second::minimum_width::least_width;
use second::refusal::{self, Refusal};
use second::sheet::{PLAIN, STRAIGHT, WIDTH_LIMIT};
use second::totals::{NO_TOTAL, WIDTHS_LIMIT};
use strip_tests::damage::DAMAGES;
use strip_tests::document::{self, NO_DRAWING, ONE_NODE, REFUSED};
use strip_tests::draft::Draft;
use strip_tests::families::orders::shuffled;
use strip_tests::families::sizes::{longest_edges, longest_parallel};
use strip_tests::families::widths::{in_width, layer};
use strip_tests::families::{realistic, sizes};
use strip_tests::generate;
use strip_tests::random::Random;

/// Entries, or number and offset.
type Told = Result<Vec<u32>, (u32, usize)>;

/// The greatest width, and the first number past it.
const GREATEST: u32 = WIDTH_LIMIT as u32;
const TOO_GREAT: u32 = GREATEST + 1;

/// Compares the totals at widths in slices of this length.
fn lent(bytes: &[u8], widths: &[u32], room: usize) -> Told {
    let answer = into(&Proved, bytes, widths, room);
    answer.map_err(|Refusal { number, offset }| (number, offset))
}

/// Compares the totals at widths in slices of just their count, and of 3 more.
fn told(bytes: &[u8], widths: &[u32]) -> Told {
    let exact = lent(bytes, widths, widths.len());
    assert_eq!(lent(bytes, widths, widths.len() + 3), exact);
    exact
}

/// Compares the totals at widths of a sheet, and of the same sheet in other widths.
fn told_of(draft: &Draft, widths: &[u32]) -> Told {
    let own = told(&draft.bytes(), widths);
    for width in [0, 1, 2, WIDTH_LIMIT] {
        let other = in_width(draft, width);
        assert_eq!(told(&other.bytes(), widths), own, "in width {width}");
    }
    own
}

#[test]
fn stair() {
    let expected = vec![NO_TOTAL, 2, 1, 0, 0];
    let stair = document::stair(2, PLAIN);
    assert_eq!(told_of(&stair, &[0, 1, 2, 3, 4]), Ok(expected));
}

#[test]
fn stair_with_its_second_edge_straight() {
    let expected = vec![NO_TOTAL, NO_TOTAL, 1, 0, 0];
    let stair = document::stair(2, STRAIGHT);
    assert_eq!(told_of(&stair, &[0, 1, 2, 3, 4]), Ok(expected));
}

#[test]
fn straight_edges_that_cross() {
    let crossing = document::crossing();
    for start in 0..65 {
        let widths: Vec<u32> = (start..=GREATEST).step_by(65).collect();
        let expected = vec![NO_TOTAL; widths.len()];
        assert_eq!(told(&crossing.bytes(), &widths), Ok(expected));
    }
}

#[test]
fn first_sheet() {
    let expected = vec![1, NO_TOTAL];
    assert_eq!(told_of(&document::first(), &[5, 0]), Ok(expected));
}

#[test]
fn two_over_three() {
    for (maximum, total) in [(0, 0), (1, 1)] {
        let draft = document::two_over_three(maximum);
        let expected = vec![NO_TOTAL, total, total];
        assert_eq!(told_of(&draft, &[1, 2, GREATEST]), Ok(expected));
    }
}

#[test]
fn one_over_three() {
    for traced in document::traced() {
        let found = told_of(&traced.draft, &[3, 2, 1]);
        let expected = vec![traced.total, traced.total, NO_TOTAL];
        assert_eq!(found, Ok(expected), "{}", traced.name);
    }
}

#[test]
fn a_sheet_without_a_drawing_at_its_own_width() {
    assert_eq!(told(&NO_DRAWING, &[0, 1]), Ok(vec![NO_TOTAL, 0]));
}

#[test]
fn widths_that_repeat_and_fall() {
    let stair = document::stair(0, PLAIN);
    let widths = [GREATEST, 3, 2, 2, 1, 1, 1, 0, 0, 2, 1, 3];
    let expected = vec![0, 0, 1, 1, 2, 2, 2, NO_TOTAL, NO_TOTAL, 1, 2, 0];
    assert_eq!(told_of(&stair, &widths), Ok(expected));
}

#[test]
fn longest_edges_at_the_greatest_width() {
    for (draft, total) in [
        (longest_edges(), 2_096_108),
        (longest_parallel(), 4095),
        (layer(&[4094, 1]), 0),
    ] {
        let expected = vec![total, NO_TOTAL];
        assert_eq!(told_of(&draft, &[GREATEST, 4094]), Ok(expected));
    }
    let too_wide = layer(&[4095, 1]);
    assert_eq!(told_of(&too_wide, &[GREATEST]), Ok(vec![NO_TOTAL]));
}

#[test]
fn a_list_without_widths() {
    for room in [0, 1, 64] {
        assert_eq!(lent(&ONE_NODE, &[], room), Ok(vec![]));
        let crossing = document::crossing().bytes();
        assert_eq!(lent(&crossing, &[], room), Ok(vec![]));
        for end in 3..ONE_NODE.len() {
            assert_eq!(lent(&ONE_NODE[..end], &[], room), Err((1, end)));
        }
        for ((number, (name, bytes)), offset) in (1..).zip(REFUSED).zip([2, 0, 3, 4, 7, 7]) {
            assert_eq!(lent(bytes, &[], room), Err((number, offset)), "{name}");
        }
    }
}

#[test]
fn counts_of_widths_at_their_limits() {
    let stair = document::stair(0, PLAIN).bytes();
    let entry = |width: u32| [NO_TOTAL, 2, 1][width as usize];
    for count in [0, 1, 2, 63, 64] {
        let widths: Vec<u32> = (0..count).map(|i| i % 3).collect();
        let expected = widths.iter().map(|&width| entry(width)).collect();
        assert_eq!(told(&stair, &widths), Ok(expected), "{count}");
    }
    for count in [65, 66, 127, 128, 1000] {
        for width in [0, 2, TOO_GREAT, NO_TOTAL] {
            let widths = vec![width; count];
            assert_eq!(told(&stair, &widths), Err((11, 0)), "{count} of {width}");
            assert_eq!(lent(&stair, &widths, 0), Err((11, 0)), "{count} of {width}");
        }
    }
}

#[test]
fn widths_at_their_limits() {
    let first = document::first().bytes();
    assert_eq!(told(&first, &[GREATEST, 4094]), Ok(vec![1, 1]));
    let good: [u32; 3] = [5, 0, GREATEST];
    let mut too_great = vec![TOO_GREAT, 16_383, 16_384, 65_535, 1 << 31, NO_TOTAL];
    // good in their lower 12, 16 and 31 bits
    for bit in [12, 16, 31] {
        too_great.extend(good.map(|width| width | 1 << bit));
    }
    too_great.retain(|&width| width > GREATEST);
    assert!(too_great.contains(&65_541));
    for width in too_great {
        for at in [0, 1, 62, 63] {
            let mut widths = vec![5; WIDTHS_LIMIT];
            widths[at] = width;
            assert_eq!(told(&first, &widths), Err((4, at)), "{width}");
            // of several the first is told
            widths[63] = NO_TOTAL;
            assert_eq!(told(&first, &widths), Err((4, at)), "{width}");
        }
    }
}

#[test]
fn refusals_in_their_order() {
    let good = document::stair(0, PLAIN).bytes();
    let mut many = vec![2; 65];
    many[64] = TOO_GREAT;
    let mut last = many[1..].to_vec();
    for room in [0, 1, 63, 64, 65] {
        for ((number, (name, bytes)), offset) in (1..).zip(REFUSED).zip([2, 0, 3, 4, 7, 7]) {
            for widths in [&many, &last, &vec![2; 64]] {
                let answer = lent(bytes, widths, room);
                assert_eq!(answer, Err((number, offset)), "{name}");
            }
        }
        assert_eq!(lent(&good, &many, room), Err((11, 0)));
        assert_eq!(lent(&good, &last, room), Err((4, 63)));
    }
    last[63] = 2;
    for room in [0, 1, 63] {
        assert_eq!(lent(&good, &last, room), Err((7, 0)));
    }
    assert_eq!(lent(&good, &last, 64), Ok(vec![1; 64]));
}

/// A random list: of any length, around the limit as a rule, and with widths past theirs in some.
fn any_list(random: &mut Random) -> Vec<u32> {
    let count = match random.within(0..=3) {
        0 => random.within(0..=3),
        1 => random.within(62..=66),
        _ => random.within(0..=70),
    };
    let mut widths: Vec<u32> = (0..count).map(|_| random.within(0..=8).into()).collect();
    if count > 0 && random.once_in(3) {
        for _ in 0..random.within(1..=2) {
            let at = random.index(widths.len());
            let most = [13, 16, 32][random.index(3)];
            widths[at] = random.signed() as u32 >> (32 - most);
        }
    }
    widths
}

#[test]
fn lists_and_slices_of_every_length() {
    let mut random = Random::new(181);
    let mut answers = Answers::default();
    for i in 0..12_000 * scale() {
        let mut bytes = generate::tiny(&mut random).bytes();
        if i % 4 == 0 {
            let (_, damage) = DAMAGES[random.index(DAMAGES.len())];
            bytes = damage(&mut random, &bytes);
        }
        let widths = any_list(&mut random);
        let room = match random.within(0..=3) {
            0 => widths.len().saturating_sub(1),
            1 => random.index(70),
            more => widths.len() + usize::from(more) - 2,
        };
        answers.count(&into(&Proved, &bytes, &widths, room));
    }
    let often = [(0, 3_000), (4, 1_500), (7, 1_000), (11, 1_000)];
    let least = [1, 2, 3, 5, 6].map(|number| (number, 20));
    answers.check("lists of widths", &[&often[..], &least].concat());
}

/// 64 different widths in any order: around the minimum width, some hundred past it, and any.
fn different_widths(random: &mut Random, minimum: u16) -> Vec<u32> {
    let near = minimum.saturating_sub(8)..=(minimum + 8).min(WIDTH_LIMIT);
    let mut widths: BTreeSet<u16> = near.chain([0, WIDTH_LIMIT]).collect();
    while widths.len() < WIDTHS_LIMIT {
        widths.insert(match random.within(0..=3) {
            0 => random.within(0..=WIDTH_LIMIT),
            _ => (minimum + random.within(0..=400)).min(WIDTH_LIMIT),
        });
    }
    shuffled(random, widths.into_iter().map(u32::from).collect())
}

/// What the library draws for a sheet in a width, as an entry.
fn drawn(draft: &Draft, width: u16) -> u32 {
    let (mut places, mut list) = ([0; strip::MAX_PLACES], [0; strip::MAX_LIST]);
    let bytes = in_width(draft, width).bytes();
    match Proved.draw(&bytes, &mut places, &mut list) {
        Ok(total) => total,
        Err(refusal) => {
            assert_eq!(refusal, Refusal::new(refusal::NO_DRAWING, 0));
            NO_TOTAL
        }
    }
}

/// Compares the totals of random sheets at 64 different widths each, with what the library draws, too. At
/// each width from the minimum on there is a total, and no greater one than at any smaller width.
fn compare_different(
    kind: &str,
    (seed, count): (u64, usize),
    draft: impl Fn(&mut Random) -> Draft,
) {
    let mut random = Random::new(seed);
    let mut entries = Entries::default();
    for _ in 0..count * scale() {
        let draft = draft(&mut random);
        let minimum = least_width(&draft.sheet());
        let widths = different_widths(&mut random, minimum.unwrap_or(draft.width));
        let found = told(&draft.bytes(), &widths).expect("a good sheet");
        entries.count(&found);
        let mut pairs: Vec<(u16, u32)> = Vec::new();
        for (&width, &entry) in widths.iter().zip(&found) {
            let width = u16::try_from(width).expect("a width");
            assert_eq!(drawn(&draft, width), entry, "at width {width}, {draft:?}");
            let is_enough = minimum.is_some_and(|minimum| minimum <= width);
            assert_eq!(entry != NO_TOTAL, is_enough, "at width {width}, {draft:?}");
            pairs.push((width, entry));
        }
        pairs.sort();
        let is_falling = pairs.windows(2).all(|pair| pair[0].1 >= pair[1].1);
        assert!(is_falling, "{pairs:?}, {draft:?}");
    }
    let [lists, totals, without] = entries.row().map(grouped);
    println!("compared: {lists} lists of {kind}: {totals} totals, {without} without");
    page::check_row(kind, &entries.row());
    assert_eq!(entries.full_lists, count * scale());
    assert!(entries.totals > 20 * count && entries.without > 3 * count);
}

#[test]
fn different_widths_of_small_and_medium_sheets() {
    let (small, medium) = (generate::small, sizes::medium);
    compare_different("64 different widths, small", (182, 400), small);
    compare_different("64 different widths, medium", (183, 100), medium);
}

#[test]
fn different_widths_of_realistic_and_full_sheets() {
    compare_different("64 different widths, realistic", (184, 60), realistic::any);
    let full = |random: &mut Random| {
        let layers = [4, 8, 64][random.index(3)];
        sizes::full(random, layers)
    };
    compare_different("64 different widths, full size", (185, 12), full);
}

#[test]
fn counts_on_the_page_add_up() {
    let (sums, rows): (Vec<_>, Vec<_>) = page::rows(3)
        .into_iter()
        .partition(|(name, _)| name == "all");
    let sum = |i: usize| rows.iter().map(|(_, counts)| counts[i]).sum();
    let expected = vec![sum(0), sum(1), sum(2)];
    assert_eq!(sums, [("all".to_string(), expected)]);
    // each kind of sheets has lists of 64 widths, and no others are there but those of this file
    let kinds = page::rows(7).into_iter().map(|(name, _)| name);
    let kinds: BTreeSet<String> = kinds.collect();
    let (found, others): (Vec<_>, Vec<_>) = rows.iter().partition(|(name, _)| kinds.contains(name));
    assert_eq!(found.len() + 1, kinds.len());
    assert!(rows.iter().all(|(_, counts)| counts[0] > 0));
    assert!(others
        .iter()
        .all(|(name, _)| name.starts_with("64 different widths, ")));
}
