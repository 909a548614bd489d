//! Sheets of the families: drawn, narrowed and drawn at other widths, and lists checked that show their
//! totals or nearly do.

use crate::cases::Call;
use crate::draft::Draft;
use crate::examples::examples;
use crate::families::conflicts::{crossed, held, spiral};
use crate::families::parallel::{all_kinds, counted, only_later_straight};
use crate::families::turned::{mirrored, upside_down};
use crate::families::widths::in_width;
use crate::families::{exhaustive, realistic, sizes};
use crate::generate::{small, tiny};
use crate::mutation::{around_layers, around_pairs, circulate, moved_pull, parallel_pairs};
use crate::random::Random;
use second::drawing::Sheet;
use second::minimum_width::least_width;
use second::sheet::WIDTH_LIMIT;
use second::solver::solve;

use super::calls::{check, draw, narrow, noted, totals};
use super::Vector;

/// Sheets of which medium and realistic ones have no more bytes.
const SHORT: usize = 300;

/// Sheets of one family, and how many near misses of each one's list are checked.
struct Family {
    name: &'static str,
    misses: usize,
    sheets: Vec<Draft>,
}

impl Family {
    /// A family of these parts.
    fn new(name: &'static str, misses: usize, sheets: impl IntoIterator<Item = Draft>) -> Family {
        Family {
            name,
            misses,
            sheets: sheets.into_iter().collect(),
        }
    }
}

/// The vectors of all families.
pub fn vectors() -> Vec<Vector> {
    let mut random = Random::new(38);
    let mut families = vec![
        Family::new("very small sheets", 1, one_in(exhaustive::sheets(), 799)),
        Family::new("tiny sheets", 2, times(&mut random, 20, tiny)),
        Family::new("small sheets", 2, times(&mut random, 18, small)),
    ];
    families.extend(parallel(&mut random));
    families.extend(tight(&mut random));
    families.extend(large(&mut random));
    let mut vectors = Vec::new();
    for family in families {
        for draft in &family.sheets {
            let calls = asked(&mut random, draft, family.misses);
            vectors.extend(noted(family.name, calls));
        }
    }
    vectors
}

/// Families with parallel edges.
fn parallel(random: &mut Random) -> Vec<Family> {
    let counts = [
        (2, None),
        (3, None),
        (3, Some(2)),
        (9, Some(4)),
        (120, Some(119)),
    ];
    let many = counts.map(|(count, straight)| counted(count, straight));
    let plain = times(random, 12, small);
    let with_later = |draft| only_later_straight(random, draft);
    let later = plain.iter().filter_map(with_later);
    vec![
        Family::new("parallel edges of all kinds", 2, one_in(all_kinds(), 23)),
        Family::new("many parallel edges", 2, many),
        Family::new("the only straight edge is a later parallel one", 2, later),
    ]
}

/// Families on either side of having a drawing, and sheets turned around.
fn tight(random: &mut Random) -> Vec<Family> {
    let steps: [&[u16]; 3] = [&[1, 1], &[3, 1, 2], &[1, 5, 2, 9, 4]];
    let both = |steps| [0, 1].map(|missing| spiral(steps, missing));
    let spirals = steps.into_iter().flat_map(both);
    let held: Vec<Draft> = (0..6).map(|i| held(random, i % 3)).collect();
    let (plain, wide) = (times(random, 8, small), times(random, 10, small));
    let crossing = plain.iter().filter_map(|draft| crossed(random, draft));
    let turned = plain.iter().flat_map(turned);
    vec![
        Family::new(
            "spirals of straight edges, closed and missing 1",
            1,
            spirals,
        ),
        Family::new("maxima against minima through straight edges", 1, held),
        Family::new("straight edges that cross", 0, crossing),
        Family::new(
            "in the minimum width, one less and one more",
            1,
            beside(&wide),
        ),
        Family::new("sheets turned around", 0, turned),
    ]
}

/// The sheet with left and right exchanged, and with top and bottom exchanged.
fn turned(draft: &Draft) -> [Draft; 2] {
    [mirrored(draft), upside_down(draft)]
}

/// Families of larger sheets.
fn large(random: &mut Random) -> Vec<Family> {
    let medium = short(random, 4, sizes::medium);
    let realistic = short(random, 6, realistic::any);
    let examples = examples().into_iter().map(|(_, draft)| draft);
    let full = sizes::full(random, 8);
    vec![
        Family::new("medium sheets", 1, medium),
        Family::new("panels, boards, walls and bends", 1, realistic),
        Family::new("the example sheets", 1, examples),
        Family::new("full size: 256 nodes and 512 edges", 0, [full]),
    ]
}

/// One sheet in so many.
fn one_in(sheets: Vec<Draft>, step: usize) -> Vec<Draft> {
    sheets.into_iter().step_by(step).collect()
}

/// So many random sheets.
fn times(random: &mut Random, count: usize, sheet: fn(&mut Random) -> Draft) -> Vec<Draft> {
    (0..count).map(|_| sheet(random)).collect()
}

/// So many random sheets that are short.
fn short(random: &mut Random, count: usize, sheet: fn(&mut Random) -> Draft) -> Vec<Draft> {
    let sheets = std::iter::repeat_with(|| sheet(random));
    let short = sheets.filter(|draft| draft.bytes().len() <= SHORT);
    short.take(count).collect()
}

/// The sheets in their minimum width, one less and one more.
fn beside(sheets: &[Draft]) -> Vec<Draft> {
    let mut beside = Vec::new();
    for draft in sheets {
        if let Some(width) = least_width(&draft.sheet()) {
            let widths = width.saturating_sub(1)..=width + 1;
            beside.extend(widths.map(|width| in_width(draft, width)));
        }
    }
    beside
}

/// What is asked of a sheet.
fn asked(random: &mut Random, draft: &Draft, misses: usize) -> Vec<Call> {
    let (bytes, sheet) = (draft.bytes(), draft.sheet());
    let mut calls = vec![draw(&bytes), narrow(&bytes)];
    calls.push(totals(&bytes, &widths(draft)));
    if let Some(found) = solve(&sheet) {
        calls.push(check(&bytes, &found.places, &found.list));
        for _ in 0..misses {
            let (places, list) = near(random, &sheet, &found.places, &found.list);
            calls.push(check(&bytes, &places, &list));
        }
    }
    calls
}

/// Widths around the minimum, falling, with the sheet's own and the greatest in front.
fn widths(draft: &Draft) -> Vec<u32> {
    let mut widths = vec![draft.width, WIDTH_LIMIT];
    match least_width(&draft.sheet()) {
        Some(least) => {
            let steps = [40, 3, 2, 1, 0].map(|step| (least + step).min(WIDTH_LIMIT));
            widths.extend(steps);
            widths.extend(least.checked_sub(1));
        }
        None => widths.push(0),
    }
    widths.into_iter().map(u32::from).collect()
}

/// Places and a list near those of a drawing: one step, one number, or one cycle away.
fn near(random: &mut Random, sheet: &Sheet, places: &[u16], list: &[i32]) -> (Vec<u16>, Vec<i32>) {
    let (mut places, mut list) = (places.to_vec(), list.to_vec());
    let number = random.index(list.len());
    match random.within(0..=7) {
        0 => {
            let node = random.index(places.len());
            places[node] = places[node].wrapping_add([1, 65535][random.index(2)]);
        }
        1 => list[number] = list[number].wrapping_add([1, -1][random.index(2)]),
        2 => list[number] = list[number].wrapping_neg(),
        3 => circulate(random, sheet, &mut list, 1),
        4 => list = any(random, around_layers(sheet, &list, 1), list),
        5 => list = any(random, around_pairs(sheet, &list, 1), list),
        _ => {
            let moved = |(from, to)| moved_pull(&list, from, to, 1);
            let moved = parallel_pairs(sheet).into_iter().map(moved).collect();
            list = any(random, moved, list);
        }
    }
    (places, list)
}

/// Any of some lists; if there are none, this one.
fn any(random: &mut Random, lists: Vec<Vec<i32>>, list: Vec<i32>) -> Vec<i32> {
    match lists.len() {
        0 => list,
        count => lists[random.index(count)].clone(),
    }
}
