//! Good and damaged sheets, coordinate files and number lists of all sizes, for the driver.

use super::files::{drawings, files};
use super::variants::{every_damage, lengths, lists, some_damage};
use super::Item;
use crate::document::{self, NO_DRAWING, ONE_NODE, REFUSED};
use crate::examples::examples;
use crate::families::parallel::layers_of_64;
use crate::families::sizes::longest_parallel;
use crate::generate::{fullest, good, small, tiny};
use crate::planted::{planted, Plan};
use crate::random::Random;
use second::sheet::{read, EDGE_LIMIT, NODE_LIMIT};

/// All items.
pub fn items() -> Vec<Item> {
    let sheets: Vec<Vec<u8>> = [named(), damaged(), random(), large()].concat();
    let files = files();
    let mut items = Vec::new();
    // the reader of each format gets some bytes of the other
    items.extend(sheets.iter().step_by(40).map(|bytes| Item::file(bytes)));
    items.extend(files.iter().step_by(40).map(|bytes| Item::sheet(bytes)));
    items.extend(number_lists(&sheets).into_iter().map(Item::Numbers));
    items.extend(drawings(&files).into_iter().map(Item::Drawing));
    items.extend(sheets.into_iter().map(Item::Sheet));
    items.extend(files.into_iter().map(Item::File));
    items
}

/// The sheets of documents 01 and 02 and the examples, good and refused.
fn named() -> Vec<Vec<u8>> {
    let refused = REFUSED.map(|(_, bytes)| bytes.to_vec());
    let mut sheets = refused.to_vec();
    sheets.extend([NO_DRAWING.to_vec(), ONE_NODE.to_vec(), Vec::new()]);
    sheets.extend(document::sheets().iter().map(|(_, draft)| draft.bytes()));
    sheets.extend(document::traced().map(|traced| traced.draft.bytes()));
    sheets.extend(examples().iter().map(|(_, draft)| draft.bytes()));
    sheets
}

/// Two small sheets, damaged in every way.
fn damaged() -> Vec<Vec<u8>> {
    let mut sheets = Vec::new();
    for draft in [document::first(), document::two_over_three(1)] {
        sheets.extend(every_damage(&draft.bytes()));
    }
    sheets
}

/// Random good sheets, and three damaged ones of each.
fn random() -> Vec<Vec<u8>> {
    let mut random = Random::new(51);
    let mut sheets = Vec::new();
    for i in 0..240 {
        let draft = match i % 3 {
            0 => tiny(&mut random),
            1 => small(&mut random),
            _ => good(&mut random),
        };
        sheets.extend(some_damage(&mut random, i, draft.bytes()));
    }
    sheets
}

/// Large sheets: with a drawing, with parallel edges, the fullest ones, and with many bytes behind them.
fn large() -> Vec<Vec<u8>> {
    let mut random = Random::new(52);
    let mut sheets = Vec::new();
    for (nodes, edges) in [(20, 30), (60, 90), (100, 200), (NODE_LIMIT, EDGE_LIMIT)] {
        for layers in [4, 9, 20] {
            let plan = Plan {
                layers,
                nodes,
                edges,
                ..Plan::FULL_LOOSE
            };
            sheets.push(planted(&mut random, &plan).bytes());
        }
    }
    sheets.extend([longest_parallel(), layers_of_64(&mut random)].map(|draft| draft.bytes()));
    for layers in [1, 4, 64] {
        sheets.extend(lengths(fullest(layers).bytes()));
    }
    sheets
}

/// The number lists of the good sheets, and one of them damaged in every way.
fn number_lists(sheets: &[Vec<u8>]) -> Vec<Vec<u16>> {
    let first = document::first().numbers();
    let changes = |n: u16| vec![0, 1, 64, 65, 513, 4096, 16384, u16::MAX, n.wrapping_add(1)];
    lists(&first, changes, sheets, read)
}
