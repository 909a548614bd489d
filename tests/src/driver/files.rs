//! Good and damaged coordinate files and their number lists, of all sizes, for the driver.

use super::variants::{every_damage, lengths, lists, some_damage};
use crate::files::{any, full, longest, side_by_side, Rows, GOOD, REFUSED};
use crate::random::Random;
use second::coordinates::read;

/// All files.
pub fn files() -> Vec<Vec<u8>> {
    [named(), random(), large()].concat()
}

/// The coordinate files by hand, good and refused; two of them damaged in every way.
fn named() -> Vec<Vec<u8>> {
    let mut named: Vec<Vec<u8>> = GOOD.map(|(_, bytes, _)| bytes.to_vec()).to_vec();
    named.extend(REFUSED.map(|(_, bytes, _)| bytes.to_vec()));
    named.push(Vec::new());
    for rows in [
        Rows(vec![vec![0, 1], vec![0]]),
        Rows(vec![vec![300, 427, 4095]]),
    ] {
        named.extend(every_damage(&rows.bytes()));
    }
    named
}

/// Random good files, and three damaged ones of each.
fn random() -> Vec<Vec<u8>> {
    let mut random = Random::new(53);
    let mut files = Vec::new();
    for i in 0..120 {
        let bytes = any(&mut random).bytes();
        files.extend(some_damage(&mut random, i, bytes));
    }
    files
}

/// Files of full size, the longest one, and these cut off and with many bytes behind them.
fn large() -> Vec<Vec<u8>> {
    let mut random = Random::new(54);
    let full = [4, 5, 16, 64].map(|layers| full(&mut random, layers));
    let rows = full
        .into_iter()
        .chain([side_by_side(0), side_by_side(4032), longest()]);
    rows.flat_map(|rows| lengths(rows.bytes())).collect()
}

/// The number lists of the good files, and one of them damaged in every way.
pub fn drawings(files: &[Vec<u8>]) -> Vec<Vec<u16>> {
    let rows = Rows(vec![vec![5, 6, 4094], vec![7]]).numbers();
    let changes = |n: u16| vec![0, 1, 64, 65, 4095, 4096, u16::MAX, n.wrapping_add(1)];
    lists(&rows, changes, files, read)
}
