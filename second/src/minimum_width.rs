//! The minimum width of a sheet (document 02: the narrowest strip), and the least total there.
//!
//! Nodes that straight edges join stand at one place, so they move as one. Every such column starts
//! at 0 and is pushed to the right only as far as a separation forces it, with no right boundary in
//! the way. Where this comes to rest, no drawing has a column further left, so the rightmost place
//! is the minimum width.

use std::collections::VecDeque;

use crate::drawing::{total, Sheet};
use crate::refusal::{Refusal, NO_WIDTH};
use crate::sheet::WIDTH_LIMIT;
use crate::solver::solve;

/// The minimum width of a sheet, and the least total at that width.
#[derive(Clone, Copy, Debug, PartialEq, Eq)]
pub struct Minimum {
    pub width: u16,
    pub total: u32,
}

/// The minimum width of a sheet in bytes, whatever width it has itself, and the least total there.
pub fn minimum_width(bytes: &[u8]) -> Result<Minimum, Refusal> {
    let mut sheet = Sheet::from_bytes(bytes)?;
    let Some(width) = least_width(&sheet) else {
        return Err(Refusal::new(NO_WIDTH, 0));
    };
    sheet.width = width;
    let drawing = solve(&sheet).expect("a sheet has a drawing at its minimum width");
    let total = total(&sheet, &drawing.places);
    Ok(Minimum { width, total })
}

/// The least width at which a sheet has a drawing, if one within the limit has any.
pub fn least_width(sheet: &Sheet) -> Option<u16> {
    let columns = columns(sheet);
    let demands = demands(sheet, &columns);
    let mut places = vec![0; sheet.node_count()];
    let mut moved: VecDeque<usize> = (0..places.len()).collect();
    while let Some(column) = moved.pop_front() {
        for &(to, apart) in &demands[column] {
            let least = places[column] + apart;
            if least > WIDTH_LIMIT.into() {
                return None;
            }
            if least > places[to] {
                places[to] = least;
                moved.push_back(to);
            }
        }
    }
    let rightmost = places.into_iter().max().unwrap_or(0);
    Some(u16::try_from(rightmost).expect("a place within the limit"))
}

/// For each node the column it stands in: the first node to which straight edges join it.
fn columns(sheet: &Sheet) -> Vec<usize> {
    let mut columns: Vec<usize> = (0..sheet.node_count()).collect();
    for edge in sheet.edges.iter().filter(|edge| edge.straight) {
        let (one, other) = (columns[edge.upper], columns[edge.lower]);
        let (kept, gone) = (one.min(other), one.max(other));
        for column in &mut columns {
            if *column == gone {
                *column = kept;
            }
        }
    }
    columns
}

/// For each column the others that it pushes, and how far to the right of it each of them stands at
/// least. A maximum is below 0: it is the left node that is pushed.
fn demands(sheet: &Sheet, columns: &[usize]) -> Vec<Vec<(usize, i32)>> {
    let mut demands = vec![Vec::new(); columns.len()];
    for separation in sheet.layers.iter().flat_map(|layer| &layer.separations) {
        let (left, right) = (columns[separation.left], columns[separation.right]);
        demands[left].push((right, separation.minimum.into()));
        if let Some(maximum) = separation.maximum {
            demands[right].push((left, -i32::from(maximum)));
        }
    }
    demands
}
