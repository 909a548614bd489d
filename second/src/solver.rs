//! Finds the leftmost least drawing of a sheet of any size, with a pull list that shows it.
//!
//! The list is a circulation of least cost, found by the network simplex method. The drawing is
//! then read off the distances to the ground.

use crate::drawing::Sheet;
use crate::network::arcs;
use crate::residual::leftmost_places;
use crate::simplex::least_flows;

/// A drawing and a pull list.
#[derive(Clone, Debug)]
pub struct Solution {
    pub places: Vec<u16>,
    pub list: Vec<i32>,
}

/// Solves a sheet; there is no solution where it has no drawing.
pub fn solve(sheet: &Sheet) -> Option<Solution> {
    let arcs = arcs(sheet);
    let flows = least_flows(sheet.node_count(), &arcs)?;
    Some(Solution::new(sheet, &flows))
}

impl Solution {
    /// The solution with these flows, which must be of least cost.
    pub fn new(sheet: &Sheet, flows: &[i64]) -> Solution {
        let number = |&flow: &i64| i32::try_from(flow).expect("a flow is at most 512");
        Solution {
            places: leftmost_places(sheet.node_count(), &arcs(sheet), flows),
            list: flows.iter().map(number).collect(),
        }
    }
}
