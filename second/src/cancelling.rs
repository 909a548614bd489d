//! The same as `solver` by cancelling cycles: a check of it on small sheets.
//!
//! As long as there is a residual cycle of negative cost, flow is sent along it.

use crate::drawing::Sheet;
use crate::network::arcs;
use crate::residual::{residuals, Residual};
use crate::solver::Solution;

/// Solves a small sheet; there is no solution where it has no drawing.
pub fn solve(sheet: &Sheet) -> Option<Solution> {
    let arcs = arcs(sheet);
    let node_count = sheet.node_count() + 1;
    let mut flows = vec![0; arcs.len()];
    let mut constraints = residuals(&arcs, &flows);
    constraints.retain(|residual| residual.capacity > 1);
    if negative_cycle(node_count, &constraints).is_some() {
        return None;
    }
    while let Some(cycle) = negative_cycle(node_count, &residuals(&arcs, &flows)) {
        let amount = cycle.iter().map(|residual| residual.capacity).min();
        for residual in &cycle {
            flows[residual.arc] += residual.sign * amount.expect("a cycle has arcs");
        }
    }
    Some(Solution::new(sheet, &flows))
}

/// A cycle of negative cost, if there is one (Bellman and Ford).
fn negative_cycle(node_count: usize, residuals: &[Residual]) -> Option<Vec<Residual>> {
    let mut distances = vec![0; node_count];
    let mut before: Vec<Option<Residual>> = vec![None; node_count];
    let mut changed = None;
    for _ in 0..node_count {
        changed = None;
        for residual in residuals {
            let distance = distances[residual.tail] + residual.cost;
            if distance < distances[residual.head] {
                distances[residual.head] = distance;
                before[residual.head] = Some(*residual);
                changed = Some(residual.head);
            }
        }
    }
    let step = |node: usize| before[node].expect("a node of negative distance has one before it");
    let mut end = changed?;
    for _ in 0..node_count {
        end = step(end).tail;
    }
    let mut cycle = vec![step(end)];
    while cycle[cycle.len() - 1].tail != end {
        cycle.push(step(cycle[cycle.len() - 1].tail));
    }
    Some(cycle)
}
