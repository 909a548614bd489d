//! Traces: parallel edges, those with the same two ends, lie on one (document 02: twin leads).

use std::collections::BTreeMap;

use crate::drawing::{Edge, Sheet};

/// What all edges with the same two ends are together.
#[derive(Clone, Debug, PartialEq, Eq)]
pub struct Trace {
    /// The index in the sheet of the first of them, which carries the pull.
    pub first: usize,
    /// Whether any of them is straight.
    pub straight: bool,
}

/// The pulls that an edge may carry.
#[derive(Clone, Copy, Debug, PartialEq, Eq)]
pub enum Pull {
    /// 0: an edge before it carries the pull of the trace.
    None,
    /// -1, 0 or 1: the trace is plain.
    Plain,
    /// Any number: the trace is straight.
    Free,
}

/// The traces of a sheet, by the upper and the lower end.
pub fn traces(sheet: &Sheet) -> BTreeMap<(usize, usize), Trace> {
    let mut traces = BTreeMap::new();
    for (i, edge) in sheet.edges.iter().enumerate() {
        let trace = traces.entry(edge.ends()).or_insert(Trace {
            first: i,
            straight: false,
        });
        trace.straight |= edge.straight;
    }
    traces
}

/// For each edge of a sheet the pulls that it may carry.
pub fn pulls(sheet: &Sheet) -> Vec<Pull> {
    let traces = traces(sheet);
    let pull = |(i, edge): (usize, &Edge)| match &traces[&edge.ends()] {
        trace if trace.first != i => Pull::None,
        trace if trace.straight => Pull::Free,
        _ => Pull::Plain,
    };
    sheet.edges.iter().enumerate().map(pull).collect()
}
