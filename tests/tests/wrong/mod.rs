//! Traces that are wrong in one way, or none, and what a library with them draws and says.

use second::certificate::{floor, meets_other_rules, pulls_within_limits};
use second::checker;
use second::drawing::{is_drawing, Edge, Sheet};
use second::engine;
use second::minimum_width::{minimum_width, Minimum};
use second::network::arcs_with;
use second::refusal::{Refusal, NO_DRAWING};
use second::residual::leftmost_places;
use second::simplex::least_flows;
use second::traces::Pull;

/// How traces are wrong.
#[derive(Clone, Copy, Debug, PartialEq)]
pub enum Wrong {
    /// Every edge counts and carries a pull.
    EveryEdge,
    /// Parallel edges count once, but each of them carries a pull.
    LaterPull,
    /// A trace is straight only if its first edge is.
    FirstKind,
    /// The last of parallel edges carries the pull.
    LastCarries,
    /// Edges are parallel only if no other edge stands between them.
    Neighbours,
    /// Edges are parallel if they have the same upper end.
    UpperEnd,
    /// Edges are parallel if they have the same lower end.
    LowerEnd,
    /// Edges are parallel, too, if their ends are a multiple of 64 apart.
    Apart64,
}

/// All ways.
pub const WAYS: [Wrong; 8] = [
    Wrong::EveryEdge,
    Wrong::LaterPull,
    Wrong::FirstKind,
    Wrong::LastCarries,
    Wrong::Neighbours,
    Wrong::UpperEnd,
    Wrong::LowerEnd,
    Wrong::Apart64,
];

/// Traces with what is wrong about them.
pub struct Traces(pub Option<Wrong>);

/// What each edge of a sheet is taken for.
struct Taken {
    counts: Vec<bool>,
    pulls: Vec<Pull>,
}

impl Taken {
    /// The sum of the lengths of the edges that count.
    fn total(&self, sheet: &Sheet, places: &[u16]) -> u32 {
        let counted = sheet.edges.iter().zip(&self.counts);
        let counted = counted.filter(|(_, &counts)| counts);
        let length = |(edge, _): (&Edge, _)| places[edge.upper].abs_diff(places[edge.lower]);
        counted.map(length).map(u32::from).sum()
    }
}

impl Traces {
    /// Whether two edges are taken for parallel.
    fn are_parallel(&self, edges: &[Edge], one: usize, other: usize) -> bool {
        let (ends, others) = (edges[one].ends(), edges[other].ends());
        match self.0 {
            Some(Wrong::EveryEdge) => one == other,
            Some(Wrong::Neighbours) => {
                let mut between = edges[one.min(other)..=one.max(other)].iter();
                between.all(|edge| edge.ends() == ends)
            }
            Some(Wrong::UpperEnd) => ends.0 == others.0,
            Some(Wrong::LowerEnd) => ends.1 == others.1,
            Some(Wrong::Apart64) => ends.0 % 64 == others.0 % 64 && ends.1 % 64 == others.1 % 64,
            _ => ends == others,
        }
    }

    /// What the edges of a sheet are taken for.
    fn taken(&self, sheet: &Sheet) -> Taken {
        let edges = &sheet.edges;
        let mut taken = Taken {
            counts: Vec::new(),
            pulls: Vec::new(),
        };
        for i in 0..edges.len() {
            let trace = (0..edges.len()).filter(|&j| self.are_parallel(edges, i, j));
            let trace: Vec<usize> = trace.collect();
            let carrier = match self.0 {
                Some(Wrong::LastCarries) => trace[trace.len() - 1],
                _ => trace[0],
            };
            let is_straight = match self.0 {
                Some(Wrong::FirstKind | Wrong::LaterPull) => edges[i].straight,
                _ => trace.iter().any(|&j| edges[j].straight),
            };
            let is_pulled = i == carrier || self.0 == Some(Wrong::LaterPull);
            taken.counts.push(i == carrier);
            taken.pulls.push(match is_pulled {
                false => Pull::None,
                true if is_straight => Pull::Free,
                true => Pull::Plain,
            });
        }
        taken
    }

    /// The flows and places that are found for a sheet, if any.
    fn solve(&self, sheet: &Sheet) -> Option<(Vec<i64>, Vec<u16>)> {
        let arcs = arcs_with(sheet, &self.taken(sheet).pulls);
        let flows = least_flows(sheet.node_count(), &arcs)?;
        let places = leftmost_places(sheet.node_count(), &arcs, &flows);
        Some((flows, places))
    }

    /// Draws a sheet.
    pub fn draw(&self, bytes: &[u8], places: &mut [u16], list: &mut [i32]) -> Result<u32, Refusal> {
        engine::draw(bytes, places, list)?;
        let sheet = Sheet::from_bytes(bytes)?;
        let Some((flows, found)) = self.solve(&sheet) else {
            return Err(Refusal::new(NO_DRAWING, 0));
        };
        places[..found.len()].copy_from_slice(&found);
        for (number, flow) in list.iter_mut().zip(flows) {
            *number = flow as i32;
        }
        Ok(self.taken(&sheet).total(&sheet, &found))
    }

    /// Checks places and a list.
    pub fn check(&self, bytes: &[u8], places: &[u16], list: &[i32]) -> Result<bool, Refusal> {
        checker::check(bytes, places, list)?;
        let sheet = Sheet::from_bytes(bytes)?;
        let taken = self.taken(&sheet);
        Ok(is_drawing(&sheet, places)
            && pulls_within_limits(&taken.pulls, list)
            && meets_other_rules(&sheet, list)
            && floor(&sheet, list) == taken.total(&sheet, places).into())
    }

    /// Tells the minimum width of a sheet, and the total there.
    pub fn narrowest(&self, bytes: &[u8]) -> Result<Minimum, Refusal> {
        let Minimum { width, .. } = minimum_width(bytes)?;
        let sheet = Sheet {
            width,
            ..Sheet::from_bytes(bytes)?
        };
        match self.least_total(&sheet) {
            Some(total) => Ok(Minimum { width, total }),
            None => Err(Refusal::new(NO_DRAWING, 0)),
        }
    }

    /// The least total that is told of a sheet, if any.
    pub fn least_total(&self, sheet: &Sheet) -> Option<u32> {
        let (_, places) = self.solve(sheet)?;
        Some(self.taken(sheet).total(sheet, &places))
    }
}
