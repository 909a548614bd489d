//! Totals that are added layer by layer from the last one up, with one mistake, and what a library with
//! them says.

use second::certificate::{floor, meets_rules};
use second::drawing::{is_drawing, Edge, Layer, Sheet};
use second::solver::solve;
use second::traces::traces;

/// What is wrong about the sum.
#[derive(Clone, Copy, Debug, PartialEq)]
pub enum Mistake {
    /// The last layer is left out.
    WithoutLast,
    /// The first layer with lower ends, the second one, is left out.
    WithoutFirst,
    /// An edge to the first node of a layer counts in the layer above, too.
    InTwoLayers,
    /// An edge to the first node of a layer counts in none.
    InNoLayer,
    /// The sum starts again at each layer.
    StartedAgain,
    /// The sum of a layer ends where an edge of another layer stands in the sheet.
    Neighbours,
}

/// All mistakes.
pub const MISTAKES: [Mistake; 6] = [
    Mistake::WithoutLast,
    Mistake::WithoutFirst,
    Mistake::InTwoLayers,
    Mistake::InNoLayer,
    Mistake::StartedAgain,
    Mistake::Neighbours,
];

impl Mistake {
    /// The total of places with this mistake.
    pub fn total(self, sheet: &Sheet, places: &[u16]) -> u32 {
        let mut sum = 0;
        // the first layer has no lower ends
        for layer in (1..sheet.layers.len()).rev() {
            let is_left_out = match self {
                Mistake::WithoutLast => layer == sheet.layers.len() - 1,
                Mistake::WithoutFirst => layer == 1,
                _ => false,
            };
            if self == Mistake::StartedAgain {
                sum = 0;
            }
            if !is_left_out {
                sum += self.layer_lengths(sheet, &sheet.layers[layer], places);
            }
        }
        sum
    }

    /// The lengths that are added at a layer.
    fn layer_lengths(self, sheet: &Sheet, layer: &Layer, places: &[u16]) -> u32 {
        let (traces, mut sum, mut is_begun) = (traces(sheet), 0, false);
        for (i, edge) in sheet.edges.iter().enumerate() {
            let is_here = self.is_in(edge, layer);
            if is_here && traces[&edge.ends()].first == i {
                sum += u32::from(places[edge.upper].abs_diff(places[edge.lower]));
            }
            if self == Mistake::Neighbours && is_begun && !is_here {
                return sum;
            }
            is_begun |= is_here;
        }
        sum
    }

    /// Whether an edge is taken for one with its lower end in a layer.
    fn is_in(self, edge: &Edge, layer: &Layer) -> bool {
        let (start, end) = match self {
            Mistake::InTwoLayers => (layer.first, layer.last + 1),
            Mistake::InNoLayer => (layer.first + 1, layer.last),
            _ => (layer.first, layer.last),
        };
        start <= edge.lower && edge.lower <= end
    }

    /// What a checker with this mistake says.
    pub fn check(self, sheet: &Sheet, places: &[u16], list: &[i32]) -> bool {
        is_drawing(sheet, places)
            && meets_rules(sheet, list)
            && floor(sheet, list) == self.total(sheet, places).into()
    }

    /// The total that is told with this mistake of a sheet, if it has a drawing.
    pub fn least_total(self, sheet: &Sheet) -> Option<u32> {
        let solution = solve(sheet)?;
        Some(self.total(sheet, &solution.places))
    }
}
