//! Kinds of sheets that the benchmark times: layered ones of full size and of smaller sizes, panels,
//! and sheets that are refused. All come from fixed seeds.

mod columns;
mod layered;
mod panels;
mod plans;
mod refused;

use crate::draft::Draft;
use second::drawing::Sheet;
use second::minimum_width::least_width;
use second::sheet::{NODE_LIMIT, WIDTH_LIMIT};
use second::totals::WIDTHS_LIMIT;

pub use panels::panels;
pub use refused::{bad, undrawn};

/// Sheets of one kind.
pub struct Kind {
    pub name: String,
    pub sheets: Vec<Draft>,
}

/// How many of a hundred nodes are in chains; where none are, the edges lead anywhere.
const CHAINED: [u16; 5] = [0, 15, 25, 40, 60];

/// Sheets of full size, 256 nodes and 512 edges, by their chains.
pub fn full() -> Vec<Kind> {
    let kind = |percent: u16| Kind {
        name: match percent {
            0 => "random edges".to_owned(),
            _ => format!("{percent} % chains"),
        },
        sheets: layered::sheets(NODE_LIMIT, percent),
    };
    CHAINED.map(kind).into()
}

/// Sheets of the same kinds with so many nodes and twice as many edges, all together.
pub fn with_nodes(nodes: u16) -> Kind {
    let sheets = |percent| layered::sheets(nodes, percent);
    Kind {
        name: format!("{nodes} nodes"),
        sheets: CHAINED.into_iter().flat_map(sheets).collect(),
    }
}

/// The widths at which the totals of a sheet are timed: 64 from the minimum width to the greatest, about
/// equally far apart. The sheet must have a drawing at the greatest width.
pub fn widths(sheet: &Sheet) -> Vec<u32> {
    let minimum = least_width(sheet).map(u32::from).expect("a minimum width");
    let (room, steps) = (u32::from(WIDTH_LIMIT) - minimum, WIDTHS_LIMIT as u32 - 1);
    (0..=steps).map(|i| minimum + room * i / steps).collect()
}
