//! Sheets in the narrowest width, and one next to it; layers that need a certain width.

use crate::draft::Draft;
use second::sheet::WIDTH_LIMIT;
use second::solver::solve;

/// The sheet in another width.
pub fn in_width(draft: &Draft, width: u16) -> Draft {
    Draft {
        width,
        ..draft.clone()
    }
}

/// A layer with these minima, in width 0.
pub fn layer(minima: &[u16]) -> Draft {
    let mut draft = Draft::new(0, &[minima.len() as u16 + 1]);
    for (left, &minimum) in (1..).zip(minima) {
        draft = draft.separation(1, left, minimum, 0);
    }
    draft
}

/// The narrowest width in which the engine draws a sheet, if it does in any: found by halving.
pub fn narrowest(draft: &Draft) -> Option<u16> {
    let is_drawn = |width: u16| solve(&in_width(draft, width).sheet()).is_some();
    if !is_drawn(WIDTH_LIMIT) {
        return None;
    }
    let (mut least, mut greatest) = (0, WIDTH_LIMIT);
    while least < greatest {
        let middle = (least + greatest) / 2;
        if is_drawn(middle) {
            greatest = middle;
        } else {
            least = middle + 1;
        }
    }
    Some(least)
}
