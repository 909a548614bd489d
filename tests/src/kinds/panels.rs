//! Panels: tiles, boards and a cable.

use super::Kind;
use crate::draft::Draft;
use crate::examples::{examples, panel_of};
use crate::random::Random;

/// How many panels there are beside the examples.
const PANELS: usize = 21;

/// The example sheets of one panel, and panels with other tiles and boards.
pub fn panels() -> Kind {
    let is_panel = |name: &str| ["amplifiers", "boards", "panel"].contains(&name);
    let examples = examples().into_iter().filter(|&(name, _)| is_panel(name));
    let mut sheets: Vec<Draft> = examples.map(|(_, draft)| draft).collect();
    let mut random = Random::new(12);
    sheets.extend((0..PANELS).map(|_| panel(&mut random)));
    Kind {
        name: "panels".to_owned(),
        sheets,
    }
}

/// A panel of twelve tiles, three boards and a cable, with some room in the width and between tiles.
fn panel(random: &mut Random) -> Draft {
    let tile = random.within(20..=60);
    let mut draft = panel_of(tile, random.within(tile..=5 * tile));
    draft.width += random.within(0..=tile);
    for separation in &mut draft.layers[0] {
        separation.maximum += random.within(0..=2);
    }
    draft
}
