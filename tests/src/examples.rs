//! Example sheets for the program `place`.
//!
//! A unit is half a millimetre. Tiles carry pixels; amplifiers, converters and connectors stand in
//! the layers below them along the signal path.

use crate::document;
use crate::draft::{Draft, Separation};
use second::sheet::{PLAIN, STRAIGHT};

/// The examples, with the names of their files.
pub fn examples() -> Vec<(&'static str, Draft)> {
    vec![
        ("first", document::first()),
        ("amplifiers", amplifiers()),
        ("boards", boards()),
        ("wall", wall()),
        ("panel", panel()),
    ]
}

/// The amplifiers of a panel: 12 tiles, 6 amplifiers, 3 converters, 2 connectors.
///
/// The tiles are glued side by side, 40 units each. The clock runs straight down from the sixth.
fn amplifiers() -> Draft {
    let mut draft = Draft::new(480, &[12, 6, 3, 2]);
    spaced(&mut draft, 1, 40, 40);
    spaced(&mut draft, 2, 30, 0);
    spaced(&mut draft, 3, 60, 0);
    spaced(&mut draft, 4, 90, 120);
    for tile in 1..=12 {
        let kind = if tile == 6 { STRAIGHT } else { PLAIN };
        draft = draft.edge(1, tile, tile.div_ceil(2), kind);
    }
    for amplifier in 1..=6 {
        let kind = if amplifier == 3 { STRAIGHT } else { PLAIN };
        draft = draft.edge(2, amplifier, amplifier.div_ceil(2), kind);
    }
    for (converter, connector) in [(1, 1), (2, 1), (2, 2), (3, 2)] {
        draft = draft.edge(3, converter, connector, PLAIN);
    }
    draft
}

/// Three boards and a cable: 8 pins, 10 pins around a screw, 8 pins, and a ribbon of 8 wires.
///
/// The outer pins of the first board are ground and stand straight above those of the second.
fn boards() -> Draft {
    let mut draft = Draft::new(80, &[8, 10, 8, 8]);
    spaced(&mut draft, 1, 4, 0);
    spaced(&mut draft, 2, 4, 0);
    spaced(&mut draft, 3, 5, 9);
    spaced(&mut draft, 4, 2, 2);
    draft = draft.separation(2, 5, 12, 16);
    for pin in 1..=8 {
        let kind = if pin == 1 || pin == 8 {
            STRAIGHT
        } else {
            PLAIN
        };
        draft = draft.edge(1, pin, beside_screw(pin), kind);
        draft = draft.edge(2, beside_screw(pin), pin, PLAIN);
        draft = draft.edge(3, pin, pin, PLAIN);
    }
    draft
}

/// The pin of the second board to which a pin of the others leads; the fifth and sixth are spare.
fn beside_screw(pin: u16) -> u16 {
    if pin <= 4 {
        pin
    } else {
        pin + 2
    }
}

/// A wall of twelve panels: 48 tiles, 24 amplifiers, 12 panel boards, 6 hubs, 2 racks.
///
/// Every fourth tile ends a panel. Each panel board also leads to a neighbouring hub as a spare.
fn wall() -> Draft {
    let mut draft = Draft::new(1200, &[48, 24, 12, 6, 2]);
    spaced(&mut draft, 1, 20, 22);
    spaced(&mut draft, 2, 24, 0);
    spaced(&mut draft, 3, 60, 0);
    spaced(&mut draft, 4, 120, 200);
    spaced(&mut draft, 5, 400, 0);
    for panel in 1..12 {
        draft = draft.separation(1, 4 * panel, 32, 0);
    }
    for tile in 1..=48 {
        draft = draft.edge(1, tile, tile.div_ceil(2), PLAIN);
    }
    for amplifier in 1..=24 {
        draft = draft.edge(2, amplifier, amplifier.div_ceil(2), PLAIN);
    }
    for board in 1u16..=12 {
        let hub = board.div_ceil(2);
        let spare = if hub < 6 { hub + 1 } else { hub - 1 };
        let kind = if board == 6 { STRAIGHT } else { PLAIN };
        draft = draft.edge(3, board, hub, kind).edge(3, board, spare, PLAIN);
    }
    for hub in 1u16..=6 {
        draft = draft.edge(4, hub, hub.div_ceil(3), PLAIN);
    }
    draft
}

/// A panel: 12 sensor tiles, 3 readout boards and 1 ribbon cable.
///
/// The tiles are glued side by side, 40 units each, and a board is 150 units wide.
fn panel() -> Draft {
    panel_of(40, 150)
}

/// A panel whose tiles and boards have these widths.
///
/// A board reads four tiles. The cable leaves straight down from the middle board.
pub fn panel_of(tile: u16, board: u16) -> Draft {
    let mut draft = Draft::new(12 * tile, &[12, 3, 1]);
    spaced(&mut draft, 1, tile, tile);
    spaced(&mut draft, 2, board, 0);
    for tile in 1..=12 {
        draft = draft.edge(1, tile, tile.div_ceil(4), PLAIN);
    }
    for board in 1..=3 {
        let kind = if board == 2 { STRAIGHT } else { PLAIN };
        draft = draft.edge(2, board, 1, kind);
    }
    draft
}

/// Sets all separations of a layer, from 1.
fn spaced(draft: &mut Draft, layer: usize, minimum: u16, maximum: u16) {
    draft.layers[layer - 1].fill(Separation { minimum, maximum });
}
