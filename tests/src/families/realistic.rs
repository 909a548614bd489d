//! Random sheets like those that are drawn: panels, boards with a cable, walls, and leads through
//! several layers as straight chains of bend nodes.

use crate::draft::{Draft, Edge, Separation};
use crate::random::Random;
use second::sheet::{EDGE_LIMIT, LAYER_LIMIT, NODE_LIMIT, PLAIN, STRAIGHT, WIDTH_LIMIT};

/// One such sheet.
pub fn any(random: &mut Random) -> Draft {
    match random.within(0..=3) {
        0 => panel(random),
        1 => boards(random),
        2 => wall(random),
        _ => bends(random),
    }
}

/// Sets all separations of a layer, from 1.
fn spaced(draft: &mut Draft, layer: usize, minimum: u16, maximum: u16) {
    draft.layers[layer - 1].fill(Separation { minimum, maximum });
}

/// The kind of an edge that is straight once in so many times.
fn kind(random: &mut Random, times: u16) -> u16 {
    if random.once_in(times) {
        STRAIGHT
    } else {
        PLAIN
    }
}

/// A panel: glued tiles, an amplifier for two, a converter for two of these, some connectors.
pub fn panel(random: &mut Random) -> Draft {
    let tiles = 4 * random.within(1..=16);
    let pitch = random.within(4..=60);
    let (amplifiers, converters) = (tiles / 2, tiles / 4);
    let connectors = random.within(1..=converters);
    let width = tiles * pitch + random.within(0..=9);
    let counts = [tiles, amplifiers, converters, connectors];
    let mut draft = Draft::new(width, &counts);
    spaced(&mut draft, 1, pitch, pitch);
    spaced(&mut draft, 2, random.within(1..=2 * pitch), 0);
    spaced(&mut draft, 3, random.within(1..=3 * pitch), 0);
    spaced(&mut draft, 4, pitch, random.within(pitch..=4 * pitch));
    for layer in 1..4 {
        for upper in 1..=counts[layer - 1] {
            let lower = (upper - 1) * counts[layer] / counts[layer - 1] + 1;
            let kind = kind(random, 3 * tiles);
            draft = draft.edge(layer as u16, upper, lower, kind);
        }
    }
    draft
}

/// Three boards of pins, the middle one with spare pins around a screw, and a ribbon cable.
pub fn boards(random: &mut Random) -> Draft {
    let pins = random.within(4..=48);
    let spare = random.within(1..=8);
    let before = random.within(1..=pins - 1);
    let mut draft = Draft::new(0, &[pins, pins + spare, pins, pins]);
    spaced(&mut draft, 1, 4, 0);
    spaced(&mut draft, 2, 4, 0);
    spaced(&mut draft, 3, 5, 9);
    let wire = random.within(1..=4);
    spaced(&mut draft, 4, wire, wire);
    draft = draft.separation(2, before.into(), 12, 16);
    draft.width = 6 * (pins + spare) + random.within(0..=40);
    let beside = |pin: u16| if pin <= before { pin } else { pin + spare };
    for pin in 1..=pins {
        let is_outer = pin == 1 || pin == pins;
        let kind = if is_outer { STRAIGHT } else { PLAIN };
        draft = draft.edge(1, pin, beside(pin), kind);
        draft = draft.edge(2, beside(pin), pin, PLAIN);
        draft = draft.edge(3, pin, pin, PLAIN);
    }
    draft
}

/// A wall of panels: four tiles and two amplifiers and a board for each, hubs with spares, racks.
pub fn wall(random: &mut Random) -> Draft {
    let panels = random.within(2..=16);
    let hubs = panels.div_ceil(2);
    let racks = random.within(1..=hubs);
    let tile = random.within(4..=40);
    let mut draft = Draft::new(0, &[4 * panels, 2 * panels, panels, hubs, racks]);
    draft.width = (panels * 5 * tile + random.within(0..=200)).min(WIDTH_LIMIT);
    spaced(&mut draft, 1, tile, tile + 2);
    spaced(&mut draft, 2, tile, 0);
    spaced(&mut draft, 3, 2 * tile, 0);
    spaced(&mut draft, 4, 4 * tile, 10 * tile);
    spaced(&mut draft, 5, random.within(1..=4 * tile), 0);
    for panel in 1..panels {
        draft = draft.separation(1, (4 * panel).into(), tile + tile / 2, 0);
    }
    for tile in 1..=4 * panels {
        draft = draft.edge(1, tile, tile.div_ceil(2), PLAIN);
    }
    for amplifier in 1..=2 * panels {
        draft = draft.edge(2, amplifier, amplifier.div_ceil(2), PLAIN);
    }
    for board in 1..=panels {
        let hub = board.div_ceil(2);
        let spare = random.within(1..=hubs);
        draft = draft
            .edge(3, board, hub, kind(random, panels))
            .edge(3, board, spare, PLAIN);
    }
    for hub in 1..=hubs {
        draft = draft.edge(4, hub, (hub - 1) * racks / hubs + 1, PLAIN);
    }
    draft
}

/// Leads that run straight through several layers, each in a column of its own, and plain ones.
pub fn bends(random: &mut Random) -> Draft {
    let layers = random.within(3..=LAYER_LIMIT);
    let columns = random.within(1..=(NODE_LIMIT / layers).min(40));
    let unit = random.within(1..=WIDTH_LIMIT / 41);
    let chains = chains(random, layers.into(), columns.into());
    let rows: Vec<Vec<usize>> = chains.iter().map(|row| occupied(row)).collect();
    let counts: Vec<u16> = rows.iter().map(|row| row.len() as u16).collect();
    let mut draft = Draft::new(columns * unit + random.within(0..=unit), &counts);
    for (layer, row) in draft.layers.iter_mut().zip(&rows) {
        for (separation, columns) in layer.iter_mut().zip(row.windows(2)) {
            let distance = (columns[1] - columns[0]) as u16 * unit;
            separation.minimum = random.within(1..=distance);
            if random.once_in(4) {
                separation.maximum = random.within(distance..=distance + unit);
            }
        }
    }
    draft.edges = straight_edges(&chains, &rows);
    let plain = random.within(0..=EDGE_LIMIT - draft.edges.len() as u16);
    with_plain(random, draft, plain)
}

/// The sheet with so many plain edges more, between any nodes of neighbouring layers.
pub fn with_plain(random: &mut Random, mut draft: Draft, plain: u16) -> Draft {
    let count = |layer: &Vec<Separation>| layer.len() as u16 + 1;
    let counts: Vec<u16> = draft.layers.iter().map(count).collect();
    for _ in 0..plain {
        let layer = random.within(1..=counts.len() as u16 - 1);
        let upper = random.within(1..=counts[usize::from(layer) - 1]);
        let lower = random.within(1..=counts[usize::from(layer)]);
        draft = draft.edge(layer, upper, lower, PLAIN);
    }
    draft
}

/// For each layer and column the number of the chain that has a node there; the first column is one chain.
fn chains(random: &mut Random, layers: usize, columns: usize) -> Vec<Vec<Option<usize>>> {
    let mut chains = vec![vec![None; columns]; layers];
    let mut chain = 0;
    for column in 0..columns {
        let mut layer = 0;
        while layer < layers {
            let end = match column {
                0 => layers,
                _ => layer + 1 + random.index(layers - layer),
            };
            let is_there = column == 0 || !random.once_in(4);
            for row in &mut chains[layer..end] {
                row[column] = Some(chain).filter(|_| is_there);
            }
            chain += 1;
            layer = end;
        }
    }
    chains
}

/// The columns of a layer in which a chain has a node.
fn occupied(row: &[Option<usize>]) -> Vec<usize> {
    (0..row.len())
        .filter(|&column| row[column].is_some())
        .collect()
}

/// The straight edges along the chains.
fn straight_edges(chains: &[Vec<Option<usize>>], rows: &[Vec<usize>]) -> Vec<Edge> {
    let mut edges = Vec::new();
    for layer in 1..rows.len() {
        for (upper, &column) in (1..).zip(&rows[layer - 1]) {
            if chains[layer][column] != chains[layer - 1][column] {
                continue;
            }
            let lower = rows[layer].partition_point(|&other| other < column) as u16 + 1;
            edges.push(Edge {
                layer: layer as u16,
                upper,
                lower,
                kind: STRAIGHT,
            });
        }
    }
    edges
}
