//! The cases of the engine.

mod document;
mod extremes;
mod slices;
mod traps;

use super::{Call, Group};
use crate::draft::Draft;
use second::certificate;

impl Group {
    /// Adds a sheet, good or bad, to be drawn into slices of these lengths.
    fn draw(&mut self, bytes: &[u8], places: usize, list: usize) {
        let bytes = bytes.to_vec();
        self.add(Call::Draw {
            bytes,
            places,
            list,
        });
    }

    /// Adds a sheet to be drawn into slices of just the lengths it needs.
    fn draw_exactly(&mut self, draft: &Draft) {
        self.draw_with_excess(draft, 0, 0);
    }

    /// Adds a sheet to be drawn into slices that are longer than needed.
    fn draw_with_excess(&mut self, draft: &Draft, places: usize, list: usize) {
        let sheet = draft.sheet();
        let needed = (sheet.node_count(), certificate::length(&sheet));
        self.draw(&draft.bytes(), needed.0 + places, needed.1 + list);
    }
}

/// The groups that are stored, in the order of the files.
pub fn stored() -> Vec<Group> {
    vec![
        document::sheets(),
        document::parallel_edges(),
        document::widths(),
        document::refusals(),
        traps::sheets(),
    ]
}

/// The groups that are not stored.
pub fn others() -> Vec<Group> {
    vec![slices::lengths(), slices::order(), extremes::sheets()]
}
