//! The cases of the checker of pull lists.

mod document;
mod extremes;
mod full;
mod places;
mod rules;
mod slices;

use super::{Call, Group};
use crate::draft::Draft;
use second::cancelling::solve;
use second::certificate;
use second::drawing;

/// A sheet with places and a pull list.
#[derive(Clone)]
struct Case {
    draft: Draft,
    places: Vec<u16>,
    list: Vec<i32>,
}

impl Case {
    /// A case of these parts.
    fn new(draft: &Draft, places: &[u16], list: &[i32]) -> Case {
        Case {
            draft: draft.clone(),
            places: places.to_vec(),
            list: list.to_vec(),
        }
    }

    /// The leftmost least drawing of a sheet with a list that shows it, if it has a drawing.
    fn solved(draft: &Draft) -> Option<Case> {
        let solution = solve(&draft.sheet())?;
        Some(Case::new(draft, &solution.places, &solution.list))
    }

    /// The same for a sheet that has a drawing.
    fn drawn(draft: &Draft) -> Case {
        Case::solved(draft).expect("the sheet has a drawing")
    }

    /// Whether the floor of the list equals the total of the places.
    fn is_tight(&self) -> bool {
        let sheet = self.draft.sheet();
        let total = drawing::total(&sheet, &self.places);
        certificate::floor(&sheet, &self.list) == total.into()
    }
}

impl Group {
    /// Adds a case.
    fn check(&mut self, case: &Case) {
        self.check_bytes(&case.draft.bytes(), &case.places, &case.list);
    }

    /// Adds a case whose sheet, good or bad, is given in bytes.
    fn check_bytes(&mut self, bytes: &[u8], places: &[u16], list: &[i32]) {
        self.add(Call::Check {
            bytes: bytes.to_vec(),
            places: places.to_vec(),
            list: list.to_vec(),
        });
    }

    /// Adds a case in which the floor equals the total, so that the answer hangs on the rest.
    fn check_tight(&mut self, case: &Case) {
        assert!(case.is_tight(), "{:?}", case.list);
        self.check(case);
    }

    /// Adds the case once with each of the lists.
    fn check_lists(&mut self, case: &Case, lists: Vec<Vec<i32>>) {
        for list in lists {
            self.check(&Case::new(&case.draft, &case.places, &list));
        }
    }

    /// Adds the case once with each of the lists of places.
    fn check_places(&mut self, case: &Case, lists: Vec<Vec<u16>>) {
        for places in lists {
            self.check(&Case::new(&case.draft, &places, &case.list));
        }
    }
}

/// The groups that are stored, in the order of the files.
pub fn stored() -> Vec<Group> {
    vec![
        document::sheets(),
        document::without_drawing(),
        document::parallel_edges(),
        slices::refusals(),
    ]
}

/// The groups that are not stored.
pub fn others() -> Vec<Group> {
    vec![
        slices::lengths(),
        rules::lists(),
        extremes::neighbours(),
        extremes::pulls(),
        extremes::pushes(),
        places::limits(),
        places::others(),
        full::sheets(),
    ]
}
