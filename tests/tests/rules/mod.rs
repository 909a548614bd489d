//! A reader and a writer of coordinate files that break one rule, or none.

use second::coordinates::{PLACE_LIMIT, SIGNATURE};
use second::refusal::{Refusal, BAD_FORM, OUTSIDE_LIMITS};
use second::sheet::{self, LAYER_LIMIT, LAYER_NODE_LIMIT, NODE_LIMIT};
use second::source::{encoded, fill_front, Bytes, List, Source};

/// A rule, by what happens where it is broken.
#[derive(Clone, Copy, Debug, PartialEq)]
pub enum Rule {
    /// The signature is that of sheets.
    Signature,
    /// There is no limit for all nodes together.
    AllNodes,
    /// A first place is 1 or more.
    FirstPlace,
    /// A distance of 0 is taken.
    LeastDistance,
    /// The greatest place is 4,096.
    GreatestPlace,
    /// A distance of 4,096 or more is refused with 3.
    Form,
    /// A distance is refused one byte further on, a place one number further on.
    Offset,
    /// The reader gives distances, the writer writes places.
    Neighbour,
    /// A slice is tested before what follows the last node.
    SliceFirst,
    /// One element more is written.
    Behind,
    /// An element is written on a refusal.
    OnRefusal,
}

/// The rules of the reader.
pub const READER: [Rule; 11] = [
    Rule::Signature,
    Rule::AllNodes,
    Rule::FirstPlace,
    Rule::LeastDistance,
    Rule::GreatestPlace,
    Rule::Form,
    Rule::Offset,
    Rule::Neighbour,
    Rule::SliceFirst,
    Rule::Behind,
    Rule::OnRefusal,
];

/// The rules of the writer, which knows no form.
pub const WRITER: [Rule; 10] = [
    Rule::Signature,
    Rule::AllNodes,
    Rule::FirstPlace,
    Rule::LeastDistance,
    Rule::GreatestPlace,
    Rule::Offset,
    Rule::Neighbour,
    Rule::SliceFirst,
    Rule::Behind,
    Rule::OnRefusal,
];

/// The rule that is broken, if there is one.
#[derive(Clone, Copy)]
pub struct Broken(pub Option<Rule>);

impl Broken {
    /// Reads a file into the front of a slice.
    pub fn read(self, file: &[u8], numbers: &mut [u16]) -> Result<usize, Refusal> {
        let mut source = Bytes::behind(self.signature(), file)?;
        let found = self.walk(&mut source, |source, left| {
            let offset = source.at();
            let distance = source.take()?;
            if self.is(Rule::Form) && distance > PLACE_LIMIT.into() {
                return Err(Refusal::new(BAD_FORM, offset));
            }
            self.tested(left, u32::from(left) + distance, offset)
        });
        self.fill(
            source,
            numbers,
            found.map(|(places, distances)| {
                if self.is(Rule::Neighbour) {
                    distances
                } else {
                    places
                }
            }),
        )
    }

    /// Writes the file of a list into the front of a slice.
    pub fn write(self, numbers: &[u16], file: &mut [u8]) -> Result<usize, Refusal> {
        let mut source = List::new(numbers);
        let found = self.walk(&mut source, |source, left| {
            let offset = source.at();
            let place = source.take()?;
            self.tested(left, place, offset)
        });
        self.fill(
            source,
            file,
            found.map(|(places, distances)| {
                let written = if self.is(Rule::Neighbour) {
                    places
                } else {
                    distances
                };
                encoded(self.signature(), written)
            }),
        )
    }

    /// Whether this rule is broken.
    fn is(self, rule: Rule) -> bool {
        self.0 == Some(rule)
    }

    /// The three bytes in front.
    fn signature(self) -> [u8; 3] {
        match self.is(Rule::Signature) {
            true => sheet::SIGNATURE,
            false => SIGNATURE,
        }
    }

    /// The greatest place.
    fn greatest(self) -> u16 {
        PLACE_LIMIT + u16::from(self.is(Rule::GreatestPlace))
    }

    /// A place right of another one, or a refusal there.
    fn tested(self, left: u16, place: u32, offset: usize) -> Result<u16, Refusal> {
        let least = left + u16::from(!self.is(Rule::LeastDistance));
        match u16::try_from(place) {
            Ok(place) if (least..=self.greatest()).contains(&place) => Ok(place),
            _ => {
                let offset = offset + usize::from(self.is(Rule::Offset));
                Err(Refusal::new(OUTSIDE_LIMITS, offset))
            }
        }
    }

    /// The numbers with places, and with distances; `right_of` takes a place right of another one.
    fn walk<S: Source>(
        self,
        source: &mut S,
        right_of: impl Fn(&mut S, u16) -> Result<u16, Refusal>,
    ) -> Result<(Vec<u16>, Vec<u16>), Refusal> {
        let layers = source.number(1..=LAYER_LIMIT)?;
        let (mut places, mut distances) = (vec![layers], vec![layers]);
        let mut room = if self.is(Rule::AllNodes) {
            u16::MAX
        } else {
            NODE_LIMIT
        };
        for _ in 0..layers {
            let count = source.number(1..=LAYER_NODE_LIMIT.min(room))?;
            room -= count;
            let first = u16::from(self.is(Rule::FirstPlace));
            let mut left = source.number(first..=self.greatest())?;
            places.extend([count, left]);
            distances.extend([count, left]);
            for _ in 1..count {
                let place = right_of(source, left)?;
                places.push(place);
                distances.push(place - left);
                left = place;
            }
        }
        Ok((places, distances))
    }

    /// Copies what is found to the front of a slice, if nothing is left in the source.
    fn fill<T: Copy + Default>(
        self,
        source: impl Source,
        slice: &mut [T],
        found: Result<Vec<T>, Refusal>,
    ) -> Result<usize, Refusal> {
        let answer = found.and_then(|elements| {
            if !self.is(Rule::SliceFirst) || slice.len() >= elements.len() {
                source.end()?;
            }
            fill_front(slice, &elements)
        });
        let touched = match answer {
            Ok(count) if self.is(Rule::Behind) => slice.get_mut(count),
            Err(_) if self.is(Rule::OnRefusal) => slice.first_mut(),
            _ => None,
        };
        if let Some(element) = touched {
            *element = T::default();
        }
        answer
    }
}
