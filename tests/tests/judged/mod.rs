//! Drawings of the library, and what both checkers say to places and lists.

use compare::{grouped, judge, page, Library, Proved};
use second::certificate;
use second::drawing::Sheet;
use strip_tests::draft::Draft;

/// How often both checkers have said each word.
#[derive(Default)]
pub struct Words {
    pub yes: usize,
    pub no: usize,
    pub refused: usize,
}

/// A sheet with the drawing and the list of the library.
pub struct Drawn {
    pub sheet: Sheet,
    pub bytes: Vec<u8>,
    pub places: Vec<u16>,
    pub list: Vec<i32>,
}

impl Drawn {
    /// The drawing of a sheet, if it has one.
    pub fn new(draft: &Draft) -> Option<Drawn> {
        let (sheet, bytes) = (draft.sheet(), draft.bytes());
        let mut places = vec![0; sheet.node_count()];
        let mut list = vec![0; certificate::length(&sheet)];
        Proved.draw(&bytes, &mut places, &mut list).ok()?;
        Some(Drawn {
            sheet,
            bytes,
            places,
            list,
        })
    }
}

impl Words {
    /// Compares what is said to places and a list.
    pub fn judge(&mut self, drawn: &Drawn, places: &[u16], list: &[i32]) -> bool {
        let word = judge(&Proved, &drawn.bytes, places, list);
        match word {
            Ok(true) => self.yes += 1,
            Ok(false) => self.no += 1,
            Err(_) => self.refused += 1,
        }
        word == Ok(true)
    }

    /// Prints the counts, and checks that the page has them and that each word has been said this many
    /// times.
    pub fn check(&self, kind: &str, yes: usize, no: usize, refused: usize) {
        let sum = self.yes + self.no + self.refused;
        let row = [sum, self.yes, self.no, self.refused];
        let [sum, said_yes, said_no, said_refused] = row.map(grouped);
        println!("compared: {sum} {kind}: {said_yes} yes, {said_no} no, {said_refused} refused");
        page::check_row(kind, &row);
        assert!(self.yes >= yes && self.no >= no && self.refused >= refused);
    }
}
