//! What calls that fill a slice answer, counted.

use compare::{grouped, page, read_into, write_into, Format, Library};
use second::refusal::Refusal;

/// Counts of answers by the number of the refusal; 0 is none.
#[derive(Default)]
pub struct Answers([usize; 12]);

impl Answers {
    /// Counts one more answer.
    pub fn count<T>(&mut self, answer: &Result<T, Refusal>) {
        let number = answer.as_ref().err().map_or(0, |refusal| refusal.number);
        self.0[number as usize] += 1;
    }

    /// Compares reading and writing with slices of every length up to two elements too many.
    #[allow(dead_code)] // not every test file has a format
    pub fn count_lengths(
        &mut self,
        library: &impl Library,
        format: Format,
        numbers: &[u16],
        bytes: &[u8],
    ) {
        for length in 0..=numbers.len() + 2 {
            self.count(&read_into(library, format, bytes, length));
        }
        for length in 0..=bytes.len() + 2 {
            self.count(&write_into(library, format, numbers, length));
        }
    }

    /// Prints the counts, and checks that the page has them and that answers have come up this many times.
    pub fn check(&self, kind: &str, least: &[(usize, usize)]) {
        let sum = self.0.iter().sum();
        let mut line = format!("compared: {} {kind}", grouped(sum));
        for (number, &count) in self.0.iter().enumerate() {
            match (number, count) {
                (_, 0) => continue,
                (0, _) => line += &format!(": {} taken", grouped(count)),
                _ => line += &format!(", {} refused {number}", grouped(count)),
            }
        }
        println!("{line}");
        page::check_row(kind, &[sum, self.0[0], 0, sum - self.0[0]]);
        for &(number, least) in least {
            assert!(self.0[number] >= least, "{number}: {}", self.0[number]);
        }
    }
}
