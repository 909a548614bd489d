//! What the tests are made of: sheets and coordinate files by hand and at random, damage, and the cases
//! of `library_test`. Nothing here needs the library.

pub mod cases;
pub mod count;
pub mod damage;
pub mod declare;
pub mod document;
pub mod draft;
pub mod driver;
pub mod examples;
pub mod families;
pub mod files;
pub mod generate;
pub mod kinds;
pub mod mutation;
pub mod planted;
pub mod random;
pub mod traps;
pub mod vectors;
