//! Families of sheets on which the library and the second implementation are compared.

pub mod conflicts;
pub mod exhaustive;
pub mod orders;
pub mod parallel;
pub mod realistic;
pub mod sizes;
pub mod turned;
pub mod widths;
