//! A second implementation of documents 01 and 02, written from them alone: what the library is
//! compared with.
//!
//! It uses no other package, and knows nothing of the library or of the tests.

pub mod cancelling;
pub mod certificate;
pub mod checker;
pub mod coordinates;
pub mod drawing;
pub mod engine;
pub mod minimum_width;
pub mod network;
pub mod number;
pub mod printed;
pub mod refusal;
pub mod residual;
pub mod sheet;
pub mod simplex;
pub mod solver;
pub mod source;
pub mod totals;
pub mod traces;
pub mod tree;
