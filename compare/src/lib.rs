//! The port and the Rust that it was made from, in one program.
//!
//! `oracle` is the Rust unchanged, `port` the proved library, `model` a third opinion: the documents written down once more, apart from both; `cover` is
//! the same for the covering walk, which the Rust does not have, and `exact` says which lines share a point.
//! `kinds` has one comparison for each kind of question, `cases` what they ask.
//!
//! The modules named in the second half stand for parts of the Rust's own crate: its source names them by `crate::`.

pub mod cases;
pub mod cover;
pub mod exact;
pub mod inner;
pub mod kinds;
pub mod model;
pub mod oracle;
pub mod plain;
pub mod port;
pub mod random;

pub(crate) mod noding;
pub(crate) mod stand_in;
pub(crate) use stand_in::{diagnostics, options, trace, types, utils, PolygonizeError, Result};

/// The grid record, how a build sizes its cells, and which cells a walk visits.
pub use morelturret::{Grid, Mode, Sizing};

/// A line: start x, start y, end x, end y.
pub type Line = [f64; 4];
