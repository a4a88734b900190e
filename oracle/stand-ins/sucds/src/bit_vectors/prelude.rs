//! Stand-in: the traits of this module.

pub use crate::bit_vectors::{Access, Rank, Select};
