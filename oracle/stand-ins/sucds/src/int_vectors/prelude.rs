//! Stand-in: the trait of this module.

pub use crate::int_vectors::Access;
