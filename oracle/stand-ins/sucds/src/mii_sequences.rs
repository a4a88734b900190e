//! Stand-in: module list.

pub mod elias_fano;

pub use elias_fano::{EliasFano, EliasFanoBuilder};
