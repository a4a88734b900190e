//! Stand-in: the modules of the crate that the port needs, and the names its files take from the root.

extern crate alloc;

pub mod bit_vectors;
pub mod broadword;
pub mod errors;
pub mod int_vectors;
#[cfg(feature = "intrinsics")]
mod intrinsics;
pub mod io;
pub mod mii_sequences;
pub mod serial;
pub mod storage;
pub mod utils;

pub use errors::SucdsError;
pub use serial::Serializable;

pub type Result<T> = core::result::Result<T, SucdsError>;
