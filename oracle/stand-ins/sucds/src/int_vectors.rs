//! Stand-in: module list and the trait `Access`.

pub mod prefix_summed_elias_fano;
pub mod prelude;

pub use prefix_summed_elias_fano::PrefixSummedEliasFano;

pub trait Access {
    fn access(&self, pos: usize) -> Option<u64>;
}
