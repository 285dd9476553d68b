//! A RAID-5 array of 3 to 8 cards whose parity mirrors the versions of its data blocks.
//!
//! The modules up to `survey` are the array itself. `call`, `replay` and `bench_work` drive it as the other
//! implementation is driven through its C boundary, and `boundary` declares that boundary. The modules from `rng` on
//! make random scripts for the comparison of the two. `start` is what the programs share.

#![deny(unsafe_code)]

pub mod array;
pub mod block;
pub mod checksum;
pub mod finding;
pub mod refusal;
pub mod shelf;
pub mod stripe;
pub mod survey;

pub mod bench_work;
pub mod call;
pub mod replay;

pub mod coverage;
pub mod generate;
pub mod images;
pub mod rng;

pub mod start;

#[cfg(feature = "boundary")]
#[allow(unsafe_code)]
pub mod boundary;

pub use refusal::Refusal;
