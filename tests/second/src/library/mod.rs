//! The compiled library through its C interface, one file a family.
//! Every buffer is lent as writable memory, so that a write to a read-only one is seen.

pub mod colour;
pub mod dark;
pub mod gain;
pub mod job;
mod lent;
pub mod lines;
pub mod pair;
pub mod pattern;
pub mod raw;
pub mod shading;
pub mod sites;
pub mod stack;

pub use lent::Lent;

#[link(name = "tippovrain", kind = "static")]
extern "C" {}

/// Stands in every number's cell before a call.
const GARBAGE: u64 = 0xC35A_A53C_96F0_0F69;

/// For the calls that cannot give 6: they hand up no count of samples over.
const NO_COUNT: u64 = 0;

/// What every call on one frame is lent.
pub struct Window<'a> {
    pub width: usize,
    pub height: usize,
    pub full_scale: u64,
    pub mask: &'a mut Lent<u8>,
    pub frame: &'a mut Lent<u16>,
}
