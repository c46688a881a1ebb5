//! Unpacking.

use crate::{native, Refusal};

/// Unpacks RAW10 (MIPI CSI-2): four samples of 10 bits in five bytes. The first four bytes are the upper eight bits of
/// each sample; the fifth holds the lower two, the first sample's in bits 1..0, the fourth's in bits 7..6. Rows follow
/// each other with no padding, so a group of four may run on into the next row.
///
/// - `width`, `height`: sites, each even and from 2 to 128
/// - `bytes`: `width * height * 5 / 4` packed bytes
/// - `out`: `width * height` samples, each written: grey levels, 0 to 1023
///
/// # Errors
///
/// In the order tested: 1; 4 (`bytes` or `out`).
///
/// ```
/// # fn main() -> Result<(), tippovrain::Refusal> {
/// let mut out = [0; 4];
/// tippovrain::unpack_raw10(2, 2, &[25, 25, 25, 25, 228], &mut out)?;
/// assert_eq!(out, [100, 101, 102, 103]);
/// # Ok(())
/// # }
/// ```
pub fn unpack_raw10(
    width: usize,
    height: usize,
    bytes: &[u8],
    out: &mut [u16],
) -> Result<(), Refusal> {
    native::tip_unpack_raw10(width, height, bytes, out)
}
