//! Dark level.

use crate::{native, Refusal, SignedFraction, Window};

/// The dark level of a frame, in grey levels: `sum - black_level * n` over `n`, with the sum of the n surveyed samples.
/// It is below 0 where the mean is below black.
///
/// - `black_level`: 0 to full scale, grey levels; usually 64 at 10 bits
/// - `mask`: `width * height` codes, 0 to 3
/// - `frame`: `width * height` samples, grey levels, 0 to full scale where surveyed
///
/// # Errors
///
/// In the order tested: 1; 2; 3 (`black_level` above full scale); 4 (`mask` or `frame`); 5; 6; 7 (no surveyed site).
///
/// ```
/// use tippovrain::{dark_level, Window};
///
/// # fn main() -> Result<(), tippovrain::Refusal> {
/// let window = Window { width: 2, height: 2, full_scale: 1023 };
/// let dark = dark_level(window, 64, &[0; 4], &[60, 64, 64, 64])?;
/// assert_eq!((dark.numerator, dark.denominator), (-4, 4));
/// assert_eq!(dark.to_string(), "-4/4");
/// # Ok(())
/// # }
/// ```
pub fn dark_level(
    window: Window,
    black_level: u64,
    mask: &[u8],
    frame: &[u16],
) -> Result<SignedFraction, Refusal> {
    let Window {
        width,
        height,
        full_scale,
    } = window;
    let (numerator, denominator) =
        native::tip_dark_level(width, height, full_scale, black_level, mask, frame)?;
    Ok(SignedFraction {
        numerator,
        denominator,
    })
}
