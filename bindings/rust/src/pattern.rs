//! Pattern noise of a stack.

use crate::{native, Fraction, Refusal, Window};

/// Pattern noise, as parts of full scale.
#[derive(Debug, Clone, Copy, PartialEq, Eq, Hash)]
pub struct PatternNoise {
    /// The square of the level: 0 to 1.
    pub level_squared: Fraction,
    /// The greatest deviation of a line from the ten around it, bright or dark: 0 to 1.
    pub max: Fraction,
}

impl PatternNoise {
    fn of((level_up, level_down, max_up, max_down): (u64, u64, u64, u64)) -> Self {
        PatternNoise {
            level_squared: Fraction {
                numerator: level_up,
                denominator: level_down,
            },
            max: Fraction {
                numerator: max_up,
                denominator: max_down,
            },
        }
    }
}

/// Vertical pattern noise of a stack: how much its columns differ, from the count of frames and the sums of a
/// [`Stack`](crate::Stack), and nothing else of it. Every mask code must be 0. With C the column totals of the sums, h
/// the height, w the width and k the frame count:
///
/// - level squared: the sum of `(C[i] - C[i+1])^2`, i from 0 to w-2, over `(w-1) * (h * k * full_scale)^2`
/// - Max: the greatest of `|10 * C[i] - S[i]|`, i from 5 to w-6, over `10 * h * k * full_scale`, where `S[i]` is the sum
///   of the ten totals `C[i-5..i-1]` and `C[i+1..i+5]`: a dark column counts as a bright one does
///
/// What it takes:
///
/// - `frames`: the stack's frame count, 1 to 100
/// - `mask`: `width * height` codes
/// - `sums`: `width * height` sums, grey levels, each 0 to `frames * full_scale`
///
/// # Errors
///
/// In the order tested: 1; 2; 3 (`frames` is 0 or above 100); 4 (`mask` or `sums`); 5; 8 (a code is not 0); 9 (width
/// below 12); 11 (a sum above `frames * full_scale`).
///
/// ```
/// use tippovrain::{pattern_vertical, Window};
///
/// # fn main() -> Result<(), tippovrain::Refusal> {
/// let window = Window { width: 12, height: 2, full_scale: 1023 };
/// let mut sums = [100; 24];
/// for column_6 in [110, 90] {
///     (sums[6], sums[18]) = (column_6, column_6);
///     let noise = pattern_vertical(window, 1, &[0; 24], &sums)?;
///     assert_eq!(noise.level_squared.to_string(), "800/46047276");
///     assert_eq!(noise.max.to_string(), "200/20460");
/// }
/// # Ok(())
/// # }
/// ```
pub fn pattern_vertical(
    window: Window,
    frames: u64,
    mask: &[u8],
    sums: &[u32],
) -> Result<PatternNoise, Refusal> {
    let Window {
        width,
        height,
        full_scale,
    } = window;
    native::tip_pattern_vertical(width, height, full_scale, frames, mask, sums)
        .map(PatternNoise::of)
}

/// Horizontal pattern noise of a stack: as [`pattern_vertical`] with rows for columns. Width and height change places
/// everywhere: the level squared is over `(h-1) * (w * k * full_scale)^2`, Max over `10 * w * k * full_scale`.
///
/// # Errors
///
/// In the order tested: 1; 2; 3 (`frames` is 0 or above 100); 4 (`mask` or `sums`); 5; 8 (a code is not 0); 9 (height
/// below 12); 11 (a sum above `frames * full_scale`).
///
/// ```
/// use tippovrain::{pattern_horizontal, Window};
///
/// # fn main() -> Result<(), tippovrain::Refusal> {
/// let window = Window { width: 2, height: 12, full_scale: 1023 };
/// let mut sums = [100; 24];
/// for row_6 in [110, 90] {
///     (sums[12], sums[13]) = (row_6, row_6);
///     let noise = pattern_horizontal(window, 1, &[0; 24], &sums)?;
///     assert_eq!(noise.level_squared.to_string(), "800/46047276");
///     assert_eq!(noise.max.to_string(), "200/20460");
/// }
/// # Ok(())
/// # }
/// ```
pub fn pattern_horizontal(
    window: Window,
    frames: u64,
    mask: &[u8],
    sums: &[u32],
) -> Result<PatternNoise, Refusal> {
    let Window {
        width,
        height,
        full_scale,
    } = window;
    native::tip_pattern_horizontal(width, height, full_scale, frames, mask, sums)
        .map(PatternNoise::of)
}
