//! Noise of a pair of frames.

use crate::{native, Fraction, Refusal, Variance, Window};

/// The figures of a pair of frames.
///
/// Cameras may be sorted by the variance's figure or by the noise. Neither is ever a NaN, infinite or -0. With equal
/// `n`, a greater exact variance never gets a smaller figure or noise, and equal ones get the same numbers, bit for
/// bit. With unequal `n` this holds of the variance alone: do not compare noise then. Exchanging the two frames changes
/// none of these numbers. Nor does one constant added to every surveyed sample of one frame, or taken off, if none of
/// them leaves 0 to full scale.
#[derive(Debug, Clone, Copy, PartialEq)]
pub struct PairFigures {
    /// How many sites are surveyed: 2 to 16384.
    pub n: u64,
    /// The variance, in grey levels squared: 0 to half the square of full scale.
    ///
    /// With d second minus first at a surveyed site, its numerator is `n * (sum of d * d) - (sum of d) * (sum of d)`:
    /// 0 to the square of `n * full_scale`, and 0 exactly where all d are equal. Its denominator is `2 * n * n`, 8 to
    /// 2^29. Both are below 2^53, so exact as an f64; its figure is off by at most one part in 2^52.
    pub variance: Variance,
    /// The greatest whole number whose square is at most 2048 times the variance's numerator: 0 to 3036259044.
    pub r: u64,
    /// The noise, in grey levels: `r / (64 * n)`, rounded once, 0 to `0.7072 * full_scale`.
    ///
    /// `32 * n * noise` is at most 1 from the root of 512 times the variance's numerator, and the noise is 0 where that
    /// is 0.
    pub noise: f64,
}

/// The variance of a pair of frames and the noise, its root: EMVA 1288, release 3 form, in which the mean difference is
/// taken off.
///
/// - `mask`: `width * height` codes, 0 to 3
/// - `first`, `second`: `width * height` samples each, grey levels, 0 to full scale where surveyed. Both may be one
///   buffer: variance and noise are then 0, and of a 6 `over` counts each of its samples twice
///
/// # Errors
///
/// In the order tested: 1; 2; 4 (`mask`, `first` or `second`); 5; 6 (all sites of `first`, then all of `second`; `over`
/// counts both); 7 (fewer than 2 surveyed sites).
///
/// ```
/// use tippovrain::{pair_figures, Call, Fraction, Refusal, Window};
///
/// # fn main() -> Result<(), Refusal> {
/// let mut window = Window { width: 2, height: 2, full_scale: 1023 };
/// let (first, second) = ([100, 101, 102, 103], [101, 101, 102, 104]);
/// let pair = pair_figures(window, &[0; 4], &first, &second)?;
/// assert_eq!(pair.n, 4);
/// assert_eq!(pair.variance.exact, Fraction { numerator: 4, denominator: 32 });
/// assert_eq!(pair.variance.figure, 0.125);
/// assert_eq!(pair.r, 90);
/// assert_eq!(pair.noise, 90.0 / 256.0);
///
/// // a second frame that is brighter everywhere by the same is no noise
/// let drift = pair_figures(window, &[0; 4], &first, &[107, 108, 109, 110])?;
/// assert_eq!((drift.variance.exact.numerator, drift.variance.figure), (0, 0.0));
/// assert_eq!((drift.r, drift.noise), (0, 0.0));
///
/// // which of the frames is the first makes no difference
/// assert_eq!(pair_figures(window, &[0; 4], &second, &first)?, pair);
///
/// // two samples of each frame are above this full scale, the first of them at site 2
/// window.full_scale = 101;
/// let refusal = pair_figures(window, &[0; 4], &first, &second).unwrap_err();
/// assert_eq!(refusal, Refusal { call: Call::PairFigures, number: 6, place: 2, over: 4 });
/// # Ok(())
/// # }
/// ```
pub fn pair_figures(
    window: Window,
    mask: &[u8],
    first: &[u16],
    second: &[u16],
) -> Result<PairFigures, Refusal> {
    let Window {
        width,
        height,
        full_scale,
    } = window;
    let (n, p, q, r, variance, noise) =
        native::tip_pair_figures(width, height, full_scale, mask, first, second)?;
    Ok(PairFigures {
        n,
        variance: Variance {
            exact: Fraction {
                numerator: p,
                denominator: q,
            },
            figure: variance,
        },
        r,
        noise,
    })
}
