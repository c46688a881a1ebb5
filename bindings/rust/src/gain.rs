//! Photon transfer.

use crate::{native, Refusal, SignedFraction};

/// What was measured at one exposure. It lies in memory as C's `tip_point`.
///
/// A point is made of the figures of two frames of one exposure, in sixteenths, each rounded half up: the mean of
/// [`dark_level`](crate::dark_level) of the first frame with black level 0, the variance of
/// [`pair_figures`](crate::pair_figures) of both. Such a point is within limits whatever the frames, and
/// `(32 * numerator + denominator) / (2 * denominator)` does not overflow. `examples/gain.rs` does it.
#[repr(C)]
#[derive(Debug, Clone, Copy, PartialEq, Eq, Hash, Default)]
pub struct Point {
    /// In any unit of the caller's: any number, and it changes nothing.
    pub exposure: u64,
    /// Sixteenths of a grey level: 0 to 65520, with the black level or without.
    pub mean: u64,
    /// Sixteenths of a grey level squared: 0 to 2^28.
    pub variance: u64,
}

/// A gain, in grey levels per electron.
#[derive(Debug, Clone, Copy, PartialEq)]
pub struct Gain {
    /// The gain itself: the numerator is below 2^53 in size, the denominator at most 4395899289600.
    pub exact: SignedFraction,
    /// Numerator over denominator, rounded once: off by at most one part in 2^53, and 0, never -0, where the numerator
    /// is 0.
    pub figure: f64,
}

/// What a photon transfer answers.
#[derive(Debug, Clone, Copy, PartialEq)]
pub struct PhotonTransfer {
    /// The gain: the slope of variance against mean over the chosen points. It is below 0 where the variance falls as
    /// the mean grows.
    pub gain: Gain,
    /// The first place, from 0, of the greatest variance in the whole list, chosen or not.
    pub saturation: usize,
}

/// Photon transfer: the gain of a camera, by EMVA 1288, as the slope of the least squares line of variance against
/// mean. Of the m points from `first` to `last`, both included, x is the mean and y the variance; Sx, Sy, Sxx and Sxy
/// are the sums of x, y, x * x and x * y over them. The gain is `m * Sxy - Sx * Sy` over `m * Sxx - Sx * Sx`; the
/// sixteenths cancel out. One number taken off all chosen means, or added to them, within limits, changes neither, so
/// no black level is asked. It must be the same number for each: where a mean is cut off at 0, the slope
/// may be another.
///
/// - `points`: 1 to 64 points in any order; those that are not chosen count for the saturation and for 3
/// - `first`, `last`: places in the list, from 0, `first` below `last`
///
/// # Errors
///
/// In the order tested: 3 (the list is empty or has more than 64 points, a mean above 65520 or a variance above 2^28
/// anywhere in it, chosen or not, `last` not below its length, or `first` above `last`); 7 (fewer than two points are
/// chosen: `first` is `last`); 13 (all chosen means are equal); 14 (numerator or denominator is 2^53 or more in size;
/// within these limits only the numerator can be).
///
/// ```
/// use tippovrain::{photon_transfer, Point};
///
/// # fn main() -> Result<(), tippovrain::Refusal> {
/// let points = [(1, 1600, 840), (2, 3200, 1640), (4, 6400, 3240), (8, 12800, 6440), (16, 16368, 90)]
///     .map(|(exposure, mean, variance)| Point { exposure, mean, variance });
/// let transfer = photon_transfer(&points, 0, 2)?;
/// assert_eq!(transfer.gain.exact.to_string(), "17920000/35840000");
/// assert_eq!(transfer.gain.figure, 0.5);
/// assert_eq!(transfer.saturation, 3);
///
/// let refusal = photon_transfer(&points, 4, 4).unwrap_err();
/// assert_eq!(refusal.to_string(), "refused 7: fewer than 2 points are chosen");
/// # Ok(())
/// # }
/// ```
pub fn photon_transfer(
    points: &[Point],
    first: usize,
    last: usize,
) -> Result<PhotonTransfer, Refusal> {
    let (numerator, denominator, figure, saturation) =
        native::tip_photon_transfer(points, first, last)?;
    Ok(PhotonTransfer {
        gain: Gain {
            exact: SignedFraction {
                numerator,
                denominator,
            },
            figure,
        },
        // a place in a list of at most 64
        saturation: saturation as usize,
    })
}
