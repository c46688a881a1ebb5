//! The job.

use crate::{native, Fraction, Refusal, SignedFraction};

/// What a job answers.
#[derive(Debug, Clone, Copy, PartialEq, Eq, Hash)]
pub struct JobFigures {
    /// How many sites are surveyed.
    pub sites: u64,
    /// The variance of the pair, in grey levels squared, as [`pair_figures`](crate::pair_figures).
    pub variance: Fraction,
    /// The noise of the pair, in grey levels, likewise: r over 64 * sites.
    pub noise: Fraction,
    /// The first frame's dark level, in grey levels, as [`dark_level`](crate::dark_level).
    pub dark: SignedFraction,
}

/// A whole job in one stream: two frames, their mask and numbers in, pair noise and the first frame's dark level out.
///
/// A field is a one-byte tag, a two-byte big-endian length and the body; tags 1 to 7 then 0, in that order: 1 width,
/// 2 height, 3 full scale, 4 black level (two bytes each, big-endian), 5 mask, 6 and 7 the frames in RAW10, 0 empty.
/// Sides are at most 64, so no good stream is longer than 14,368 bytes, and the first 14,369 decide every answer.
///
/// # Errors
///
/// First met in the stream. In a field: 21 (another tag than the next due), 20 (the input ends inside the field or
/// before it), 22 (wrong length); the tag is judged first, then the length, then whether the body is all there. Their
/// place is the offset of the field's first byte. After field 2: 1, then 24 (a side above 64). After field 0: 23 (bytes
/// follow; the place is the first of them), then the library's refusals: 2, 5, 6 (`over` counts both frames), 7 of pair
/// noise, then 3 of the dark level.
///
/// ```
/// use tippovrain::{job, Call, Refusal};
///
/// let mut stream = [
///     1, 0, 2, 0, 2, // width 2
///     2, 0, 2, 0, 2, // height 2
///     3, 0, 2, 3, 255, // full scale 1023
///     4, 0, 2, 0, 64, // black level 64
///     5, 0, 4, 0, 0, 0, 0, // mask
///     6, 0, 5, 25, 25, 25, 25, 228, // first frame
///     7, 0, 5, 25, 25, 25, 26, 37, // second frame
///     0, 0, 0, // the end
/// ];
/// let answer = job(&stream).unwrap();
/// assert_eq!(answer.sites, 4);
/// assert_eq!(answer.variance.to_string(), "4/32");
/// assert_eq!(answer.noise.to_string(), "90/256");
/// assert_eq!(answer.dark.to_string(), "150/4");
///
/// // cut inside field 3, which begins at byte 10
/// assert_eq!(job(&stream[..12]), Err(Refusal { call: Call::Job, number: 20, place: 10, over: 0 }));
///
/// // full scale 101: two samples of each frame are above it, the first of them at site 2
/// stream[13..15].copy_from_slice(&[0, 101]);
/// assert_eq!(job(&stream), Err(Refusal { call: Call::Job, number: 6, place: 2, over: 4 }));
/// ```
pub fn job(input: &[u8]) -> Result<JobFigures, Refusal> {
    let (sites, p, q, r, dark) = native::tip_job(input)?;
    Ok(JobFigures {
        sites,
        variance: Fraction {
            numerator: p,
            denominator: q,
        },
        noise: Fraction {
            numerator: r,
            denominator: 64 * sites,
        },
        dark: SignedFraction {
            numerator: dark,
            denominator: sites,
        },
    })
}
