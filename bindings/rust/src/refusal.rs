//! What a call answers where it gives no figure.

use crate::Call;
use std::error::Error;
use std::fmt;

/// Why a call gave no figure. Every buffer that was lent to it is as it was. The 7 or 10 of a
/// [`Shading`](crate::Shading) says why one block has no figure in one ratio; the call is accepted, and has judged the
/// others.
///
/// | number | given when |
/// |---|---|
/// | 1 | a side is odd or not in 2..128 sites |
/// | 2 | the full scale is not in 1..4095 grey levels |
/// | 3 | another parameter is out of range: a black level above full scale (dark level, colour ratios, judging shading, job), a threshold above 4095 grey levels (finding defects), a frame count above 100 (stacks, pattern noise), or 0 (stack variance, blinking sites, pattern noise), a spread not in 1..4095 grey levels (blinking sites), a limit not in 1..16 (judging shading), a site outside the window (recoding). In photon transfer: the list is empty or has more than 64 points, a point of it, chosen or not, is out of limits, or first and last are outside the list or reversed |
/// | 4 | a buffer's length is not exactly the one needed |
/// | 5 | a mask code is above 3; in recoding the site's old or new one |
/// | 6 | a surveyed sample is above full scale; in recoding the site's, where its old or its new code is 0. `over` says how many are |
/// | 7 | too few: fewer than 2 surveyed sites (pair, job), none (dark level, stack variance, a plane's centre in colour ratios; in shading a block or a centre of one of the ratio's two planes), fewer than 2 frames (stack variance), or fewer than 2 chosen points (photon transfer) |
/// | 8 | pattern noise, and some mask code is not 0 |
/// | 9 | the window is too small for the test (pattern noise, defective rows and columns, colour ratios, shading) |
/// | 10 | T, total - black level * count, is not above 0: of Gr in colour ratios; in shading of Gr, or for B/Gb of Gb, in the block or at the centre, or of R, or for B/Gb of B, at the centre |
/// | 11 | a stack cannot come from its frame count ([`Stack`](crate::Stack) says when); in pattern noise a sum is above frame count * full scale; in shading a count of the table is above its sites, or a total above count * full scale |
/// | 12 | a frame is offered to a stack of 100 |
/// | 13 | photon transfer, and all chosen means are equal |
/// | 14 | photon transfer, and numerator or denominator is 2^53 or more in size |
/// | 20 | a job's stream ends inside a field or before it |
/// | 21 | another tag than the next due |
/// | 22 | a field has the wrong length |
/// | 23 | bytes follow a stream's field 0 |
/// | 24 | a stream's window has a side above 64 sites |
///
/// A number may mean different things in different calls, so a refusal knows its call: [`meaning`](Refusal::meaning)
/// has that call's words, and [`Call::numbers`] the numbers that a call can give. Where a 3 or a 4 may be of several
/// parameters or buffers, it does not say of which: the call's list of errors names them.
///
/// They are tested in ascending number and the first that applies is given, but for [`colour_ratios`], which tests 9
/// before 7, [`shading_judge`], which tests 9 and 11, of the whole call, before 7 and 10, of each block and ratio, and
/// [`job`], which goes by the stream.
///
/// [`colour_ratios`]: crate::colour_ratios
/// [`shading_judge`]: crate::shading_judge
/// [`job`]: crate::job
///
/// ```
/// use tippovrain::{dark_level, Call, Window};
///
/// let window = Window { width: 2, height: 2, full_scale: 1023 };
/// let refusal = dark_level(window, 64, &[0; 4], &[60, 1024, 64, 1500]).unwrap_err();
/// assert_eq!(refusal.call, Call::DarkLevel);
/// assert_eq!((refusal.number, refusal.place, refusal.over), (6, 1, 2));
/// assert!(refusal.to_string().starts_with("refused 6 at site 1: 2 samples above full scale"));
/// ```
#[derive(Debug, Clone, Copy, PartialEq, Eq, Hash)]
pub struct Refusal {
    /// The call that refused.
    pub call: Call,
    /// The refusal's number in the table.
    pub number: u64,
    /// Of 5 and 6 the first offending site, numbered from 0 in row order, in its own frame, and in recoding the site
    /// that is recoded; of a job's 20 to 23 an offset in the stream, in bytes from 0; of any other 0.
    pub place: usize,
    /// Of 6 how many surveyed samples are above full scale, in all frames of the call, wherever the place is: 1 to
    /// `width * height`, and of two frames up to twice that; of any other 0. One hot site gives 1, or with two frames
    /// 2; a wrong exposure or a wrong full scale gives many. Recoding reads one site, and gives 1.
    pub over: u64,
}

impl Refusal {
    /// What the number means in the call, with ranges and units.
    ///
    /// ```
    /// use tippovrain::{Call, Refusal};
    ///
    /// let of = |call| Refusal { call, number: 3, place: 0, over: 0 }.meaning();
    /// assert_eq!(of(Call::DarkLevel), "the black level is above full scale, in grey levels");
    /// assert_eq!(of(Call::StackAdd), "the frame count is above 100");
    /// ```
    pub fn meaning(&self) -> &'static str {
        self.call.words(self.number)
    }
}

impl fmt::Display for Refusal {
    fn fmt(&self, f: &mut fmt::Formatter<'_>) -> fmt::Result {
        write!(f, "refused {}", self.number)?;
        if let Some(counted) = self.call.place_counts(self.number) {
            write!(f, " at {counted} {}", self.place)?;
        }
        match (self.call.over_counts(self.number), self.over) {
            (Some([one, _]), 1) => write!(f, ": 1 {one}"),
            (Some([_, more]), over) => write!(f, ": {over} {more}"),
            (None, _) => write!(f, ": {}", self.meaning()),
        }
    }
}

impl Error for Refusal {}
