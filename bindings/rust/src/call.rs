//! The calls: which numbers each can refuse with, what they mean in it, and what their place counts.

use Call::*;

/// A call of the library. More may join.
#[derive(Debug, Clone, Copy, PartialEq, Eq, Hash)]
#[non_exhaustive]
pub enum Call {
    /// [`unpack_raw10`](crate::unpack_raw10)
    UnpackRaw10,
    /// [`pair_figures`](crate::pair_figures)
    PairFigures,
    /// [`dark_level`](crate::dark_level)
    DarkLevel,
    /// [`stack_add`](crate::stack_add)
    StackAdd,
    /// [`stack_variance`](crate::stack_variance)
    StackVariance,
    /// [`blinking_sites`](crate::blinking_sites)
    BlinkingSites,
    /// [`pattern_vertical`](crate::pattern_vertical)
    PatternVertical,
    /// [`pattern_horizontal`](crate::pattern_horizontal)
    PatternHorizontal,
    /// [`find_defects`](crate::find_defects)
    FindDefects,
    /// [`repair`](crate::repair)
    Repair,
    /// [`defective_rows`](crate::defective_rows)
    DefectiveRows,
    /// [`defective_columns`](crate::defective_columns)
    DefectiveColumns,
    /// [`colour_ratios`](crate::colour_ratios)
    ColourRatios,
    /// [`shading_table`](crate::shading_table)
    ShadingTable,
    /// [`shading_recode`](crate::shading_recode)
    ShadingRecode,
    /// [`shading_judge`](crate::shading_judge)
    ShadingJudge,
    /// [`photon_transfer`](crate::photon_transfer)
    PhotonTransfer,
    /// [`job`](crate::job)
    Job,
}

impl Call {
    /// The numbers that the call can refuse with, in the order tested; of a job, whose fields are judged one by one,
    /// in the order of its list of errors. The 7 and 10 of judging shading are of one block and ratio.
    pub fn numbers(self) -> &'static [u64] {
        match self {
            UnpackRaw10 => &[1, 4],
            PairFigures => &[1, 2, 4, 5, 6, 7],
            DarkLevel => &[1, 2, 3, 4, 5, 6, 7],
            StackAdd => &[1, 2, 3, 4, 5, 6, 11, 12],
            StackVariance => &[1, 2, 3, 4, 5, 7, 11],
            BlinkingSites => &[1, 2, 3, 4, 5, 11],
            PatternVertical | PatternHorizontal => &[1, 2, 3, 4, 5, 8, 9, 11],
            FindDefects => &[1, 2, 3, 4, 5, 6],
            Repair => &[1, 2, 4, 5, 6],
            DefectiveRows | DefectiveColumns => &[1, 2, 4, 5, 6, 9],
            ColourRatios => &[1, 2, 3, 4, 5, 6, 9, 7, 10],
            ShadingTable => &[1, 2, 4, 5, 6, 9],
            ShadingRecode => &[1, 2, 3, 4, 5, 6, 9],
            ShadingJudge => &[1, 2, 3, 4, 9, 11, 7, 10],
            PhotonTransfer => &[3, 7, 13, 14],
            Job => &[21, 20, 22, 1, 24, 23, 2, 5, 6, 7, 3],
        }
    }

    /// What a number means in the call, in words.
    pub(crate) fn words(self, number: u64) -> &'static str {
        if !self.numbers().contains(&number) {
            return UNKNOWN;
        }
        match (self, number) {
            (PhotonTransfer, _) => of_points(number),
            (Job, 20..) => of_stream(number),
            (_, 1..=6) => of_window(self, number),
            _ => of_figures(self, number),
        }
    }

    /// What the place of a number counts in the call; nothing where it is always 0.
    pub(crate) fn place_counts(self, number: u64) -> Option<&'static str> {
        if !self.numbers().contains(&number) {
            return None;
        }
        match self {
            UnpackRaw10 | ShadingJudge | PhotonTransfer => None,
            Job if (20..=23).contains(&number) => Some("byte"),
            PairFigures | DarkLevel | StackAdd | StackVariance | BlinkingSites
            | PatternVertical | PatternHorizontal | FindDefects | Repair | DefectiveRows
            | DefectiveColumns | ColourRatios | ShadingTable | ShadingRecode | Job => {
                matches!(number, 5 | 6).then_some("site")
            }
        }
    }

    /// What over counts where the call refuses with a number, one of it and more; nothing where it is always 0.
    pub(crate) fn over_counts(self, number: u64) -> Option<[&'static str; 2]> {
        (number == 6 && self.numbers().contains(&6)).then_some(match self {
            // the one site that is read, so never more
            ShadingRecode => ["sample above full scale, while the old or the new code is 0"; 2],
            _ => [
                "sample above full scale, counted at all surveyed sites",
                "samples above full scale, counted at all surveyed sites",
            ],
        })
    }
}

const UNKNOWN: &str = "this call does not give this number";

/// 1 to 6 of a call on a window, as a job is once its stream is read: what is handed in. A line without a call is of
/// all calls that have no line of their own above it.
fn of_window(call: Call, number: u64) -> &'static str {
    match (number, call) {
        (1, _) => "a side is odd, or not in 2 to 128 sites",
        (2, _) => "the full scale is not in 1 to 4095 grey levels",
        (3, DarkLevel | ColourRatios | Job) => {
            "the black level is above full scale, in grey levels"
        }
        (3, FindDefects) => "the threshold is above 4095 grey levels",
        (3, ShadingJudge) => {
            "the black level is above full scale, in grey levels, or the limit is not in 1 to 16 sixteenths"
        }
        (3, ShadingRecode) => "the site is outside the window",
        (3, StackAdd) => "the frame count is above 100",
        (3, StackVariance | PatternVertical | PatternHorizontal) => {
            "the frame count is not in 1 to 100"
        }
        (3, BlinkingSites) => {
            "the spread is not in 1 to 4095 grey levels, or the frame count not in 1 to 100"
        }
        (4, UnpackRaw10) => {
            "a buffer has not exactly the length needed: width * height * 5 / 4 bytes, width * height samples"
        }
        (4, DefectiveRows) => {
            "a buffer has not exactly the length needed: width * height codes and samples, 2 * height marks"
        }
        (4, DefectiveColumns) => {
            "a buffer has not exactly the length needed: width * height codes and samples, 2 * width marks"
        }
        (4, ShadingTable | ShadingRecode) => {
            "a buffer has not exactly the length needed: width * height codes and samples, 4 * (blocks + 1) totals \
             and counts, blocks being (width / 32) * (height / 24), each divided down"
        }
        (4, ShadingJudge) => {
            "a buffer has not exactly the length needed: 4 * (blocks + 1) totals and counts, 2 * blocks of each number \
             that is written, blocks being (width / 32) * (height / 24), each divided down"
        }
        (4, _) => "a buffer has not exactly width * height elements",
        (5, ShadingRecode) => {
            "the site's old or new mask code is above 3 (0 surveyed, 1 gap, 2 defect, 3 filled)"
        }
        (5, _) => "a mask code is above 3 (0 surveyed, 1 gap, 2 defect, 3 filled)",
        (6, ShadingRecode) => {
            "the site's sample is above full scale, in grey levels, while its old or its new code is 0"
        }
        (6, _) => "a surveyed sample is above full scale, in grey levels",
        _ => UNKNOWN,
    }
}

/// 7 to 12 of a call on a window: what its figures need.
fn of_figures(call: Call, number: u64) -> &'static str {
    match (number, call) {
        (7, PairFigures | Job) => "fewer than 2 sites are surveyed",
        (7, DarkLevel) => "no site is surveyed",
        (7, StackVariance) => "no site is surveyed, or the stack has fewer than 2 frames",
        (7, ColourRatios) => "the centre of some plane has no surveyed site",
        (7, ShadingJudge) => {
            "one of the ratio's two planes has no surveyed site in the block or at the centre"
        }
        (8, _) => "a mask code is not 0",
        (9, PatternVertical) => "the width is below 12 sites",
        (9, PatternHorizontal) => "the height is below 12 sites",
        (9, DefectiveRows) => "the height is below 18 sites",
        (9, DefectiveColumns) => "the width is below 18 sites",
        (9, ColourRatios | ShadingTable | ShadingRecode | ShadingJudge) => {
            "the width is below 64 sites, or the height below 48"
        }
        (10, ShadingJudge) => {
            "black level taken off, the total of Gr, or for B/Gb of Gb, in the block or at the centre, or that of R, \
             or for B/Gb of B, at the centre, is not above 0 grey levels"
        }
        (10, _) => "the Gr total, black level taken off, is not above 0 grey levels",
        (11, StackAdd | StackVariance | BlinkingSites) => IMPOSSIBLE_STACK,
        (11, PatternVertical | PatternHorizontal) => {
            "a sum is above frames * full scale, in grey levels"
        }
        (11, ShadingJudge) => {
            "a count is above its sites, 192 in a block and 768 at a centre, or a total above count * full scale, in \
             grey levels"
        }
        (12, _) => "the stack is full: it holds 100 frames",
        _ => UNKNOWN,
    }
}

const IMPOSSIBLE_STACK: &str = "the stack cannot come from its frame count: at a surveyed site the sum is above \
     frames * full scale, the sum of squares above frames * full scale squared, frames * the sum of squares below the \
     square of the sum, the least sample above the greatest, the greatest above full scale, or the sum not in \
     frames * least to frames * greatest; or no frame is in, and least or greatest is above 0";

fn of_points(number: u64) -> &'static str {
    match number {
        3 => {
            "the list is empty or has more than 64 points; a point of it, chosen or not, has a mean above 65520 or a \
             variance above 2^28, in sixteenths; or first and last are outside the list or reversed"
        }
        7 => "fewer than 2 points are chosen",
        13 => "all chosen means are equal",
        14 => "numerator or denominator is 2^53 or more in size",
        _ => UNKNOWN,
    }
}

fn of_stream(number: u64) -> &'static str {
    match number {
        20 => "the stream ends inside the field that is due here, or before it",
        21 => "the field that begins here has another tag than the next due (1 to 7, then 0)",
        22 => "the length of the field that begins here is not the one needed",
        23 => "bytes follow the stream's field 0",
        24 => "a side of the stream's window is above 64 sites",
        _ => UNKNOWN,
    }
}
