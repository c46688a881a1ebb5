//! Defective rows and columns.

use crate::{native, Refusal, Window};

/// Marks the defective rows of each of the four planes. A plane has `height / 2` rows. A row with c > 0 surveyed sites
/// and sum s is compared with the eight rows of its plane above it and the eight below, pooled: count C, sum S. At the
/// plane's edges rows are mirrored without repeating the edge (row -1 is row 1), and a row counts as often as it is met.
/// It is defective when C > 0 and `2 * |s * C - S * c| > 5 * c * C`: its mean is more than 2.5 grey levels from theirs.
///
/// - `mask`: `width * height` codes, 0 to 3
/// - `frame`: `width * height` samples, grey levels, 0 to full scale where surveyed
/// - `marks`: `2 * height` bytes, each written: 1 for a defective row, 0 for any other; the `height / 2` rows of plane
///   (0,0), then of (0,1), (1,0), (1,1)
///
/// # Errors
///
/// In the order tested: 1; 2; 4 (`mask`, `frame` or `marks`); 5; 6; 9 (height below 18).
///
/// ```
/// use tippovrain::{defective_rows, Window};
///
/// # fn main() -> Result<(), tippovrain::Refusal> {
/// let window = Window { width: 2, height: 18, full_scale: 1023 };
/// let mut frame = [100; 36];
/// frame[17] = 103; // row 8, column 1: row 4 of plane (0,1)
/// let mut marks = [0; 36];
/// defective_rows(window, &[0; 36], &frame, &mut marks)?;
/// assert_eq!(marks.iter().sum::<u8>(), 1);
/// assert_eq!(marks[9 + 4], 1);
/// # Ok(())
/// # }
/// ```
pub fn defective_rows(
    window: Window,
    mask: &[u8],
    frame: &[u16],
    marks: &mut [u8],
) -> Result<(), Refusal> {
    let Window {
        width,
        height,
        full_scale,
    } = window;
    native::tip_defective_rows(width, height, full_scale, mask, frame, marks)
}

/// Marks the defective columns of each of the four planes: as [`defective_rows`], with columns for rows. `marks` has
/// `2 * width` bytes, `width / 2` for each plane.
///
/// # Errors
///
/// In the order tested: 1; 2; 4 (`mask`, `frame` or `marks`); 5; 6; 9 (width below 18).
///
/// ```
/// use tippovrain::{defective_columns, Window};
///
/// # fn main() -> Result<(), tippovrain::Refusal> {
/// let window = Window { width: 18, height: 2, full_scale: 1023 };
/// let mut frame = [100; 36];
/// frame[26] = 103; // row 1, column 8: column 4 of plane (1,0)
/// let mut marks = [0; 36];
/// defective_columns(window, &[0; 36], &frame, &mut marks)?;
/// assert_eq!(marks.iter().sum::<u8>(), 1);
/// assert_eq!(marks[2 * 9 + 4], 1);
/// # Ok(())
/// # }
/// ```
pub fn defective_columns(
    window: Window,
    mask: &[u8],
    frame: &[u16],
    marks: &mut [u8],
) -> Result<(), Refusal> {
    let Window {
        width,
        height,
        full_scale,
    } = window;
    native::tip_defective_columns(width, height, full_scale, mask, frame, marks)
}
