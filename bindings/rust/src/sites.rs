//! Defective sites and their repair.

use crate::{native, Refusal, Window};

/// Finds defective sites (dark mode), and answers how many are newly found: were 0 in `mask` and are 2 in `out_mask`.
/// Each plane is worked alone. A surveyed site with sample p is compared with the surveyed ones among the 31 * 31 sites
/// of its plane around it, cut off at the plane's edges: c of them, the site included, with the sum S. It is defective
/// when `|p * c - S| >= threshold * c`. Every decision uses the mask as it came in.
///
/// The time grows with the window's sites, not with the 31 * 31 of a box. With all its locals the call needs at most
/// 64 KB of stack; it allocates nothing.
///
/// - `threshold`: 1 to 4095 grey levels; 0 stands for the default, 24
/// - `mask`: `width * height` codes, 0 to 3
/// - `frame`: `width * height` samples, grey levels, 0 to full scale where surveyed
/// - `out_mask`: `width * height` codes, each written: 2 where a site is newly found, else the code of `mask`
///
/// # Errors
///
/// In the order tested: 1; 2; 3 (`threshold` above 4095); 4 (`mask`, `frame` or `out_mask`); 5; 6.
///
/// ```
/// use tippovrain::{find_defects, Window, DEFECT};
///
/// # fn main() -> Result<(), tippovrain::Refusal> {
/// let window = Window { width: 4, height: 4, full_scale: 1023 };
/// let mut frame = [64; 16];
/// let mut out_mask = [0; 16];
/// frame[5] = 101;
/// assert_eq!(find_defects(window, 28, &[0; 16], &frame, &mut out_mask)?, 0);
/// assert_eq!(find_defects(window, 0, &[0; 16], &frame, &mut out_mask)?, 1);
/// frame[5] = 102;
/// assert_eq!(find_defects(window, 28, &[0; 16], &frame, &mut out_mask)?, 1);
/// assert_eq!(out_mask[5], DEFECT);
/// # Ok(())
/// # }
/// ```
pub fn find_defects(
    window: Window,
    threshold: u64,
    mask: &[u8],
    frame: &[u16],
    out_mask: &mut [u8],
) -> Result<u64, Refusal> {
    let Window {
        width,
        height,
        full_scale,
    } = window;
    let (count,) =
        native::tip_find_defects(width, height, full_scale, threshold, mask, frame, out_mask)?;
    Ok(count)
}

/// Repairs a frame, and answers how many sites were filled: were 2 in `mask` and are 3 in `out_mask`. A site of code 2
/// with at least one surveyed site among its eight plane neighbours, two sites away and inside the window, gets their
/// mean, half rounded up, and code 3; with none it stays as it is. A site of any other code is copied, sample and code.
/// Filled sites never feed a fill, so a second repair changes nothing.
///
/// - `mask`: `width * height` codes, 0 to 3
/// - `frame`: `width * height` samples, grey levels, 0 to full scale where surveyed
/// - `out_frame`, `out_mask`: `width * height` samples and codes, each written
///
/// # Errors
///
/// In the order tested: 1; 2; 4 (`mask`, `frame`, `out_frame` or `out_mask`); 5; 6.
///
/// ```
/// use tippovrain::{repair, Window, DEFECT, FILLED};
///
/// # fn main() -> Result<(), tippovrain::Refusal> {
/// let window = Window { width: 4, height: 4, full_scale: 1023 };
/// let (mut mask, mut frame) = ([0; 16], [64; 16]);
/// (mask[5], frame[5]) = (DEFECT, 999);
/// (frame[7], frame[13], frame[15]) = (65, 66, 66); // its neighbours in the plane
/// let (mut out_frame, mut out_mask) = ([0; 16], [0; 16]);
/// assert_eq!(repair(window, &mask, &frame, &mut out_frame, &mut out_mask)?, 1);
/// assert_eq!((out_frame[5], out_mask[5]), (66, FILLED));
/// # Ok(())
/// # }
/// ```
pub fn repair(
    window: Window,
    mask: &[u8],
    frame: &[u16],
    out_frame: &mut [u16],
    out_mask: &mut [u8],
) -> Result<u64, Refusal> {
    let Window {
        width,
        height,
        full_scale,
    } = window;
    let (filled,) =
        native::tip_repair(width, height, full_scale, mask, frame, out_frame, out_mask)?;
    Ok(filled)
}
