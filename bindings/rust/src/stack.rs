//! Stacks of frames.

use crate::{native, Fraction, Refusal, Variance, Window};

/// A stack of frames: how many are in, and four numbers of each site's samples. It owns its lists, `width * height`
/// each, in row order. At a site that is not surveyed what they hold changes no answer, and stays.
///
/// [`stack_add`] fills it, and [`stack_variance`] and [`blinking_sites`] read it whole;
/// [`pattern_vertical`](crate::pattern_vertical) and [`pattern_horizontal`](crate::pattern_horizontal) take its count of
/// frames and its sums. A caller may keep it, send it and put it together again: each call judges what it is lent, and
/// refuses an impossible stack with 11.
///
/// With k frames in, a stack is impossible where at some surveyed site
///
/// - the sum is above `k * full_scale`, the sum of squares above `k * full_scale * full_scale`, or
///   `k * sum of squares` below the square of the sum;
/// - the least is above the greatest, or the greatest above full scale;
/// - the sum is below `k * least`, or above `k * greatest`;
/// - k is 0, and least or greatest is above 0.
///
/// A stack that [`stack_add`] has built from a new one, with one window, mask and full scale, never gets 11. Some stacks
/// that no frames can give pass these tests.
///
/// ```
/// use tippovrain::{stack_add, Stack, Window};
///
/// # fn main() -> Result<(), tippovrain::Refusal> {
/// let window = Window { width: 2, height: 2, full_scale: 1023 };
/// let mut stack = Stack::new(window);
/// stack_add(window, &[0; 4], &[100, 101, 102, 103], &mut stack)?;
/// stack_add(window, &[0; 4], &[101, 101, 102, 104], &mut stack)?;
/// assert_eq!(stack.frames, 2);
/// assert_eq!(stack.sums, [201, 202, 204, 207]);
/// assert_eq!(stack.squares, [20201, 20402, 20808, 21425]);
/// assert_eq!(stack.least, [100, 101, 102, 103]);
/// assert_eq!(stack.greatest, [101, 101, 102, 104]);
///
/// stack.greatest[1] = 1024;
/// let refusal = stack_add(window, &[0; 4], &[100; 4], &mut stack).unwrap_err();
/// assert!(refusal.to_string().starts_with("refused 11: the stack cannot come from its frame count"));
/// # Ok(())
/// # }
/// ```
#[derive(Debug, Clone, PartialEq, Eq, Hash)]
pub struct Stack {
    /// How many frames are in: 0 to 100.
    pub frames: u64,
    /// The sum of each site's samples, grey levels.
    pub sums: Vec<u32>,
    /// The sum of their squares, grey levels squared.
    pub squares: Vec<u32>,
    /// The least of them, grey levels.
    pub least: Vec<u16>,
    /// The greatest of them, grey levels.
    pub greatest: Vec<u16>,
}

impl Stack {
    /// The stack of a window with no frame in: all 0. Nothing is tested here.
    pub fn new(window: Window) -> Stack {
        // a side above 128 is refused with 1 whatever the lengths
        let sites = window.width.min(128) * window.height.min(128);
        Stack {
            frames: 0,
            sums: vec![0; sites],
            squares: vec![0; sites],
            least: vec![0; sites],
            greatest: vec![0; sites],
        }
    }
}

/// Adds a frame to a stack, and answers the new count of frames, which the stack has from then on. At a surveyed site
/// the sample is added to the sum and its square to the sum of squares. Where no frame was in, the sample becomes both
/// least and greatest; later least becomes the lesser of itself and the sample, greatest the greater. With one window,
/// mask and full scale throughout, accepted frames give the same stack in any order. Refused, the stack stays as it was.
///
/// - `mask`: `width * height` codes, 0 to 3
/// - `frame`: `width * height` samples, grey levels, 0 to full scale where surveyed
/// - `stack`: 0 to 99 frames in
///
/// # Errors
///
/// In the order tested: 1; 2; 3 (more than 100 frames in); 4 (`mask`, `frame` or a list of `stack`); 5; 6; 11 (the stack
/// as lent is impossible: [`Stack`]); 12 (100 frames in). With no surveyed site a frame is accepted.
///
/// ```
/// use tippovrain::{stack_add, Stack, Window, GAP};
///
/// # fn main() -> Result<(), tippovrain::Refusal> {
/// let window = Window { width: 2, height: 2, full_scale: 1023 };
/// let mut stack = Stack::new(window);
/// let frames = stack_add(window, &[0, 0, 0, GAP], &[100, 101, 102, 65535], &mut stack)?;
/// assert_eq!((frames, stack.frames), (1, 1));
/// assert_eq!(stack.sums, [100, 101, 102, 0]);
/// assert_eq!(stack.squares, [10000, 10201, 10404, 0]);
/// assert_eq!(stack.least, [100, 101, 102, 0]);
/// assert_eq!(stack.greatest, [100, 101, 102, 0]);
/// # Ok(())
/// # }
/// ```
pub fn stack_add(
    window: Window,
    mask: &[u8],
    frame: &[u16],
    stack: &mut Stack,
) -> Result<u64, Refusal> {
    let Window {
        width,
        height,
        full_scale,
    } = window;
    let (count,) = native::tip_stack_add(
        width,
        height,
        full_scale,
        stack.frames,
        mask,
        frame,
        &mut stack.sums,
        &mut stack.squares,
        &mut stack.least,
        &mut stack.greatest,
    )?;
    stack.frames = count;
    Ok(count)
}

/// The variance of a stack, in grey levels squared: with k frames in, the sum of `k * square - sum * sum` over the n
/// surveyed sites, over `n * k * k`; `square` is a site's sum of squares. The numerator is at most n times the square of
/// `k * full_scale`, so below 2^53, as the denominator is: both are exact as an f64. Least and greatest are judged, and
/// change no figure.
///
/// - `mask`: `width * height` codes, 0 to 3
/// - `stack`: 2 to 100 frames in, as [`stack_add`] left it
///
/// # Errors
///
/// In the order tested: 1; 2; 3 (no frame in, or more than 100); 4 (`mask` or a list of `stack`); 5; 7 (no surveyed
/// site, or one frame in); 11 (the stack is impossible: [`Stack`]).
///
/// ```
/// use tippovrain::{stack_add, stack_variance, Stack, Window};
///
/// # fn main() -> Result<(), tippovrain::Refusal> {
/// let window = Window { width: 2, height: 2, full_scale: 1023 };
/// let mut stack = Stack::new(window);
/// for frame in [[100, 101, 102, 103], [101, 101, 102, 104]] {
///     stack_add(window, &[0; 4], &frame, &mut stack)?;
/// }
/// let variance = stack_variance(window, &[0; 4], &stack)?;
/// assert_eq!(variance.exact.to_string(), "2/16");
/// assert_eq!(variance.figure, 0.125);
/// # Ok(())
/// # }
/// ```
pub fn stack_variance(window: Window, mask: &[u8], stack: &Stack) -> Result<Variance, Refusal> {
    let Window {
        width,
        height,
        full_scale,
    } = window;
    let (numerator, denominator, figure) = native::tip_stack_variance(
        width,
        height,
        full_scale,
        stack.frames,
        mask,
        &stack.sums,
        &stack.squares,
        &stack.least,
        &stack.greatest,
    )?;
    Ok(Variance {
        exact: Fraction {
            numerator,
            denominator,
        },
        figure,
    })
}

/// Counts the blinking sites of a stack: the surveyed sites whose spread, greatest sample less least, is at least
/// `spread`. Such a site jumps between levels, while its mean may look healthy. After frames that [`stack_add`] accepted
/// it is a site at which two of them differ by `spread` or more. At a greater `spread` the count is never greater. With
/// no surveyed site, or after one frame, it is 0: neither is refused. Sums and squares are judged, and change no count.
///
/// - `spread`: 1 to 4095 grey levels; above full scale none is counted
/// - `mask`: `width * height` codes, 0 to 3
/// - `stack`: 1 to 100 frames in, as [`stack_add`] left it
///
/// # Errors
///
/// In the order tested: 1; 2; 3 (`spread` not in 1 to 4095, no frame in, or more than 100); 4 (`mask` or a list of
/// `stack`); 5; 11 (the stack is impossible: [`Stack`]).
///
/// ```
/// use tippovrain::{blinking_sites, stack_add, Stack, Window};
///
/// # fn main() -> Result<(), tippovrain::Refusal> {
/// let window = Window { width: 2, height: 2, full_scale: 1023 };
/// let mut stack = Stack::new(window);
/// for frame in [[100, 500, 500, 500], [900, 500, 500, 500]] {
///     stack_add(window, &[0; 4], &frame, &mut stack)?;
/// }
/// assert_eq!(stack.sums, [1000; 4]); // the means tell nothing
/// assert_eq!(blinking_sites(window, 1, &[0; 4], &stack)?, 1);
/// assert_eq!(blinking_sites(window, 800, &[0; 4], &stack)?, 1);
/// assert_eq!(blinking_sites(window, 801, &[0; 4], &stack)?, 0);
/// let empty = Stack::new(window);
/// assert_eq!(blinking_sites(window, 800, &[0; 4], &empty).unwrap_err().number, 3);
/// # Ok(())
/// # }
/// ```
pub fn blinking_sites(
    window: Window,
    spread: u64,
    mask: &[u8],
    stack: &Stack,
) -> Result<u64, Refusal> {
    let Window {
        width,
        height,
        full_scale,
    } = window;
    let (count,) = native::tip_blinking_sites(
        width,
        height,
        full_scale,
        stack.frames,
        spread,
        mask,
        &stack.sums,
        &stack.squares,
        &stack.least,
        &stack.greatest,
    )?;
    Ok(count)
}
