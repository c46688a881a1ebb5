//! Colour shading.

use crate::{native, BayerOrder, Call, Fraction, Refusal, Window};

/// What is compared with the centre: R over Gr, or B over Gb.
#[derive(Debug, Clone, Copy, PartialEq, Eq, Hash)]
pub enum ShadingRatio {
    /// R over Gr.
    RGr = 0,
    /// B over Gb.
    BGb = 1,
}

/// One block's verdict in one ratio.
#[derive(Debug, Clone, Copy, PartialEq, Eq, Hash)]
pub struct BlockShading {
    /// How far the block's ratio is off the centre's, as a part of the centre's: a pure number, numerator and
    /// denominator below 2^60.
    pub off: Fraction,
    /// Whether that is above the limit.
    pub fails: bool,
}

/// The verdicts on all blocks of a window, in both ratios.
#[derive(Debug, Clone, PartialEq, Eq)]
pub struct Shading {
    rows: usize,
    columns: usize,
    verdicts: Vec<Result<BlockShading, Refusal>>,
}

impl Shading {
    /// Rows of blocks: 2 to 5.
    pub fn rows(&self) -> usize {
        self.rows
    }

    /// Blocks in a row: 2 to 4.
    pub fn columns(&self) -> usize {
        self.columns
    }

    /// The verdict on the block in a row and column of blocks, from 0; a refusal, 7 or 10, is of this block and ratio
    /// alone, and its place is 0.
    ///
    /// # Panics
    ///
    /// Where there is no such row or column.
    pub fn block(
        &self,
        ratio: ShadingRatio,
        row: usize,
        column: usize,
    ) -> Result<BlockShading, Refusal> {
        assert!(row < self.rows, "there are {} rows of blocks", self.rows);
        assert!(column < self.columns, "a row has {} blocks", self.columns);
        self.verdicts[(ratio as usize * self.rows + row) * self.columns + column]
    }

    /// Whether every block is judged in both ratios, and none fails.
    pub fn passes(&self) -> bool {
        let passed =
            |verdict: &Result<BlockShading, Refusal>| matches!(verdict, Ok(block) if !block.fails);
        self.verdicts.iter().all(passed)
    }
}

/// A block table: a total of surveyed samples, in grey levels, and a count of surveyed sites, for each block and each
/// centre of each plane. It owns its two lists, and knows the window that it is of.
///
/// Each plane (`width / 2` by `height / 2`) is divided into blocks 16 wide and 12 high, from its top left; what is left
/// over at the right and lower edge is in no block. The centre is that of [`colour_ratios`](crate::colour_ratios), 32
/// wide and 24 high. A site may be in a block, in the centre, in both or in neither.
///
/// ```
/// use tippovrain::{BayerOrder, ShadingRatio, ShadingTable, Window, GAP};
///
/// # fn main() -> Result<(), tippovrain::Refusal> {
/// let window = Window { width: 64, height: 48, full_scale: 1023 };
/// // by parity of row and column: R 164, Gr 264, Gb 264, B 114; but R 184 in the first block
/// let mut frame: Vec<u16> = (0..64 * 48)
///     .map(|site| [164, 264, 264, 114][site / 64 % 2 * 2 + site % 2])
///     .collect();
/// let first: Vec<usize> = (0..192).map(|i| i / 16 * 2 * 64 + i % 16 * 2).collect();
/// for &site in &first {
///     frame[site] = 184;
/// }
/// let mut mask = vec![0; 64 * 48];
/// let mut table = ShadingTable::new(window, &mask, &frame)?;
///
/// let shading = table.judge(64, BayerOrder::R, 2)?;
/// let block = shading.block(ShadingRatio::RGr, 0, 0)?;
/// assert_eq!(block.off.to_string(), "65229815808000/456608710656000"); // a seventh, above two sixteenths
/// assert!(block.fails);
/// assert!(table.judge(64, BayerOrder::R, 3)?.passes());
///
/// // with no R surveyed in the first block, its R/Gr alone is refused
/// for &site in &first {
///     table.recode(site, GAP, &mut mask, &frame)?;
/// }
/// let shading = table.judge(64, BayerOrder::R, 2)?;
/// assert_eq!(shading.block(ShadingRatio::RGr, 0, 0).unwrap_err().number, 7);
/// assert!(shading.block(ShadingRatio::BGb, 0, 0).is_ok());
/// assert!(!shading.block(ShadingRatio::RGr, 0, 1)?.fails);
/// // and the table is the one made afresh under the new mask
/// assert_eq!(table, ShadingTable::new(window, &mask, &frame)?);
/// # Ok(())
/// # }
/// ```
#[derive(Debug, Clone, PartialEq, Eq, Hash)]
pub struct ShadingTable {
    window: Window,
    totals: Vec<u32>,
    counts: Vec<u32>,
}

impl ShadingTable {
    /// The table of a frame under a mask: [`shading_table`] into lists of the lengths needed.
    ///
    /// # Errors
    ///
    /// In the order tested: 1; 2; 4 (`mask` or `frame`); 5; 6; 9 (width below 64 or height below 48).
    pub fn new(window: Window, mask: &[u8], frame: &[u16]) -> Result<ShadingTable, Refusal> {
        let entries = 4 * (blocks(window) + 1);
        let mut table = ShadingTable::of_lists(window, vec![0; entries], vec![0; entries]);
        shading_table(window, mask, frame, &mut table.totals, &mut table.counts)?;
        Ok(table)
    }

    /// A table of lists from elsewhere, as [`totals`](ShadingTable::totals) and [`counts`](ShadingTable::counts) gave
    /// them once. Nothing is tested here: [`recode`](ShadingTable::recode) and [`judge`](ShadingTable::judge) refuse
    /// lists of other lengths, and a window out of range. `judge` also refuses, with 11, a count above its sites or a
    /// total above count * full scale; it does not tell every table that no frame can give.
    pub fn of_lists(window: Window, totals: Vec<u32>, counts: Vec<u32>) -> ShadingTable {
        ShadingTable {
            window,
            totals,
            counts,
        }
    }

    /// The window that the table is of.
    pub fn window(&self) -> Window {
        self.window
    }

    /// The totals, grey levels: the blocks of plane (0,0) in row order and its centre, then those of (0,1), (1,0),
    /// (1,1).
    pub fn totals(&self) -> &[u32] {
        &self.totals
    }

    /// The counts of surveyed sites, in the order of the totals.
    pub fn counts(&self) -> &[u32] {
        &self.counts
    }

    /// Changes one mask code and amends the table: [`shading_recode`] with the table's window and lists. `mask` and
    /// `frame` are to be those that the table was made of, or `mask` as it was recoded since: this is not tested.
    ///
    /// # Errors
    ///
    /// In the order tested: 1; 2; 3 (`site` outside the window); 4 (`mask`, `frame`, or lists from elsewhere); 5 (the
    /// old or the new code is above 3); 6 (the sample is above full scale, and the old or the new code is 0); 9 (width
    /// below 64 or height below 48). The place of 5 and 6 is `site`.
    pub fn recode(
        &mut self,
        site: usize,
        code: u8,
        mask: &mut [u8],
        frame: &[u16],
    ) -> Result<(), Refusal> {
        let ShadingTable {
            window,
            totals,
            counts,
        } = self;
        shading_recode(*window, site, code, mask, frame, totals, counts)
    }

    /// Judges each block by the centre: [`shading_judge`] with the table's window and lists.
    ///
    /// # Errors
    ///
    /// In the order tested: 1; 2; 3 (`black_level` above full scale, `limit` not in 1 to 16); 4 (lists from elsewhere);
    /// 9 (width below 64 or height below 48); 11 (a count above 192 for a block or 768 for a centre, or a total above
    /// count * full scale). 7 and 10 are of one block and ratio: [`Shading::block`] has them.
    ///
    /// ```
    /// use tippovrain::{BayerOrder, ShadingTable, Window};
    ///
    /// let window = Window { width: 64, height: 48, full_scale: 1023 };
    /// let impossible = ShadingTable::of_lists(window, vec![0; 20], vec![193; 20]);
    /// let refusal = impossible.judge(64, BayerOrder::R, 2).unwrap_err();
    /// assert!(refusal.to_string().starts_with("refused 11: a count is above its sites"));
    /// ```
    pub fn judge(
        &self,
        black_level: u64,
        bayer_order: BayerOrder,
        limit: u64,
    ) -> Result<Shading, Refusal> {
        let places = 2 * blocks(self.window);
        let (mut numerators, mut denominators) = (vec![0; places], vec![0; places]);
        let (mut refusals, mut fails) = (vec![0; places], vec![0; places]);
        shading_judge(
            self.window,
            black_level,
            bayer_order,
            limit,
            &self.totals,
            &self.counts,
            &mut numerators,
            &mut denominators,
            &mut refusals,
            &mut fails,
        )?;
        let verdict = |at: usize| match refusals[at] {
            0 => Ok(BlockShading {
                off: Fraction {
                    numerator: numerators[at],
                    denominator: denominators[at],
                },
                fails: fails[at] != 0,
            }),
            number => Err(Refusal {
                call: Call::ShadingJudge,
                number: u64::from(number),
                place: 0,
                over: 0,
            }),
        };
        let (rows, columns) = grid(self.window);
        Ok(Shading {
            rows,
            columns,
            verdicts: (0..places).map(verdict).collect(),
        })
    }
}

/// Rows of blocks, and blocks in a row. A side above 128 is taken for 128: it is refused with 1 whatever the lengths.
fn grid(window: Window) -> (usize, usize) {
    (window.height.min(128) / 24, window.width.min(128) / 32)
}

fn blocks(window: Window) -> usize {
    let (rows, columns) = grid(window);
    rows * columns
}

/// Makes the block table of a frame under a mask, in lists that the caller lends; [`ShadingTable::new`] makes its own.
/// `blocks` is `(width / 32) * (height / 24)`, divided down. Of plane p, 0 to 3 for (0,0), (0,1), (1,0), (1,1), block
/// k, in row order, is at `p * (blocks + 1) + k`, the centre at `p * (blocks + 1) + blocks`.
///
/// - `mask`: `width * height` codes, 0 to 3
/// - `frame`: `width * height` samples, grey levels, 0 to full scale where surveyed
/// - `totals`: `4 * (blocks + 1)` sums of surveyed samples, grey levels, each written
/// - `counts`: `4 * (blocks + 1)` counts of surveyed sites, each written: at most 192 in a block and 768 at a centre
///
/// # Errors
///
/// In the order tested: 1; 2; 4 (`mask`, `frame`, `totals` or `counts`); 5; 6; 9 (width below 64 or height below 48,
/// even with no surveyed site). 5 and 6 look at the whole window, so `over` counts sites in no block too.
///
/// ```
/// use tippovrain::{shading_table, Window};
///
/// # fn main() -> Result<(), tippovrain::Refusal> {
/// let window = Window { width: 64, height: 48, full_scale: 1023 };
/// let (mut totals, mut counts) = ([0; 20], [0; 20]);
/// shading_table(window, &[0; 64 * 48], &[100; 64 * 48], &mut totals, &mut counts)?;
/// assert_eq!((totals[0], counts[0]), (19200, 192));
/// assert_eq!((totals[4], counts[4]), (76800, 768)); // the centre of plane (0,0)
/// # Ok(())
/// # }
/// ```
pub fn shading_table(
    window: Window,
    mask: &[u8],
    frame: &[u16],
    totals: &mut [u32],
    counts: &mut [u32],
) -> Result<(), Refusal> {
    let Window {
        width,
        height,
        full_scale,
    } = window;
    native::tip_shading_table(width, height, full_scale, mask, frame, totals, counts)
}

/// Changes one mask code, and amends the table at that site's block and centre, if it lies in one. From code 0 to
/// another its sample is taken off the total and 1 off the count, from another to 0 they are added, else the table
/// stays. A table made under the old mask is then the one that [`shading_table`] makes under the new mask. Any code may
/// be changed, a gap's too. No other site's code or sample is read.
///
/// The table is trusted: whether it fits the mask is not tested, there is no 11, and it is amended modulo 2^32.
/// Recoding back leaves mask and table as they were, whatever the table.
///
/// - `site`: 0 to `width * height - 1`
/// - `code`: the new code, 0 to 3; it may be the old one
/// - `mask`: `width * height` codes, written at `site` alone
/// - `frame`: `width * height` samples, grey levels, read only at `site`; any number at any other site, and at `site`
///   where neither the old nor the new code is 0
/// - `totals`, `counts`: `4 * (blocks + 1)` each, as [`shading_table`] left them, written at the site's block and
///   centre
///
/// # Errors
///
/// In the order tested: 1; 2; 3 (`site` outside the window); 4 (`mask`, `frame`, `totals` or `counts`); 5 (the old or
/// the new code is above 3); 6 (the sample is above full scale, and the old or the new code is 0: `over` is 1); 9
/// (width below 64 or height below 48). The place of 5 and 6 is `site`.
///
/// ```
/// use tippovrain::{shading_recode, shading_table, Window, GAP};
///
/// # fn main() -> Result<(), tippovrain::Refusal> {
/// let window = Window { width: 64, height: 48, full_scale: 1023 };
/// let (mut mask, frame) = ([0; 64 * 48], [100; 64 * 48]);
/// let (mut totals, mut counts) = ([0; 20], [0; 20]);
/// shading_table(window, &mask, &frame, &mut totals, &mut counts)?;
/// shading_recode(window, 0, GAP, &mut mask, &frame, &mut totals, &mut counts)?;
/// assert_eq!(mask[0], GAP);
/// assert_eq!((totals[0], counts[0]), (19100, 191));
/// assert_eq!((totals[4], counts[4]), (76700, 767));
/// # Ok(())
/// # }
/// ```
pub fn shading_recode(
    window: Window,
    site: usize,
    code: u8,
    mask: &mut [u8],
    frame: &[u16],
    totals: &mut [u32],
    counts: &mut [u32],
) -> Result<(), Refusal> {
    let Window {
        width,
        height,
        full_scale,
    } = window;
    let code = u64::from(code);
    native::tip_shading_recode(
        width, height, full_scale, site, code, mask, frame, totals, counts,
    )
}

/// Judges each block's R/Gr, and B/Gb, by the centre's, into lists that the caller lends; [`ShadingTable::judge`] gives
/// them as [`Shading`]. T is `total - black_level * count`. In the block R/Gr is a over b, `a = T(R) * count(Gr)` and
/// `b = T(Gr) * count(R)`; at the centre it is c over d, likewise. How far the block's ratio is off, as a part of the
/// centre's, is `|a * d - c * b|` over `c * b`: a pure number, unreduced. The block fails where this is above `limit`
/// sixteenths: `16 * numerator > limit * denominator`. B/Gb is the same with B for R and Gb for Gr.
///
/// - `black_level`: 0 to full scale, grey levels
/// - `limit`: 1 to 16, sixteenths
/// - `totals`, `counts`: `4 * (blocks + 1)` each, as [`shading_table`] and [`shading_recode`] left them
/// - `numerators`, `denominators`, `refusals`, `fails`: `2 * blocks` each, all written, R/Gr of block k at `k`, B/Gb at
///   `blocks + k`: the figure; 7, 10 or 0; 1 or 0. Where refused, figure and fail are 0
///
/// # Errors
///
/// In the order tested: 1; 2; 3 (`black_level` above full scale, `limit` not in 1 to 16); 4 (`totals`, `counts`,
/// `numerators`, `denominators`, `refusals` or `fails`); 9 (width below 64 or height below 48); 11 (anywhere in the
/// table a count above 192 for a block or 768 for a centre, or a total above count * full scale).
///
/// Then, in `refusals`, for each block and ratio by itself: 7 (one of the ratio's two planes has count 0 in the block
/// or at the centre); 10 (T of Gr, or for B/Gb of Gb, in the block or at the centre, or T of R, or for B/Gb of B, at
/// the centre, is not above 0). T of R or B in the block may be 0 or below. The call is accepted all the same, and
/// every other block and ratio is judged.
///
/// ```
/// use tippovrain::{shading_judge, BayerOrder, Window};
///
/// # fn main() -> Result<(), tippovrain::Refusal> {
/// let window = Window { width: 64, height: 48, full_scale: 1023 };
/// // every site 100, but the first block of plane (0,0) has no surveyed one
/// let (mut totals, mut counts) = ([19200; 20], [192; 20]);
/// for centre in [4, 9, 14, 19] {
///     (totals[centre], counts[centre]) = (76800, 768);
/// }
/// (totals[0], counts[0]) = (0, 0);
/// (totals[4], counts[4]) = (57600, 576);
/// let (mut numerators, mut denominators) = ([9; 8], [9; 8]);
/// let (mut refusals, mut fails) = ([9; 8], [9; 8]);
/// shading_judge(
///     window, 64, BayerOrder::R, 2, &totals, &counts,
///     &mut numerators, &mut denominators, &mut refusals, &mut fails,
/// )?;
/// assert_eq!(refusals, [7, 0, 0, 0, 0, 0, 0, 0]);
/// assert_eq!((numerators, fails), ([0; 8], [0; 8]));
/// assert_eq!(denominators[0], 0);
/// assert_eq!(denominators[1], 36 * 576 * 768 * 36 * 192 * 192);
/// # Ok(())
/// # }
/// ```
// as many as the call has
#[allow(clippy::too_many_arguments)]
pub fn shading_judge(
    window: Window,
    black_level: u64,
    bayer_order: BayerOrder,
    limit: u64,
    totals: &[u32],
    counts: &[u32],
    numerators: &mut [u64],
    denominators: &mut [u64],
    refusals: &mut [u8],
    fails: &mut [u8],
) -> Result<(), Refusal> {
    let Window {
        width,
        height,
        full_scale,
    } = window;
    let order = bayer_order as u64;
    native::tip_shading_judge(
        width,
        height,
        full_scale,
        black_level,
        order,
        limit,
        totals,
        counts,
        numerators,
        denominators,
        refusals,
        fails,
    )
}
