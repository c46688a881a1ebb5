//! Colour ratios.

use crate::{native, Refusal, SignedFraction, Window};

/// The colour at site 0, row 0 and column 0. Gr shares R's rows, Gb shares B's.
#[derive(Debug, Clone, Copy, PartialEq, Eq, Hash)]
pub enum BayerOrder {
    /// Even rows R Gr, odd rows Gb B.
    R = 0,
    /// Even rows Gr R, odd rows B Gb.
    Gr = 1,
    /// Even rows B Gb, odd rows Gr R.
    B = 2,
    /// Even rows Gb B, odd rows R Gr.
    Gb = 3,
}

/// The ratios of three planes' centres to Gr's: pure numbers.
#[derive(Debug, Clone, Copy, PartialEq, Eq, Hash)]
pub struct ColourRatios {
    /// R over Gr.
    pub r: SignedFraction,
    /// B over Gr.
    pub b: SignedFraction,
    /// Gb over Gr.
    pub gb: SignedFraction,
}

/// Colour ratios of the four planes' centres: R, B and Gb over Gr. Of each plane (`width / 2` by `height / 2`) the centre
/// is taken, 32 wide and 24 high, left and top being half the rest rounded down. T is the sum over its surveyed sites of
/// sample - black level, c their count. X over Gr is `T(X) * c(Gr)` over `T(Gr) * c(X)`; a numerator may be below 0.
///
/// - `black_level`: 0 to full scale, grey levels
/// - `mask`: `width * height` codes, 0 to 3
/// - `frame`: `width * height` samples, grey levels, 0 to full scale where surveyed
///
/// # Errors
///
/// In the order tested: 1; 2; 3 (`black_level` above full scale); 4 (`mask` or `frame`); 5; 6; 9 (width below 64 or
/// height below 48, even with no surveyed site); 7 (no surveyed site in some plane's centre); 10 (T(Gr) not above 0).
/// 5 and 6 look at the whole window, so `over` counts outside the centres too.
///
/// ```
/// use tippovrain::{colour_ratios, BayerOrder, Window};
///
/// # fn main() -> Result<(), tippovrain::Refusal> {
/// let window = Window { width: 64, height: 48, full_scale: 1023 };
/// // R, at even rows and columns, has 164 grey levels, all else 100
/// let frame: Vec<u16> = (0..64 * 48)
///     .map(|site| if site / 64 % 2 == 0 && site % 2 == 0 { 164 } else { 100 })
///     .collect();
/// let ratios = colour_ratios(window, 64, BayerOrder::R, &[0; 64 * 48], &frame)?;
/// assert_eq!(ratios.r.to_string(), "58982400/21233664");
/// assert_eq!(ratios.b.to_string(), "21233664/21233664");
/// assert_eq!(ratios.gb, ratios.b);
/// # Ok(())
/// # }
/// ```
pub fn colour_ratios(
    window: Window,
    black_level: u64,
    bayer_order: BayerOrder,
    mask: &[u8],
    frame: &[u16],
) -> Result<ColourRatios, Refusal> {
    let Window {
        width,
        height,
        full_scale,
    } = window;
    let order = bayer_order as u64;
    let (r_up, r_down, b_up, b_down, gb_up, gb_down) =
        native::tip_colour_ratios(width, height, full_scale, black_level, order, mask, frame)?;
    Ok(ColourRatios {
        r: SignedFraction {
            numerator: r_up,
            denominator: r_down,
        },
        b: SignedFraction {
            numerator: b_up,
            denominator: b_down,
        },
        gb: SignedFraction {
            numerator: gb_up,
            denominator: gb_down,
        },
    })
}
