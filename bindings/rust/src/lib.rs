//! Tippovrain: a camera bench. Figures of noise, dark level, pattern, blinking sites, defects, colour and colour shading
//! from raw Bayer windows that the caller lends, and the gain from a list of such figures at several exposures. One safe
//! function for each call of the proved C library; it allocates nothing, keeps nothing between two calls, prints
//! nothing, and each call ends on any input. Only [`Stack`], [`ShadingTable`] and the [`Shading`] that it gives allocate:
//! they own their lists.
//!
//! # A first figure
//!
//! Two frames of one scene, four sites wide and two high, with a gap at site 5:
//!
//! ```
//! use tippovrain::{pair_figures, Refusal, Window, GAP};
//!
//! # fn main() -> Result<(), Refusal> {
//! let window = Window { width: 4, height: 2, full_scale: 1023 };
//! let mask = [0, 0, 0, 0, 0, GAP, 0, 0];
//! let first = [100, 101, 102, 103, 100, 65535, 102, 103];
//! let second = [101, 101, 102, 104, 100, 65535, 103, 103];
//!
//! let pair = pair_figures(window, &mask, &first, &second)?;
//! assert_eq!((pair.r, pair.n), (156, 7));
//! println!("{:.6} grey levels over {} surveyed sites", pair.noise, pair.n);
//! # Ok(())
//! # }
//! ```
//!
//! `examples/noise.rs` has the whole program; `examples/gain.rs` goes from frames at several exposures to a gain;
//! `examples/shading.rs` judges the blocks of a window by its centre, and recodes sites; `examples/blinking.rs` finds a
//! site that jumps between two levels while its mean looks healthy.
//!
//! # Units and ranges
//!
//! - **Window**: row by row, each side even and from 2 to 128 sites. A **site** is a place of a window, numbered from 0
//!   in row order: site `y * width + x` is in row `y`, column `x`.
//! - **Sample**: a `u16`, in grey levels; 0 to full scale at a surveyed site, any number at any other.
//! - **Full scale**: 1 to 4095 grey levels.
//! - **Mask**: a code for each site: [`SURVEYED`], [`GAP`], [`DEFECT`] or [`FILLED`]. Only samples, and numbers of a
//!   stack, at surveyed sites are read for a figure, a verdict or a refusal. To [`shading_recode`] a site is surveyed
//!   where its old or its new code is [`SURVEYED`].
//! - **Stack**: a count of frames, 0 to 100, and for each site the sum of its samples, the sum of their squares, the
//!   least and the greatest, [`Stack`].
//! - **Spread** of a site of a stack: its greatest sample less its least, in grey levels. A surveyed site is **blinking**
//!   where its spread is at least the number asked for.
//! - **Planes**: a window has four, by the parity of row and column: (0,0), (0,1), (1,0), (1,1), the row's first.
//! - **Block**: 16 columns and 12 rows of a plane; a **centre** is the middle 32 columns and 24 rows of one. A
//!   [`ShadingTable`] has for each a total of samples and a count of sites.
//! - **Point**: what was measured at one exposure, [`Point`]: mean and variance in sixteenths.
//!
//! # Answers
//!
//! A call answers `Ok` with its figures or `Err` with a [`Refusal`]; on a refusal every buffer stays as it was. Figures
//! are exact: whole numbers, never reduced, and a rounded `f64` only where the library itself divides. A refusal has
//! its call, a number and a place; a 6 also says how many surveyed samples are above full scale. A 7 or 10 of shading
//! is of one block and ratio, beside the others' verdicts.
//!
//! A length cannot be misused: each goes to the library from its own slice, and one that is not exactly the length
//! needed is refused with 4, a list of another length than 1 to 64 points with 3. Nor can a buffer that is written
//! overlap another one, which C leaves to its caller: it is borrowed by `&mut`. Buffers that are only read may be one.
//!
//! # Linking
//!
//! `make install` in Tippovrain's repository puts the library and this crate's sources below a prefix (x86-64). A
//! package that uses them says in its Cargo.toml, for the prefix /usr/local:
//!
//! ```toml
//! [dependencies]
//! tippovrain = { path = "/usr/local/share/tippovrain/rust" }
//! ```
//!
//! The crate takes libtippovrain.a from the folder that `TIPPOVRAIN_LIB_DIR` names (an absolute path) where that is set;
//! in the repository from `target/native`, which `tools/native-lib tippovrain` fills; elsewhere from the prefix that the
//! crate is installed below, or from where pkg-config says.

#![deny(missing_docs, unsafe_code)]

mod call;
mod colour;
mod dark;
mod figures;
mod gain;
mod job;
mod lines;
#[allow(unsafe_code)]
mod native;
mod pair;
mod pattern;
mod raw;
mod refusal;
mod shading;
mod sites;
mod stack;
mod window;

pub use call::Call;
pub use colour::{colour_ratios, BayerOrder, ColourRatios};
pub use dark::dark_level;
pub use figures::{Fraction, SignedFraction, Variance};
pub use gain::{photon_transfer, Gain, PhotonTransfer, Point};
pub use job::{job, JobFigures};
pub use lines::{defective_columns, defective_rows};
pub use pair::{pair_figures, PairFigures};
pub use pattern::{pattern_horizontal, pattern_vertical, PatternNoise};
pub use raw::unpack_raw10;
pub use refusal::Refusal;
pub use shading::{
    shading_judge, shading_recode, shading_table, BlockShading, Shading, ShadingRatio, ShadingTable,
};
pub use sites::{find_defects, repair};
pub use stack::{blinking_sites, stack_add, stack_variance, Stack};
pub use window::{Window, DEFECT, FILLED, GAP, SURVEYED};
