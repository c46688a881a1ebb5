//! What every call that takes a mask is told of the window.

/// The sides and the full scale of a window. Any numbers may be handed in: what is out of range is refused.
#[derive(Debug, Clone, Copy, PartialEq, Eq, Hash)]
pub struct Window {
    /// Sites in a row: even, 2 to 128, else refusal 1.
    pub width: usize,
    /// Rows: even, 2 to 128, else refusal 1.
    pub height: usize,
    /// The greatest sample, in grey levels: 1 to 4095, else refusal 2.
    pub full_scale: u64,
}

/// Mask code of a site whose sample counts.
pub const SURVEYED: u8 = 0;
/// Mask code of a site where nothing was seen; its sample may be any number.
pub const GAP: u8 = 1;
/// Mask code of a defective site: what [`find_defects`](crate::find_defects) writes and [`repair`](crate::repair) fills.
pub const DEFECT: u8 = 2;
/// Mask code of a defective site that has been filled from its neighbours.
pub const FILLED: u8 = 3;
