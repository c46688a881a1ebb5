use reference::shared::Answer;

use super::{Lent, GARBAGE, NO_COUNT};

/// Both calls have this shape.
type Call = unsafe extern "C" fn(
    width: usize,
    height: usize,
    full_scale: u64,
    frames: u64,
    mask: *const u8,
    mask_len: usize,
    sums: *const u32,
    sums_len: usize,
    place: *mut u64,
    level_numerator: *mut u64,
    level_denominator: *mut u64,
    max_numerator: *mut u64,
    max_denominator: *mut u64,
) -> u64;

extern "C" {
    fn tip_pattern_vertical(
        width: usize,
        height: usize,
        full_scale: u64,
        frames: u64,
        mask: *const u8,
        mask_len: usize,
        sums: *const u32,
        sums_len: usize,
        place: *mut u64,
        level_numerator: *mut u64,
        level_denominator: *mut u64,
        max_numerator: *mut u64,
        max_denominator: *mut u64,
    ) -> u64;

    fn tip_pattern_horizontal(
        width: usize,
        height: usize,
        full_scale: u64,
        frames: u64,
        mask: *const u8,
        mask_len: usize,
        sums: *const u32,
        sums_len: usize,
        place: *mut u64,
        level_numerator: *mut u64,
        level_denominator: *mut u64,
        max_numerator: *mut u64,
        max_denominator: *mut u64,
    ) -> u64;
}

pub struct Sums<'a> {
    pub width: usize,
    pub height: usize,
    pub full_scale: u64,
    pub frames: u64,
    pub mask: &'a mut Lent<u8>,
    pub sums: &'a mut Lent<u32>,
}

pub fn pattern_vertical(lent: Sums) -> Answer {
    answer(tip_pattern_vertical, lent)
}

pub fn pattern_horizontal(lent: Sums) -> Answer {
    answer(tip_pattern_horizontal, lent)
}

fn answer(call: Call, lent: Sums) -> Answer {
    let mut place = GARBAGE;
    let (mut level_numerator, mut level_denominator) = (GARBAGE, GARBAGE);
    let (mut max_numerator, mut max_denominator) = (GARBAGE, GARBAGE);
    // SAFETY: each buffer is lent with its own length, and only the cells are written.
    let number = unsafe {
        call(
            lent.width,
            lent.height,
            lent.full_scale,
            lent.frames,
            lent.mask.address(),
            lent.mask.len(),
            lent.sums.address(),
            lent.sums.len(),
            &mut place,
            &mut level_numerator,
            &mut level_denominator,
            &mut max_numerator,
            &mut max_denominator,
        )
    };
    let figures = vec![
        level_numerator.into(),
        level_denominator.into(),
        max_numerator.into(),
        max_denominator.into(),
    ];
    Answer {
        number,
        place,
        over: NO_COUNT,
        figures,
    }
}
