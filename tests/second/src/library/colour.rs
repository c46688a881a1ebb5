use reference::shared::Answer;

use super::{Window, GARBAGE};

extern "C" {
    fn tip_colour_ratios(
        width: usize,
        height: usize,
        full_scale: u64,
        black_level: u64,
        bayer_order: u64,
        mask: *const u8,
        mask_len: usize,
        frame: *const u16,
        frame_len: usize,
        place: *mut u64,
        over: *mut u64,
        r_numerator: *mut i64,
        r_denominator: *mut u64,
        b_numerator: *mut i64,
        b_denominator: *mut u64,
        gb_numerator: *mut i64,
        gb_denominator: *mut u64,
    ) -> u64;
}

pub fn colour_ratios(window: Window, black_level: u64, bayer_order: u64) -> Answer {
    let (mut place, mut over) = (GARBAGE, GARBAGE);
    let (mut r_numerator, mut r_denominator) = (GARBAGE as i64, GARBAGE);
    let (mut b_numerator, mut b_denominator) = (GARBAGE as i64, GARBAGE);
    let (mut gb_numerator, mut gb_denominator) = (GARBAGE as i64, GARBAGE);
    // SAFETY: each buffer is lent with its own length, and only the cells are written.
    let number = unsafe {
        tip_colour_ratios(
            window.width,
            window.height,
            window.full_scale,
            black_level,
            bayer_order,
            window.mask.address(),
            window.mask.len(),
            window.frame.address(),
            window.frame.len(),
            &mut place,
            &mut over,
            &mut r_numerator,
            &mut r_denominator,
            &mut b_numerator,
            &mut b_denominator,
            &mut gb_numerator,
            &mut gb_denominator,
        )
    };
    let figures = vec![
        r_numerator.into(),
        r_denominator.into(),
        b_numerator.into(),
        b_denominator.into(),
        gb_numerator.into(),
        gb_denominator.into(),
    ];
    Answer {
        number,
        place,
        over,
        figures,
    }
}
