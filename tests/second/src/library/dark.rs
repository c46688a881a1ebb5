use reference::shared::Answer;

use super::{Window, GARBAGE};

extern "C" {
    fn tip_dark_level(
        width: usize,
        height: usize,
        full_scale: u64,
        black_level: u64,
        mask: *const u8,
        mask_len: usize,
        frame: *const u16,
        frame_len: usize,
        place: *mut u64,
        over: *mut u64,
        numerator: *mut i64,
        denominator: *mut u64,
    ) -> u64;
}

pub fn dark_level(window: Window, black_level: u64) -> Answer {
    let (mut place, mut over) = (GARBAGE, GARBAGE);
    let (mut numerator, mut denominator) = (GARBAGE as i64, GARBAGE);
    // SAFETY: each buffer is lent with its own length, and only the cells are written.
    let number = unsafe {
        tip_dark_level(
            window.width,
            window.height,
            window.full_scale,
            black_level,
            window.mask.address(),
            window.mask.len(),
            window.frame.address(),
            window.frame.len(),
            &mut place,
            &mut over,
            &mut numerator,
            &mut denominator,
        )
    };
    Answer {
        number,
        place,
        over,
        figures: vec![numerator.into(), denominator.into()],
    }
}
