use reference::shared::Answer;

use super::{Lent, Window, GARBAGE};

/// Both calls have this shape.
type Call = unsafe extern "C" fn(
    width: usize,
    height: usize,
    full_scale: u64,
    mask: *const u8,
    mask_len: usize,
    frame: *const u16,
    frame_len: usize,
    marks: *mut u8,
    marks_len: usize,
    place: *mut u64,
    over: *mut u64,
) -> u64;

extern "C" {
    fn tip_defective_rows(
        width: usize,
        height: usize,
        full_scale: u64,
        mask: *const u8,
        mask_len: usize,
        frame: *const u16,
        frame_len: usize,
        marks: *mut u8,
        marks_len: usize,
        place: *mut u64,
        over: *mut u64,
    ) -> u64;

    fn tip_defective_columns(
        width: usize,
        height: usize,
        full_scale: u64,
        mask: *const u8,
        mask_len: usize,
        frame: *const u16,
        frame_len: usize,
        marks: *mut u8,
        marks_len: usize,
        place: *mut u64,
        over: *mut u64,
    ) -> u64;
}

pub fn defective_rows(window: Window, marks: &mut Lent<u8>) -> Answer {
    answer(tip_defective_rows, window, marks)
}

pub fn defective_columns(window: Window, marks: &mut Lent<u8>) -> Answer {
    answer(tip_defective_columns, window, marks)
}

fn answer(call: Call, window: Window, marks: &mut Lent<u8>) -> Answer {
    let (mut place, mut over) = (GARBAGE, GARBAGE);
    // SAFETY: each buffer is lent with its own length, and no two overlap.
    let number = unsafe {
        call(
            window.width,
            window.height,
            window.full_scale,
            window.mask.address(),
            window.mask.len(),
            window.frame.address(),
            window.frame.len(),
            marks.address(),
            marks.len(),
            &mut place,
            &mut over,
        )
    };
    Answer {
        number,
        place,
        over,
        figures: vec![],
    }
}
