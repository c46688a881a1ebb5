use reference::shared::Answer;

use super::{Lent, Window, GARBAGE};

extern "C" {
    fn tip_find_defects(
        width: usize,
        height: usize,
        full_scale: u64,
        threshold: u64,
        mask: *const u8,
        mask_len: usize,
        frame: *const u16,
        frame_len: usize,
        out_mask: *mut u8,
        out_mask_len: usize,
        place: *mut u64,
        over: *mut u64,
        count: *mut u64,
    ) -> u64;

    fn tip_repair(
        width: usize,
        height: usize,
        full_scale: u64,
        mask: *const u8,
        mask_len: usize,
        frame: *const u16,
        frame_len: usize,
        out_frame: *mut u16,
        out_frame_len: usize,
        out_mask: *mut u8,
        out_mask_len: usize,
        place: *mut u64,
        over: *mut u64,
        filled: *mut u64,
    ) -> u64;
}

pub fn find_defects(window: Window, threshold: u64, out_mask: &mut Lent<u8>) -> Answer {
    let (mut place, mut over, mut count) = (GARBAGE, GARBAGE, GARBAGE);
    // SAFETY: each buffer is lent with its own length, and no two overlap.
    let number = unsafe {
        tip_find_defects(
            window.width,
            window.height,
            window.full_scale,
            threshold,
            window.mask.address(),
            window.mask.len(),
            window.frame.address(),
            window.frame.len(),
            out_mask.address(),
            out_mask.len(),
            &mut place,
            &mut over,
            &mut count,
        )
    };
    Answer {
        number,
        place,
        over,
        figures: vec![count.into()],
    }
}

pub fn repair(window: Window, out_frame: &mut Lent<u16>, out_mask: &mut Lent<u8>) -> Answer {
    let (mut place, mut over, mut filled) = (GARBAGE, GARBAGE, GARBAGE);
    // SAFETY: each buffer is lent with its own length, and no two overlap.
    let number = unsafe {
        tip_repair(
            window.width,
            window.height,
            window.full_scale,
            window.mask.address(),
            window.mask.len(),
            window.frame.address(),
            window.frame.len(),
            out_frame.address(),
            out_frame.len(),
            out_mask.address(),
            out_mask.len(),
            &mut place,
            &mut over,
            &mut filled,
        )
    };
    Answer {
        number,
        place,
        over,
        figures: vec![filled.into()],
    }
}
