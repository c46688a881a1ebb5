use reference::shared::Answer;

use super::{Lent, GARBAGE, NO_COUNT};

extern "C" {
    fn tip_stack_add(
        width: usize,
        height: usize,
        full_scale: u64,
        frames: u64,
        mask: *const u8,
        mask_len: usize,
        frame: *const u16,
        frame_len: usize,
        sums: *mut u32,
        sums_len: usize,
        squares: *mut u32,
        squares_len: usize,
        least: *mut u16,
        least_len: usize,
        greatest: *mut u16,
        greatest_len: usize,
        place: *mut u64,
        over: *mut u64,
        count: *mut u64,
    ) -> u64;

    fn tip_stack_variance(
        width: usize,
        height: usize,
        full_scale: u64,
        frames: u64,
        mask: *const u8,
        mask_len: usize,
        sums: *const u32,
        sums_len: usize,
        squares: *const u32,
        squares_len: usize,
        least: *const u16,
        least_len: usize,
        greatest: *const u16,
        greatest_len: usize,
        place: *mut u64,
        numerator: *mut u64,
        denominator: *mut u64,
        variance: *mut f64,
    ) -> u64;

    fn tip_blinking_sites(
        width: usize,
        height: usize,
        full_scale: u64,
        frames: u64,
        spread: u64,
        mask: *const u8,
        mask_len: usize,
        sums: *const u32,
        sums_len: usize,
        squares: *const u32,
        squares_len: usize,
        least: *const u16,
        least_len: usize,
        greatest: *const u16,
        greatest_len: usize,
        place: *mut u64,
        count: *mut u64,
    ) -> u64;
}

/// What all three calls are lent.
pub struct Stack<'a> {
    pub width: usize,
    pub height: usize,
    pub full_scale: u64,
    pub frames: u64,
    pub mask: &'a mut Lent<u8>,
    pub sums: &'a mut Lent<u32>,
    pub squares: &'a mut Lent<u32>,
    pub least: &'a mut Lent<u16>,
    pub greatest: &'a mut Lent<u16>,
}

pub fn stack_add(stack: Stack, frame: &mut Lent<u16>) -> Answer {
    let (mut place, mut over, mut count) = (GARBAGE, GARBAGE, GARBAGE);
    // SAFETY: each buffer is lent with its own length, and no two overlap.
    let number = unsafe {
        tip_stack_add(
            stack.width,
            stack.height,
            stack.full_scale,
            stack.frames,
            stack.mask.address(),
            stack.mask.len(),
            frame.address(),
            frame.len(),
            stack.sums.address(),
            stack.sums.len(),
            stack.squares.address(),
            stack.squares.len(),
            stack.least.address(),
            stack.least.len(),
            stack.greatest.address(),
            stack.greatest.len(),
            &mut place,
            &mut over,
            &mut count,
        )
    };
    Answer {
        number,
        place,
        over,
        figures: vec![count.into()],
    }
}

pub fn stack_variance(stack: Stack) -> Answer {
    let (mut place, mut numerator, mut denominator) = (GARBAGE, GARBAGE, GARBAGE);
    let mut variance = f64::from_bits(GARBAGE);
    // SAFETY: each buffer is lent with its own length, and only the cells are written.
    let number = unsafe {
        tip_stack_variance(
            stack.width,
            stack.height,
            stack.full_scale,
            stack.frames,
            stack.mask.address(),
            stack.mask.len(),
            stack.sums.address(),
            stack.sums.len(),
            stack.squares.address(),
            stack.squares.len(),
            stack.least.address(),
            stack.least.len(),
            stack.greatest.address(),
            stack.greatest.len(),
            &mut place,
            &mut numerator,
            &mut denominator,
            &mut variance,
        )
    };
    let figures = vec![
        numerator.into(),
        denominator.into(),
        variance.to_bits().into(),
    ];
    Answer {
        number,
        place,
        over: NO_COUNT,
        figures,
    }
}

pub fn blinking_sites(stack: Stack, spread: u64) -> Answer {
    let (mut place, mut count) = (GARBAGE, GARBAGE);
    // SAFETY: each buffer is lent with its own length, and only the cells are written.
    let number = unsafe {
        tip_blinking_sites(
            stack.width,
            stack.height,
            stack.full_scale,
            stack.frames,
            spread,
            stack.mask.address(),
            stack.mask.len(),
            stack.sums.address(),
            stack.sums.len(),
            stack.squares.address(),
            stack.squares.len(),
            stack.least.address(),
            stack.least.len(),
            stack.greatest.address(),
            stack.greatest.len(),
            &mut place,
            &mut count,
        )
    };
    Answer {
        number,
        place,
        over: NO_COUNT,
        figures: vec![count.into()],
    }
}
