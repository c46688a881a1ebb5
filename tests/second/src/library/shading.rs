use reference::shared::Answer;

use super::{Lent, Window, GARBAGE, NO_COUNT};

extern "C" {
    fn tip_shading_table(
        width: usize,
        height: usize,
        full_scale: u64,
        mask: *const u8,
        mask_len: usize,
        frame: *const u16,
        frame_len: usize,
        totals: *mut u32,
        totals_len: usize,
        counts: *mut u32,
        counts_len: usize,
        place: *mut u64,
        over: *mut u64,
    ) -> u64;

    fn tip_shading_recode(
        width: usize,
        height: usize,
        full_scale: u64,
        site: usize,
        code: u64,
        mask: *mut u8,
        mask_len: usize,
        frame: *const u16,
        frame_len: usize,
        totals: *mut u32,
        totals_len: usize,
        counts: *mut u32,
        counts_len: usize,
        place: *mut u64,
        over: *mut u64,
    ) -> u64;

    fn tip_shading_judge(
        width: usize,
        height: usize,
        full_scale: u64,
        black_level: u64,
        bayer_order: u64,
        limit: u64,
        totals: *const u32,
        totals_len: usize,
        counts: *const u32,
        counts_len: usize,
        numerators: *mut u64,
        numerators_len: usize,
        denominators: *mut u64,
        denominators_len: usize,
        refusals: *mut u8,
        refusals_len: usize,
        fails: *mut u8,
        fails_len: usize,
        place: *mut u64,
    ) -> u64;
}

/// A block table.
pub struct Table<'a> {
    pub totals: &'a mut Lent<u32>,
    pub counts: &'a mut Lent<u32>,
}

/// What judging a table is lent.
pub struct Judging<'a> {
    pub width: usize,
    pub height: usize,
    pub full_scale: u64,
    pub black_level: u64,
    pub bayer_order: u64,
    pub limit: u64,
    pub table: Table<'a>,
    pub numerators: &'a mut Lent<u64>,
    pub denominators: &'a mut Lent<u64>,
    pub refusals: &'a mut Lent<u8>,
    pub fails: &'a mut Lent<u8>,
}

pub fn shading_table(window: Window, table: Table) -> Answer {
    let (mut place, mut over) = (GARBAGE, GARBAGE);
    // SAFETY: each buffer is lent with its own length, and no two overlap.
    let number = unsafe {
        tip_shading_table(
            window.width,
            window.height,
            window.full_scale,
            window.mask.address(),
            window.mask.len(),
            window.frame.address(),
            window.frame.len(),
            table.totals.address(),
            table.totals.len(),
            table.counts.address(),
            table.counts.len(),
            &mut place,
            &mut over,
        )
    };
    Answer {
        number,
        place,
        over,
        figures: vec![],
    }
}

pub fn shading_recode(window: Window, site: usize, code: u64, table: Table) -> Answer {
    let (mut place, mut over) = (GARBAGE, GARBAGE);
    // SAFETY: each buffer is lent with its own length, and no two overlap.
    let number = unsafe {
        tip_shading_recode(
            window.width,
            window.height,
            window.full_scale,
            site,
            code,
            window.mask.address(),
            window.mask.len(),
            window.frame.address(),
            window.frame.len(),
            table.totals.address(),
            table.totals.len(),
            table.counts.address(),
            table.counts.len(),
            &mut place,
            &mut over,
        )
    };
    Answer {
        number,
        place,
        over,
        figures: vec![],
    }
}

pub fn shading_judge(lent: Judging) -> Answer {
    let mut place = GARBAGE;
    // SAFETY: each buffer is lent with its own length, and no two overlap.
    let number = unsafe {
        tip_shading_judge(
            lent.width,
            lent.height,
            lent.full_scale,
            lent.black_level,
            lent.bayer_order,
            lent.limit,
            lent.table.totals.address(),
            lent.table.totals.len(),
            lent.table.counts.address(),
            lent.table.counts.len(),
            lent.numerators.address(),
            lent.numerators.len(),
            lent.denominators.address(),
            lent.denominators.len(),
            lent.refusals.address(),
            lent.refusals.len(),
            lent.fails.address(),
            lent.fails.len(),
            &mut place,
        )
    };
    Answer {
        number,
        place,
        over: NO_COUNT,
        figures: vec![],
    }
}
