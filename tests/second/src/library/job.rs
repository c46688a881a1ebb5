use reference::shared::Answer;

use super::{Lent, GARBAGE};

extern "C" {
    fn tip_job(
        input: *const u8,
        input_len: usize,
        place: *mut u64,
        over: *mut u64,
        sites: *mut u64,
        p: *mut u64,
        q: *mut u64,
        r: *mut u64,
        dark: *mut i64,
    ) -> u64;
}

pub fn job(input: &mut Lent<u8>) -> Answer {
    let (mut place, mut over) = (GARBAGE, GARBAGE);
    let (mut sites, mut p, mut q, mut r) = (GARBAGE, GARBAGE, GARBAGE, GARBAGE);
    let mut dark = GARBAGE as i64;
    // SAFETY: the input is lent with its own length, and only the cells are written.
    let number = unsafe {
        tip_job(
            input.address(),
            input.len(),
            &mut place,
            &mut over,
            &mut sites,
            &mut p,
            &mut q,
            &mut r,
            &mut dark,
        )
    };
    let figures = vec![sites.into(), p.into(), q.into(), r.into(), dark.into()];
    Answer {
        number,
        place,
        over,
        figures,
    }
}
