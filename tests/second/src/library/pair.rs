use reference::shared::Answer;

use super::{Lent, GARBAGE};

extern "C" {
    fn tip_pair_figures(
        width: usize,
        height: usize,
        full_scale: u64,
        mask: *const u8,
        mask_len: usize,
        first: *const u16,
        first_len: usize,
        second: *const u16,
        second_len: usize,
        place: *mut u64,
        over: *mut u64,
        n: *mut u64,
        p: *mut u64,
        q: *mut u64,
        r: *mut u64,
        variance: *mut f64,
        noise: *mut f64,
    ) -> u64;
}

/// What the call is lent; without a second frame, the first is lent twice.
pub struct Pair<'a> {
    pub width: usize,
    pub height: usize,
    pub full_scale: u64,
    pub mask: &'a mut Lent<u8>,
    pub first: &'a mut Lent<u16>,
    pub second: Option<&'a mut Lent<u16>>,
}

impl Pair<'_> {
    fn second_slice(&mut self) -> (*const u16, usize) {
        let second = match &mut self.second {
            Some(second) => second,
            None => &mut *self.first,
        };
        (second.address(), second.len())
    }
}

pub fn pair_figures(mut pair: Pair) -> Answer {
    let (mut place, mut over) = (GARBAGE, GARBAGE);
    let (mut n, mut p, mut q, mut r) = (GARBAGE, GARBAGE, GARBAGE, GARBAGE);
    let (mut variance, mut noise) = (f64::from_bits(GARBAGE), f64::from_bits(GARBAGE));
    let (second, second_len) = pair.second_slice();
    // SAFETY: each buffer is lent with its own length, and only the cells are written.
    let number = unsafe {
        tip_pair_figures(
            pair.width,
            pair.height,
            pair.full_scale,
            pair.mask.address(),
            pair.mask.len(),
            pair.first.address(),
            pair.first.len(),
            second,
            second_len,
            &mut place,
            &mut over,
            &mut n,
            &mut p,
            &mut q,
            &mut r,
            &mut variance,
            &mut noise,
        )
    };
    let figures = vec![
        n.into(),
        p.into(),
        q.into(),
        r.into(),
        variance.to_bits().into(),
        noise.to_bits().into(),
    ];
    Answer {
        number,
        place,
        over,
        figures,
    }
}
