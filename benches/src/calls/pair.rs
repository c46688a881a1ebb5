use super::window::{accepted, codes, frame, mask, samples, shape, Refusal, ACCEPTED};
use crate::contest::Contest;

extern "C" {
    fn tip_pair_figures(
        width: usize,
        height: usize,
        full_scale: u64,
        mask: *const u8,
        mask_len: usize,
        first: *const u16,
        first_len: usize,
        second: *const u16,
        second_len: usize,
        place: *mut u64,
        over: *mut u64,
        n: *mut u64,
        p: *mut u64,
        q: *mut u64,
        r: *mut u64,
        variance: *mut f64,
        noise: *mut f64,
    ) -> u64;
}

pub struct Input {
    width: usize,
    height: usize,
    full_scale: u64,
    mask: Vec<u8>,
    first: Vec<u16>,
    second: Vec<u16>,
}

#[derive(Debug, PartialEq)]
pub struct Output {
    number: u64,
    place: u64,
    over: u64,
    /// n, P, Q and r.
    whole: [u64; 4],
    /// The variance and the noise.
    floats: [f64; 2],
}

pub fn contest() -> Contest<Input, Output> {
    Contest {
        call: "tip_pair_figures",
        timed: &[128 * 128],
        inputs: vec![
            ("128 x 128", input(128, 1023, |_| {})),
            ("refused 2", input(128, 4096, |_| {})),
            ("refused 5", input(128, 1023, |case| case.mask[500] = 4)),
            ("refused 6", input(128, 500, |_| {})),
            (
                "refused 6, second",
                input(128, 1023, |case| case.second[900..].fill(1024)),
            ),
            ("refused 7", input(2, 1023, |case| case.mask.fill(1))),
            ("2 x 2", input(2, 1023, |_| {})),
        ],
        lent: |_| Output {
            number: 77,
            place: 77,
            over: 77,
            whole: [77; 4],
            floats: [77.0; 2],
        },
        library,
        plain: vec![("indexed", plain::<false>), ("walk first", plain::<true>)],
    }
}

fn input(side: usize, full_scale: u64, spoil: fn(&mut Input)) -> Input {
    let sites = side * side;
    let mut case = Input {
        width: side,
        height: side,
        full_scale,
        mask: mask(sites),
        first: frame(sites, 0),
        second: frame(sites, 1),
    };
    spoil(&mut case);
    case
}

fn library(input: &Input, output: &mut Output) {
    let [n, p, q, r] = &mut output.whole;
    let [variance, noise] = &mut output.floats;
    // SAFETY: the pointers come from borrows, so they are aligned and nothing that is written overlaps.
    output.number = unsafe {
        tip_pair_figures(
            input.width,
            input.height,
            input.full_scale,
            input.mask.as_ptr(),
            input.mask.len(),
            input.first.as_ptr(),
            input.first.len(),
            input.second.as_ptr(),
            input.second.len(),
            &mut output.place,
            &mut output.over,
            n,
            p,
            q,
            r,
            variance,
            noise,
        )
    };
}

#[inline(never)]
fn plain<const WALK: bool>(input: &Input, output: &mut Output) {
    let (refusal, whole, floats) = match figures::<WALK>(input) {
        Ok((whole, floats)) => (ACCEPTED, whole, floats),
        Err(refusal) => (refusal, [0; 4], [0.0; 2]),
    };
    *output = Output {
        number: refusal.0,
        place: refusal.1,
        over: refusal.2,
        whole,
        floats,
    };
}

/// One walk for all six numbers. The difference is taken at 16 bits, squared at 32 and chosen after it is computed.
fn figures<const WALK: bool>(input: &Input) -> Result<([u64; 4], [f64; 2]), Refusal> {
    let lengths = [input.mask.len(), input.first.len(), input.second.len()];
    let (mask, first, second) = (&input.mask[..], &input.first[..], &input.second[..]);
    accepted(shape(
        input.width,
        input.height,
        input.full_scale,
        false,
        &lengths,
    ))?;
    accepted(codes::<WALK>(mask))?;
    accepted(samples::<WALK, 2>(input.full_scale, mask, [first, second]))?;
    let (mut n, mut a, mut b, mut squares) = (0u64, 0u64, 0u64, 0u64);
    for i in 0..mask.len() {
        let surveyed = mask[i] == 0;
        let d = first[i].abs_diff(second[i]) as u32;
        n += u64::from(surveyed);
        a += if surveyed { first[i] as u64 } else { 0 };
        b += if surveyed { second[i] as u64 } else { 0 };
        squares += if surveyed { (d * d) as u64 } else { 0 };
    }
    if n < 2 {
        return Err((7, 0, 0));
    }
    let d = a.abs_diff(b);
    let p = n * squares - d * d;
    let (q, r) = (2 * n * n, (2048 * p).isqrt());
    let variance = p as f64 / q as f64;
    let noise = r as f64 / (64 * n) as f64;
    Ok(([n, p, q, r], [variance, noise]))
}
