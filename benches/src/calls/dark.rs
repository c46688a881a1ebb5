use super::window::{accepted, codes, frame, mask, samples, shape, Refusal, ACCEPTED};
use crate::contest::Contest;

extern "C" {
    fn tip_dark_level(
        width: usize,
        height: usize,
        full_scale: u64,
        black_level: u64,
        mask: *const u8,
        mask_len: usize,
        frame: *const u16,
        frame_len: usize,
        place: *mut u64,
        over: *mut u64,
        numerator: *mut i64,
        denominator: *mut u64,
    ) -> u64;
}

pub struct Input {
    side: usize,
    full_scale: u64,
    black_level: u64,
    mask: Vec<u8>,
    frame: Vec<u16>,
}

#[derive(Debug, PartialEq)]
pub struct Output {
    number: u64,
    place: u64,
    over: u64,
    numerator: i64,
    denominator: u64,
}

pub fn contest() -> Contest<Input, Output> {
    Contest {
        call: "tip_dark_level",
        timed: &[128 * 128],
        inputs: vec![
            ("128 x 128", input(128, 1023, 64, |_| {})),
            ("below black", input(128, 1023, 1000, |_| {})),
            ("refused 3", input(128, 1023, 1024, |_| {})),
            ("refused 6", input(128, 500, 64, |_| {})),
            ("refused 7", input(2, 1023, 64, |case| case.mask.fill(2))),
        ],
        lent: |_| Output {
            number: 77,
            place: 77,
            over: 77,
            numerator: 77,
            denominator: 77,
        },
        library,
        plain: vec![("indexed", plain::<false>), ("walk first", plain::<true>)],
    }
}

fn input(side: usize, full_scale: u64, black_level: u64, spoil: fn(&mut Input)) -> Input {
    let sites = side * side;
    let mut case = Input {
        side,
        full_scale,
        black_level,
        mask: mask(sites),
        frame: frame(sites, 0),
    };
    spoil(&mut case);
    case
}

fn library(input: &Input, output: &mut Output) {
    // SAFETY: the pointers come from borrows, so they are aligned and nothing that is written overlaps.
    output.number = unsafe {
        tip_dark_level(
            input.side,
            input.side,
            input.full_scale,
            input.black_level,
            input.mask.as_ptr(),
            input.mask.len(),
            input.frame.as_ptr(),
            input.frame.len(),
            &mut output.place,
            &mut output.over,
            &mut output.numerator,
            &mut output.denominator,
        )
    };
}

#[inline(never)]
fn plain<const WALK: bool>(input: &Input, output: &mut Output) {
    let (refusal, numerator, denominator) = match level::<WALK>(input) {
        Ok((numerator, denominator)) => (ACCEPTED, numerator, denominator),
        Err(refusal) => (refusal, 0, 0),
    };
    *output = Output {
        number: refusal.0,
        place: refusal.1,
        over: refusal.2,
        numerator,
        denominator,
    };
}

fn level<const WALK: bool>(input: &Input) -> Result<(i64, u64), Refusal> {
    let (mask, frame) = (&input.mask[..], &input.frame[..]);
    let other = input.black_level > input.full_scale;
    accepted(shape(
        input.side,
        input.side,
        input.full_scale,
        other,
        &[mask.len(), frame.len()],
    ))?;
    accepted(codes::<WALK>(mask))?;
    accepted(samples::<WALK, 1>(input.full_scale, mask, [frame]))?;
    let black = input.black_level as i64;
    let (mut sum, mut n) = (0i64, 0u64);
    for i in 0..mask.len() {
        let above_black = frame[i] as i64 - black;
        sum += if mask[i] == 0 { above_black } else { 0 };
        n += u64::from(mask[i] == 0);
    }
    if n == 0 {
        return Err((7, 0, 0));
    }
    Ok((sum, n))
}
