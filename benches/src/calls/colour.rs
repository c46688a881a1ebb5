use super::window::{accepted, codes, frame, mask, samples, shape, Refusal, ACCEPTED};
use crate::contest::Contest;

extern "C" {
    fn tip_colour_ratios(
        width: usize,
        height: usize,
        full_scale: u64,
        black_level: u64,
        bayer_order: u64,
        mask: *const u8,
        mask_len: usize,
        frame: *const u16,
        frame_len: usize,
        place: *mut u64,
        over: *mut u64,
        r_numerator: *mut i64,
        r_denominator: *mut u64,
        b_numerator: *mut i64,
        b_denominator: *mut u64,
        gb_numerator: *mut i64,
        gb_denominator: *mut u64,
    ) -> u64;
}

pub struct Input {
    width: usize,
    height: usize,
    full_scale: u64,
    black_level: u64,
    bayer_order: u64,
    mask: Vec<u8>,
    frame: Vec<u16>,
}

/// R, B and Gb over Gr.
#[derive(Debug, PartialEq)]
pub struct Output {
    number: u64,
    place: u64,
    over: u64,
    numerators: [i64; 3],
    denominators: [u64; 3],
}

pub fn contest() -> Contest<Input, Output> {
    Contest {
        call: "tip_colour_ratios",
        timed: &[128 * 128],
        inputs: vec![
            ("128 x 128", input(128, 128, 0, |_| {})),
            ("66 x 50, order 3", input(66, 50, 3, |_| {})),
            ("refused 3", input(64, 48, 4, |_| {})),
            ("refused 6", input(64, 48, 0, |case| case.full_scale = 500)),
            ("refused 7", input(64, 48, 0, |case| case.mask.fill(1))),
            ("refused 9", input(62, 48, 0, |case| case.mask.fill(1))),
            (
                "refused 10",
                input(64, 48, 0, |case| case.black_level = 1000),
            ),
        ],
        lent: |_| Output {
            number: 77,
            place: 77,
            over: 77,
            numerators: [77; 3],
            denominators: [77; 3],
        },
        library,
        plain: vec![("indexed", plain::<false>), ("walk first", plain::<true>)],
    }
}

fn input(width: usize, height: usize, bayer_order: u64, spoil: fn(&mut Input)) -> Input {
    let sites = width * height;
    let mut case = Input {
        width,
        height,
        full_scale: 1023,
        black_level: 64,
        bayer_order,
        mask: mask(sites),
        frame: frame(sites, 0),
    };
    spoil(&mut case);
    case
}

fn library(input: &Input, output: &mut Output) {
    let [r_numerator, b_numerator, gb_numerator] = &mut output.numerators;
    let [r_denominator, b_denominator, gb_denominator] = &mut output.denominators;
    // SAFETY: the pointers come from borrows, so they are aligned and nothing that is written overlaps.
    output.number = unsafe {
        tip_colour_ratios(
            input.width,
            input.height,
            input.full_scale,
            input.black_level,
            input.bayer_order,
            input.mask.as_ptr(),
            input.mask.len(),
            input.frame.as_ptr(),
            input.frame.len(),
            &mut output.place,
            &mut output.over,
            r_numerator,
            r_denominator,
            b_numerator,
            b_denominator,
            gb_numerator,
            gb_denominator,
        )
    };
}

#[inline(never)]
fn plain<const WALK: bool>(input: &Input, output: &mut Output) {
    let (refusal, numerators, denominators) = match ratios::<WALK>(input) {
        Ok((numerators, denominators)) => (ACCEPTED, numerators, denominators),
        Err(refusal) => (refusal, [0; 3], [0; 3]),
    };
    *output = Output {
        number: refusal.0,
        place: refusal.1,
        over: refusal.2,
        numerators,
        denominators,
    };
}

fn ratios<const WALK: bool>(input: &Input) -> Result<([i64; 3], [u64; 3]), Refusal> {
    let (mask, frame) = (&input.mask[..], &input.frame[..]);
    let other = input.black_level > input.full_scale || input.bayer_order > 3;
    let lengths = [mask.len(), frame.len()];
    accepted(shape(
        input.width,
        input.height,
        input.full_scale,
        other,
        &lengths,
    ))?;
    accepted(codes::<WALK>(mask))?;
    accepted(samples::<WALK, 1>(input.full_scale, mask, [frame]))?;
    if input.width < 64 || input.height < 48 {
        return Err((9, 0, 0));
    }
    // the planes of R, Gr, B and Gb for each order
    let planes =
        [[0, 1, 3, 2], [1, 0, 2, 3], [3, 2, 0, 1], [2, 3, 1, 0]][input.bayer_order as usize];
    let centres = planes.map(|plane| centre(input, plane / 2, plane % 2));
    if centres.iter().any(|&(_, count)| count == 0) {
        return Err((7, 0, 0));
    }
    let [r, gr, b, gb] = centres;
    if gr.0 <= 0 {
        return Err((10, 0, 0));
    }
    let others = [r, b, gb];
    Ok((
        others.map(|(total, _)| total * gr.1 as i64),
        others.map(|(_, count)| gr.0 as u64 * count),
    ))
}

/// Total over black and count of the surveyed sites in the centre of a plane, 32 wide and 24 high.
fn centre(input: &Input, row_parity: usize, column_parity: usize) -> (i64, u64) {
    let (top, left) = ((input.height / 2 - 24) / 2, (input.width / 2 - 32) / 2);
    let (mut total, mut count) = (0u64, 0u64);
    for u in top..top + 24 {
        for v in left..left + 32 {
            let at = (2 * u + row_parity) * input.width + 2 * v + column_parity;
            let surveyed = input.mask[at] == 0;
            total += if surveyed { input.frame[at] as u64 } else { 0 };
            count += u64::from(surveyed);
        }
    }
    (total as i64 - (input.black_level * count) as i64, count)
}
