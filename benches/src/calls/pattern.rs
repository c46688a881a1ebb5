use super::window::{accepted, codes, shape, some, Refusal, ACCEPTED};
use crate::contest::Contest;

type Pattern = unsafe extern "C" fn(
    usize,
    usize,
    u64,
    u64,
    *const u8,
    usize,
    *const u32,
    usize,
    *mut u64,
    *mut u64,
    *mut u64,
    *mut u64,
    *mut u64,
) -> u64;

extern "C" {
    fn tip_pattern_vertical(
        width: usize,
        height: usize,
        full_scale: u64,
        frames: u64,
        mask: *const u8,
        mask_len: usize,
        sums: *const u32,
        sums_len: usize,
        place: *mut u64,
        level_numerator: *mut u64,
        level_denominator: *mut u64,
        max_numerator: *mut u64,
        max_denominator: *mut u64,
    ) -> u64;
    fn tip_pattern_horizontal(
        width: usize,
        height: usize,
        full_scale: u64,
        frames: u64,
        mask: *const u8,
        mask_len: usize,
        sums: *const u32,
        sums_len: usize,
        place: *mut u64,
        level_numerator: *mut u64,
        level_denominator: *mut u64,
        max_numerator: *mut u64,
        max_denominator: *mut u64,
    ) -> u64;
}

pub struct Input {
    width: usize,
    height: usize,
    full_scale: u64,
    frames: u64,
    mask: Vec<u8>,
    sums: Vec<u32>,
}

#[derive(Debug, PartialEq)]
pub struct Output {
    number: u64,
    place: u64,
    level: [u64; 2],
    max_numerator: u64,
    max_denominator: u64,
}

pub fn vertical() -> Contest<Input, Output> {
    contest(
        "tip_pattern_vertical",
        |input, output| library(tip_pattern_vertical, input, output),
        [plain_vertical::<false>, plain_vertical::<true>],
    )
}

pub fn horizontal() -> Contest<Input, Output> {
    contest(
        "tip_pattern_horizontal",
        |input, output| library(tip_pattern_horizontal, input, output),
        [plain_horizontal::<false>, plain_horizontal::<true>],
    )
}

fn contest(
    call: &'static str,
    library: fn(&Input, &mut Output),
    [indexed, walk]: [fn(&Input, &mut Output); 2],
) -> Contest<Input, Output> {
    Contest {
        call,
        timed: &[128 * 128],
        inputs: vec![
            ("128 x 128", input(128, 128, 50, |_| {})),
            ("12 x 12", input(12, 12, 1, |_| {})),
            ("refused 3", input(12, 12, 0, |_| {})),
            ("refused 8", input(12, 12, 1, |case| case.mask[70] = 1)),
            ("refused 9", input(10, 10, 1, |_| {})),
            ("refused 11", input(12, 12, 1, |case| case.sums[70] = 1024)),
        ],
        lent: |_| Output {
            number: 77,
            place: 77,
            level: [77; 2],
            max_numerator: 77,
            max_denominator: 77,
        },
        library,
        plain: vec![("indexed", indexed), ("walk first", walk)],
    }
}

fn input(width: usize, height: usize, frames: u64, spoil: fn(&mut Input)) -> Input {
    let sites = width * height;
    let sums = (0..sites).map(|i| (frames as u32) * (480 + (i * 37 % 64) as u32));
    let mut case = Input {
        width,
        height,
        full_scale: 1023,
        frames,
        mask: vec![0; sites],
        sums: sums.collect(),
    };
    spoil(&mut case);
    case
}

fn library(pattern: Pattern, input: &Input, output: &mut Output) {
    let [level_numerator, level_denominator] = &mut output.level;
    // SAFETY: the pointers come from borrows, so they are aligned and nothing that is written overlaps.
    output.number = unsafe {
        pattern(
            input.width,
            input.height,
            input.full_scale,
            input.frames,
            input.mask.as_ptr(),
            input.mask.len(),
            input.sums.as_ptr(),
            input.sums.len(),
            &mut output.place,
            level_numerator,
            level_denominator,
            &mut output.max_numerator,
            &mut output.max_denominator,
        )
    };
}

/// Refusals; `lines` is how many lines the test is over.
fn refusal<const WALK: bool>(input: &Input, lines: usize) -> Result<(), Refusal> {
    let (mask, sums) = (&input.mask[..], &input.sums[..]);
    let k = input.frames;
    let lengths = [mask.len(), sums.len()];
    accepted(shape(
        input.width,
        input.height,
        input.full_scale,
        k == 0 || k > 100,
        &lengths,
    ))?;
    accepted(codes::<WALK>(mask))?;
    if some::<WALK>(mask.len(), |i| mask[i] != 0) {
        return Err((8, 0, 0));
    }
    if lines < 12 {
        return Err((9, 0, 0));
    }
    if some::<WALK>(sums.len(), |i| sums[i] as u64 > k * input.full_scale) {
        return Err((11, 0, 0));
    }
    Ok(())
}

#[inline(never)]
fn plain_vertical<const WALK: bool>(input: &Input, output: &mut Output) {
    let found = refusal::<WALK>(input, input.width);
    let mut totals = [0u64; 128];
    if found.is_ok() {
        for row in input.sums.chunks_exact(input.width) {
            for x in 0..row.len() {
                totals[x] += row[x] as u64;
            }
        }
    }
    answer(
        found,
        &totals[..input.width.min(128)],
        input,
        input.height,
        output,
    );
}

#[inline(never)]
fn plain_horizontal<const WALK: bool>(input: &Input, output: &mut Output) {
    let found = refusal::<WALK>(input, input.height);
    let mut totals = [0u64; 128];
    if found.is_ok() {
        for (y, row) in input.sums.chunks_exact(input.width).enumerate() {
            totals[y] = row.iter().map(|&sum| sum as u64).sum();
        }
    }
    answer(
        found,
        &totals[..input.height.min(128)],
        input,
        input.width,
        output,
    );
}

/// Both figures of the lines' totals; a line has so many sites.
fn answer(
    found: Result<(), Refusal>,
    totals: &[u64],
    input: &Input,
    sites: usize,
    output: &mut Output,
) {
    if let Err((number, place, _)) = found {
        *output = Output {
            number,
            place,
            level: [0; 2],
            max_numerator: 0,
            max_denominator: 0,
        };
        return;
    }
    let unit = sites as u64 * input.frames * input.full_scale;
    let level = totals
        .windows(2)
        .map(|pair| pair[0].abs_diff(pair[1]).pow(2))
        .sum();
    let deviation = |i: usize| {
        let around: u64 = (1..=5).map(|j| totals[i - j] + totals[i + j]).sum();
        (10 * totals[i] as i64 - around as i64).unsigned_abs()
    };
    let max = (5..totals.len() - 5).map(deviation).max().unwrap_or(0);
    *output = Output {
        number: ACCEPTED.0,
        place: ACCEPTED.1,
        level: [level, (totals.len() as u64 - 1) * unit * unit],
        max_numerator: max,
        max_denominator: 10 * unit,
    };
}
