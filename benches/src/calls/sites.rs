use super::window::{accepted, codes, frame, mask, samples, shape, Refusal, ACCEPTED};
use crate::contest::Contest;
use std::ops::Range;

/// A box has 31 x 31 sites of its plane: so many rows and columns to each side.
const REACH: usize = 15;

extern "C" {
    fn tip_find_defects(
        width: usize,
        height: usize,
        full_scale: u64,
        threshold: u64,
        mask: *const u8,
        mask_len: usize,
        frame: *const u16,
        frame_len: usize,
        out_mask: *mut u8,
        out_mask_len: usize,
        place: *mut u64,
        over: *mut u64,
        count: *mut u64,
    ) -> u64;
    fn tip_repair(
        width: usize,
        height: usize,
        full_scale: u64,
        mask: *const u8,
        mask_len: usize,
        frame: *const u16,
        frame_len: usize,
        out_frame: *mut u16,
        out_frame_len: usize,
        out_mask: *mut u8,
        out_mask_len: usize,
        place: *mut u64,
        over: *mut u64,
        filled: *mut u64,
    ) -> u64;
}

pub struct Input {
    width: usize,
    height: usize,
    full_scale: u64,
    threshold: u64,
    mask: Vec<u8>,
    frame: Vec<u16>,
}

/// What either call writes; the search for defects leaves `out_frame` alone.
#[derive(Debug, PartialEq)]
pub struct Output {
    number: u64,
    place: u64,
    over: u64,
    count: u64,
    out_frame: Vec<u16>,
    out_mask: Vec<u8>,
}

pub fn find_defects() -> Contest<Input, Output> {
    Contest {
        call: "tip_find_defects",
        timed: &[128 * 128, 64 * 64, 32 * 32, 128 * 128, 128 * 128],
        inputs: vec![
            ("128 x 128", input(128, 128, mask, |_| {})),
            ("64 x 64", input(64, 64, mask, |_| {})),
            ("32 x 32", input(32, 32, mask, |_| {})),
            ("mostly gaps", input(128, 128, mostly_gaps, |_| {})),
            ("only gaps", input(128, 128, mask, |case| case.mask.fill(1))),
            (
                "6 x 6",
                input(6, 6, all_codes, |case| case.frame[14] = 1000),
            ),
            (
                "16 x 16",
                input(16, 16, all_codes, |case| case.threshold = 0),
            ),
            ("30 x 34", input(30, 34, all_codes, |_| {})),
            ("62 x 32", input(62, 32, all_codes, |_| {})),
            ("66 x 64", input(66, 64, all_codes, |_| {})),
            ("128 x 2", input(128, 2, all_codes, |_| {})),
            ("2 x 128", input(2, 128, all_codes, |_| {})),
            ("refused 5", input(6, 6, all_codes, |case| case.mask[9] = 4)),
            (
                "refused 6",
                input(6, 6, all_codes, |case| case.full_scale = 500),
            ),
        ],
        lent,
        library: library_find,
        plain: vec![
            ("indexed", running_totals::<false>),
            ("walk first", running_totals::<true>),
            ("direct sum", direct_sum),
        ],
    }
}

pub fn repair() -> Contest<Input, Output> {
    Contest {
        call: "tip_repair",
        timed: &[128 * 128],
        inputs: vec![
            ("128 x 128", input(128, 128, all_codes, |_| {})),
            (
                "6 x 6",
                input(6, 6, all_codes, |case| case.frame[14] = 1000),
            ),
            ("16 x 16", input(16, 16, all_codes, |_| {})),
            ("refused 5", input(6, 6, all_codes, |case| case.mask[9] = 4)),
            (
                "refused 6",
                input(6, 6, all_codes, |case| case.full_scale = 500),
            ),
        ],
        lent,
        library: library_repair,
        plain: vec![
            ("indexed", plain_repair::<false>),
            ("walk first", plain_repair::<true>),
        ],
    }
}

fn input(width: usize, height: usize, coded: fn(usize) -> Vec<u8>, spoil: fn(&mut Input)) -> Input {
    let sites = width * height;
    let mut case = Input {
        width,
        height,
        full_scale: 1023,
        threshold: 28,
        mask: coded(sites),
        frame: frame(sites, 0),
    };
    spoil(&mut case);
    case
}

/// All four codes, one site in eight of each that is not surveyed in turn.
fn all_codes(sites: usize) -> Vec<u8> {
    let code = |i: usize| if i % 8 == 5 { (i / 8 % 3 + 1) as u8 } else { 0 };
    (0..sites).map(code).collect()
}

/// 31 gaps in 32 sites.
fn mostly_gaps(sites: usize) -> Vec<u8> {
    mask(sites).iter().map(|code| 1 - code).collect()
}

fn lent(input: &Input) -> Output {
    Output {
        number: 77,
        place: 77,
        over: 77,
        count: 77,
        out_frame: vec![7; input.frame.len()],
        out_mask: vec![7; input.mask.len()],
    }
}

fn library_find(input: &Input, output: &mut Output) {
    // SAFETY: the pointers come from borrows, so they are aligned and nothing that is written overlaps.
    output.number = unsafe {
        tip_find_defects(
            input.width,
            input.height,
            input.full_scale,
            input.threshold,
            input.mask.as_ptr(),
            input.mask.len(),
            input.frame.as_ptr(),
            input.frame.len(),
            output.out_mask.as_mut_ptr(),
            output.out_mask.len(),
            &mut output.place,
            &mut output.over,
            &mut output.count,
        )
    };
}

fn library_repair(input: &Input, output: &mut Output) {
    // SAFETY: as above.
    output.number = unsafe {
        tip_repair(
            input.width,
            input.height,
            input.full_scale,
            input.mask.as_ptr(),
            input.mask.len(),
            input.frame.as_ptr(),
            input.frame.len(),
            output.out_frame.as_mut_ptr(),
            output.out_frame.len(),
            output.out_mask.as_mut_ptr(),
            output.out_mask.len(),
            &mut output.place,
            &mut output.over,
            &mut output.count,
        )
    };
}

fn refusal<const WALK: bool>(input: &Input, other: bool, lengths: &[usize]) -> Result<(), Refusal> {
    accepted(shape(
        input.width,
        input.height,
        input.full_scale,
        other,
        lengths,
    ))?;
    accepted(codes::<WALK>(&input.mask))?;
    accepted(samples::<WALK, 1>(
        input.full_scale,
        &input.mask,
        [&input.frame],
    ))
}

/// Count and total of the surveyed sites of a site's plane that are at most `reach` rows and columns of it away.
fn around(input: &Input, y: usize, x: usize, reach: usize) -> (u64, u64) {
    let (mask, frame, w) = (&input.mask[..], &input.frame[..], input.width);
    let (top, left) = (y - 2 * reach.min(y / 2), x - 2 * reach.min(x / 2));
    let (bottom, right) = (
        (y + 2 * reach).min(input.height - 1),
        (x + 2 * reach).min(w - 1),
    );
    let (mut count, mut total) = (0u64, 0u64);
    for row in (top..=bottom).step_by(2) {
        let (mut of_row, mut seen) = (0u32, 0u32);
        for column in (left..=right).step_by(2) {
            let at = row * w + column;
            let surveyed = mask[at] == 0;
            of_row += if surveyed { frame[at] as u32 } else { 0 };
            seen += u32::from(surveyed);
        }
        count += seen as u64;
        total += of_row as u64;
    }
    (count, total)
}

/// Refusals first; then `mark` writes every site's code and counts what is newly found.
fn search<const WALK: bool>(
    input: &Input,
    output: &mut Output,
    mark: impl Fn(&Input, u64, &mut [u8]) -> u64,
) {
    let lengths = [input.mask.len(), input.frame.len(), output.out_mask.len()];
    let found = refusal::<WALK>(input, input.threshold > 4095, &lengths);
    (output.number, output.place, output.over) = found.err().unwrap_or(ACCEPTED);
    output.count = 0;
    if found.is_err() {
        return;
    }
    let threshold = if input.threshold == 0 {
        24
    } else {
        input.threshold
    };
    output.count = mark(input, threshold, &mut output.out_mask);
}

#[inline(never)]
fn running_totals<const WALK: bool>(input: &Input, output: &mut Output) {
    search::<WALK>(input, output, mark_by_running_totals);
}

#[inline(never)]
fn direct_sum(input: &Input, output: &mut Output) {
    search::<true>(input, output, mark_by_direct_sum);
}

/// The box around each surveyed site, summed site by site.
fn mark_by_direct_sum(input: &Input, threshold: u64, out: &mut [u8]) -> u64 {
    let mut found = 0;
    for i in 0..input.mask.len() {
        out[i] = input.mask[i];
        if input.mask[i] == 0 {
            let (count, total) = around(input, i / input.width, i % input.width, REACH);
            if (input.frame[i] as u64 * count).abs_diff(total) >= threshold * count {
                out[i] = 2;
                found += 1;
            }
        }
    }
    found
}

/// Row by row, with totals down the columns to before the row's boxes, `above`, and to their end, `below`.
fn mark_by_running_totals(input: &Input, threshold: u64, out: &mut [u8]) -> u64 {
    let (mut counts_above, mut totals_above) = ([0; 256], [0; 256]);
    let (mut counts_below, mut totals_below) = ([0; 256], [0; 256]);
    let (mut counts, mut totals) = ([0; 130], [0; 130]);
    let (mut top, mut bottom) = (0, 0);
    let mut found = 0;
    for y in 0..input.height {
        let (first, end) = (
            (y / 2).saturating_sub(REACH),
            (y / 2 + REACH + 1).min(input.height / 2),
        );
        add_pairs(input, top..first, &mut counts_above, &mut totals_above);
        add_pairs(input, bottom..end, &mut counts_below, &mut totals_below);
        (top, bottom) = (first, end);
        let row = y % 2 * input.width..(y % 2 + 1) * input.width;
        run(
            &counts_above[row.clone()],
            &counts_below[row.clone()],
            &mut counts,
        );
        run(&totals_above[row.clone()], &totals_below[row], &mut totals);
        found += mark_row(input, y, threshold, &counts, &totals, out);
    }
    found
}

/// Adds pairs of rows, an even one and the odd one below it side by side, to the totals down the columns.
fn add_pairs(input: &Input, pairs: Range<usize>, counts: &mut [u32; 256], totals: &mut [u32; 256]) {
    let long = 2 * input.width;
    let (counts, totals) = (&mut counts[..long], &mut totals[..long]);
    for pair in pairs {
        let mask = &input.mask[pair * long..][..long];
        let frame = &input.frame[pair * long..][..long];
        for k in 0..long {
            let (surveyed, sample) = (mask[k] == 0, frame[k] as u32);
            counts[k] += u32::from(surveyed);
            totals[k] += if surveyed { sample } else { 0 };
        }
    }
}

/// Totals along a row, of what the totals down its columns differ by; even and odd columns each by themselves.
fn run(above: &[u32], below: &[u32], along: &mut [u32; 130]) {
    (along[0], along[1]) = (0, 0);
    for x in 0..above.len() {
        along[2 + x] = along[x] + (below[x] - above[x]);
    }
}

/// The sum over the box around column x, by totals along a row of `width` sites.
fn within(width: usize, x: usize, along: &[u32; 130]) -> u32 {
    let first = if x < 2 * REACH { x % 2 } else { x - 2 * REACH };
    let end = (x + 2 * REACH + 2).min(width + x % 2);
    along[end] - along[first]
}

/// Marks row y by the totals along it.
fn mark_row(
    input: &Input,
    y: usize,
    threshold: u64,
    counts: &[u32; 130],
    totals: &[u32; 130],
    out: &mut [u8],
) -> u64 {
    let width = input.width;
    let mask = &input.mask[y * width..][..width];
    let frame = &input.frame[y * width..][..width];
    let out = &mut out[y * width..][..width];
    let mut found = 0;
    for x in 0..width {
        out[x] = mask[x];
        if mask[x] == 0 {
            let count = within(width, x, counts) as u64;
            let total = within(width, x, totals) as u64;
            if (frame[x] as u64 * count).abs_diff(total) >= threshold * count {
                out[x] = 2;
                found += 1;
            }
        }
    }
    found
}

#[inline(never)]
fn plain_repair<const WALK: bool>(input: &Input, output: &mut Output) {
    let lengths = [
        input.mask.len(),
        input.frame.len(),
        output.out_frame.len(),
        output.out_mask.len(),
    ];
    let found = refusal::<WALK>(input, false, &lengths);
    (output.number, output.place, output.over) = found.err().unwrap_or(ACCEPTED);
    output.count = 0;
    if found.is_err() {
        return;
    }
    for i in 0..input.mask.len() {
        output.out_mask[i] = input.mask[i];
        output.out_frame[i] = input.frame[i];
        if input.mask[i] == 2 {
            let (count, total) = around(input, i / input.width, i % input.width, 1);
            if count > 0 {
                output.out_mask[i] = 3;
                output.out_frame[i] = ((2 * total + count) / (2 * count)) as u16;
                output.count += 1;
            }
        }
    }
}
