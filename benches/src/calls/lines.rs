use super::window::{accepted, codes, frame, mask, samples, shape, Refusal, ACCEPTED};
use crate::contest::Contest;

type Lines = unsafe extern "C" fn(
    usize,
    usize,
    u64,
    *const u8,
    usize,
    *const u16,
    usize,
    *mut u8,
    usize,
    *mut u64,
    *mut u64,
) -> u64;

extern "C" {
    fn tip_defective_rows(
        width: usize,
        height: usize,
        full_scale: u64,
        mask: *const u8,
        mask_len: usize,
        frame: *const u16,
        frame_len: usize,
        marks: *mut u8,
        marks_len: usize,
        place: *mut u64,
        over: *mut u64,
    ) -> u64;
    fn tip_defective_columns(
        width: usize,
        height: usize,
        full_scale: u64,
        mask: *const u8,
        mask_len: usize,
        frame: *const u16,
        frame_len: usize,
        marks: *mut u8,
        marks_len: usize,
        place: *mut u64,
        over: *mut u64,
    ) -> u64;
}

pub struct Input {
    side: usize,
    full_scale: u64,
    mask: Vec<u8>,
    frame: Vec<u16>,
    marks_len: usize,
}

#[derive(Debug, PartialEq)]
pub struct Output {
    number: u64,
    place: u64,
    over: u64,
    marks: Vec<u8>,
}

pub fn rows() -> Contest<Input, Output> {
    contest(
        "tip_defective_rows",
        |input, output| library(tip_defective_rows, input, output),
        [plain::<true, false>, plain::<true, true>],
    )
}

pub fn columns() -> Contest<Input, Output> {
    contest(
        "tip_defective_columns",
        |input, output| library(tip_defective_columns, input, output),
        [plain::<false, false>, plain::<false, true>],
    )
}

fn contest(
    call: &'static str,
    library: fn(&Input, &mut Output),
    [indexed, walk]: [fn(&Input, &mut Output); 2],
) -> Contest<Input, Output> {
    Contest {
        call,
        timed: &[128 * 128],
        inputs: vec![
            ("128 x 128", input(128, 1023, |_| {})),
            (
                "18 x 18",
                input(18, 1023, |case| case.frame[8 * 18..9 * 18].fill(700)),
            ),
            ("refused 4", input(18, 1023, |case| case.marks_len = 35)),
            ("refused 6", input(18, 500, |_| {})),
            ("refused 9", input(16, 1023, |_| {})),
        ],
        lent: |input| Output {
            number: 77,
            place: 77,
            over: 77,
            marks: vec![7; input.marks_len],
        },
        library,
        plain: vec![("indexed", indexed), ("walk first", walk)],
    }
}

fn input(side: usize, full_scale: u64, spoil: fn(&mut Input)) -> Input {
    let sites = side * side;
    let mut case = Input {
        side,
        full_scale,
        mask: mask(sites),
        frame: frame(sites, 0),
        marks_len: 2 * side,
    };
    spoil(&mut case);
    case
}

fn library(lines: Lines, input: &Input, output: &mut Output) {
    // SAFETY: the pointers come from borrows, so they are aligned and nothing that is written overlaps.
    output.number = unsafe {
        lines(
            input.side,
            input.side,
            input.full_scale,
            input.mask.as_ptr(),
            input.mask.len(),
            input.frame.as_ptr(),
            input.frame.len(),
            output.marks.as_mut_ptr(),
            output.marks.len(),
            &mut output.place,
            &mut output.over,
        )
    };
}

#[inline(never)]
fn plain<const ROWS: bool, const WALK: bool>(input: &Input, output: &mut Output) {
    let found = refusal::<WALK>(input, output.marks.len());
    (output.number, output.place, output.over) = found.err().unwrap_or(ACCEPTED);
    if found.is_err() {
        return;
    }
    let lines = input.side / 2;
    for plane in 0..4 {
        let (counts, totals) = line_sums::<ROWS>(input, plane / 2, plane % 2);
        for line in 0..lines {
            output.marks[plane * lines + line] =
                u8::from(defective(&counts[..lines], &totals[..lines], line));
        }
    }
}

fn refusal<const WALK: bool>(input: &Input, marks: usize) -> Result<(), Refusal> {
    let (mask, frame) = (&input.mask[..], &input.frame[..]);
    let lengths = [mask.len(), frame.len()];
    accepted(shape(
        input.side,
        input.side,
        input.full_scale,
        false,
        &lengths,
    ))?;
    if marks != 2 * input.side {
        return Err((4, 0, 0));
    }
    accepted(codes::<WALK>(mask))?;
    accepted(samples::<WALK, 1>(input.full_scale, mask, [frame]))?;
    if input.side < 18 {
        return Err((9, 0, 0));
    }
    Ok(())
}

/// Count and total of what is surveyed on each line of a plane.
fn line_sums<const ROWS: bool>(
    input: &Input,
    row_parity: usize,
    column_parity: usize,
) -> ([u64; 64], [u64; 64]) {
    let (mut counts, mut totals) = ([0; 64], [0; 64]);
    for y in (row_parity..input.side).step_by(2) {
        for x in (column_parity..input.side).step_by(2) {
            let at = y * input.side + x;
            let line = if ROWS { y / 2 } else { x / 2 };
            let surveyed = input.mask[at] == 0;
            counts[line] += u64::from(surveyed);
            totals[line] += if surveyed { input.frame[at] as u64 } else { 0 };
        }
    }
    (counts, totals)
}

/// A line beside the eight on either side of it, mirrored at the edge.
fn defective(counts: &[u64], totals: &[u64], line: usize) -> bool {
    let last = counts.len() - 1;
    let (mut count, mut total) = (0, 0);
    for j in 1..=8 {
        for other in [line.abs_diff(j), last - last.abs_diff(line + j)] {
            count += counts[other];
            total += totals[other];
        }
    }
    let apart = (totals[line] * count).abs_diff(total * counts[line]);
    2 * apart > 5 * counts[line] * count
}
