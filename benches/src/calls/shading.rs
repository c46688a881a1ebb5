use super::window::{accepted, codes, frame, legal, mask, samples, Refusal, ACCEPTED};
use crate::contest::Contest;

extern "C" {
    fn tip_shading_table(
        width: usize,
        height: usize,
        full_scale: u64,
        mask: *const u8,
        mask_len: usize,
        frame: *const u16,
        frame_len: usize,
        totals: *mut u32,
        totals_len: usize,
        counts: *mut u32,
        counts_len: usize,
        place: *mut u64,
        over: *mut u64,
    ) -> u64;
    fn tip_shading_recode(
        width: usize,
        height: usize,
        full_scale: u64,
        site: usize,
        code: u64,
        mask: *mut u8,
        mask_len: usize,
        frame: *const u16,
        frame_len: usize,
        totals: *mut u32,
        totals_len: usize,
        counts: *mut u32,
        counts_len: usize,
        place: *mut u64,
        over: *mut u64,
    ) -> u64;
    fn tip_shading_judge(
        width: usize,
        height: usize,
        full_scale: u64,
        black_level: u64,
        bayer_order: u64,
        limit: u64,
        totals: *const u32,
        totals_len: usize,
        counts: *const u32,
        counts_len: usize,
        numerators: *mut u64,
        numerators_len: usize,
        denominators: *mut u64,
        denominators_len: usize,
        refusals: *mut u8,
        refusals_len: usize,
        fails: *mut u8,
        fails_len: usize,
        place: *mut u64,
    ) -> u64;
}

/// What the three calls take, each its part of it.
pub struct Input {
    width: usize,
    height: usize,
    full_scale: u64,
    black_level: u64,
    bayer_order: u64,
    limit: u64,
    mask: Vec<u8>,
    frame: Vec<u16>,
    totals: Vec<u32>,
    counts: Vec<u32>,
    site: usize,
    codes: [u64; 2],
}

#[derive(Debug, PartialEq)]
pub struct Table {
    number: u64,
    place: u64,
    over: u64,
    totals: Vec<u32>,
    counts: Vec<u32>,
}

/// Two recodings in turn: number, place and over of each.
#[derive(Debug, PartialEq)]
pub struct Recoded {
    answers: [Refusal; 2],
    mask: Vec<u8>,
    totals: Vec<u32>,
    counts: Vec<u32>,
}

#[derive(Debug, PartialEq)]
pub struct Judged {
    number: u64,
    place: u64,
    numerators: Vec<u64>,
    denominators: Vec<u64>,
    refusals: Vec<u8>,
    fails: Vec<u8>,
}

pub fn table() -> Contest<Input, Table> {
    Contest {
        call: "tip_shading_table",
        timed: &[128 * 128],
        inputs: vec![
            ("128 x 128", input(128, 128, |_| {})),
            ("70 x 52", input(70, 52, |_| {})),
            ("64 x 48, gaps", input(64, 48, |case| case.mask.fill(1))),
            ("refused 1", input(130, 48, |_| {})),
            ("refused 4", input(64, 48, |case| case.totals.push(7))),
            ("refused 5", input(64, 48, |case| case.mask[99] = 4)),
            ("refused 6", input(64, 48, |case| case.full_scale = 500)),
            ("refused 9", input(62, 48, |_| {})),
        ],
        lent: |input| Table {
            number: 77,
            place: 77,
            over: 77,
            totals: vec![7; input.totals.len()],
            counts: vec![7; input.counts.len()],
        },
        library: library_table,
        plain: vec![
            ("indexed", plain_table::<false>),
            ("walk first", plain_table::<true>),
        ],
    }
}

/// A surveyed site becomes a gap and is surveyed again, so each call amends the table, and both leave it as it was.
pub fn recode() -> Contest<Input, Recoded> {
    Contest {
        call: "tip_shading_recode",
        timed: &[2, 2],
        inputs: vec![
            ("128 x 128", input(128, 128, |case| case.site = 50 * 129)),
            ("64 x 48", input(64, 48, |case| case.site = 50 * 25)),
            ("in no area", input(70, 52, |case| case.site = 70 * 52 - 1)),
            ("in one block", input(70, 52, |_| {})),
            (
                "in the centre",
                input(70, 52, |case| case.site = 2 * 70 + 65),
            ),
            ("a gap", input(64, 48, |case| case.site = 7)),
            ("refused 1", input(64, 130, |_| {})),
            ("refused 3", input(64, 48, |case| case.site = 64 * 48)),
            ("refused 4", input(64, 48, |case| case.counts.push(7))),
            ("refused 5, old", input(64, 48, |case| case.mask[0] = 4)),
            (
                "refused 5, new",
                input(64, 48, |case| case.codes = [4, 256]),
            ),
            ("refused 6", input(64, 48, |case| case.frame[0] = 1024)),
            ("refused 9", input(62, 48, |_| {})),
        ],
        lent: |input| Recoded {
            answers: [(77, 77, 77); 2],
            mask: input.mask.clone(),
            totals: input.totals.clone(),
            counts: input.counts.clone(),
        },
        library: library_recode,
        plain: vec![("indexed", plain_recode)],
    }
}

pub fn judge() -> Contest<Input, Judged> {
    Contest {
        call: "tip_shading_judge",
        timed: &[128 * 128],
        inputs: vec![
            ("128 x 128", input(128, 128, |_| {})),
            (
                "70 x 52, order 3",
                input(70, 52, |case| case.bayer_order = 3),
            ),
            ("a 7 and a 10", input(64, 48, seven_and_ten)),
            ("all fail", input(64, 48, |case| case.totals[4] /= 2)),
            ("refused 1", input(130, 48, |_| {})),
            ("refused 3", input(64, 48, |case| case.limit = 17)),
            ("refused 4", input(64, 48, |case| case.counts.push(7))),
            ("refused 9", input(62, 48, |_| {})),
            ("refused 11", input(64, 48, |case| case.counts[9] = 769)),
            (
                "refused 11, a total",
                input(64, 48, |case| case.totals[19] = 768 * 1023 + 1),
            ),
        ],
        lent: |input| Judged {
            number: 77,
            place: 77,
            numerators: vec![7; 2 * blocks(input)],
            denominators: vec![7; 2 * blocks(input)],
            refusals: vec![7; 2 * blocks(input)],
            fails: vec![7; 2 * blocks(input)],
        },
        library: library_judge,
        plain: vec![("indexed", plain_judge)],
    }
}

/// No R in one block, and Gb of another at black.
fn seven_and_ten(case: &mut Input) {
    (case.totals[1], case.counts[1]) = (0, 0);
    case.totals[12] = 64 * case.counts[12];
}

/// A window and its own table.
fn input(width: usize, height: usize, spoil: fn(&mut Input)) -> Input {
    let sites = width * height;
    let mut case = Input {
        width,
        height,
        full_scale: 1023,
        black_level: 64,
        bayer_order: 0,
        limit: 2,
        mask: mask(sites),
        frame: frame(sites, 0),
        totals: Vec::new(),
        counts: Vec::new(),
        site: 0,
        codes: [1, 0],
    };
    let entries = 4 * (blocks(&case) + 1);
    let (mut totals, mut counts) = (vec![9; entries], vec![8; entries]);
    // a window that is refused keeps a table of no meaning
    let _ = tabled::<false>(&case, &mut totals, &mut counts);
    (case.totals, case.counts) = (totals, counts);
    spoil(&mut case);
    case
}

fn library_table(input: &Input, output: &mut Table) {
    // SAFETY: the pointers come from borrows, so they are aligned and nothing that is written overlaps.
    output.number = unsafe {
        tip_shading_table(
            input.width,
            input.height,
            input.full_scale,
            input.mask.as_ptr(),
            input.mask.len(),
            input.frame.as_ptr(),
            input.frame.len(),
            output.totals.as_mut_ptr(),
            output.totals.len(),
            output.counts.as_mut_ptr(),
            output.counts.len(),
            &mut output.place,
            &mut output.over,
        )
    };
}

fn library_recode(input: &Input, output: &mut Recoded) {
    for (code, answer) in input.codes.iter().zip(&mut output.answers) {
        // SAFETY: as above.
        answer.0 = unsafe {
            tip_shading_recode(
                input.width,
                input.height,
                input.full_scale,
                input.site,
                *code,
                output.mask.as_mut_ptr(),
                output.mask.len(),
                input.frame.as_ptr(),
                input.frame.len(),
                output.totals.as_mut_ptr(),
                output.totals.len(),
                output.counts.as_mut_ptr(),
                output.counts.len(),
                &mut answer.1,
                &mut answer.2,
            )
        };
    }
}

fn library_judge(input: &Input, output: &mut Judged) {
    // SAFETY: as above.
    output.number = unsafe {
        tip_shading_judge(
            input.width,
            input.height,
            input.full_scale,
            input.black_level,
            input.bayer_order,
            input.limit,
            input.totals.as_ptr(),
            input.totals.len(),
            input.counts.as_ptr(),
            input.counts.len(),
            output.numerators.as_mut_ptr(),
            output.numerators.len(),
            output.denominators.as_mut_ptr(),
            output.denominators.len(),
            output.refusals.as_mut_ptr(),
            output.refusals.len(),
            output.fails.as_mut_ptr(),
            output.fails.len(),
            &mut output.place,
        )
    };
}

fn blocks(input: &Input) -> usize {
    (input.width / 32) * (input.height / 24)
}

/// Refusals 1 to 4: `other` where another parameter is out of range, the lengths that should be the window's, and those
/// that should be the table's.
fn shape(input: &Input, other: bool, windows: &[usize], tables: &[usize]) -> Refusal {
    if !legal(input.width) || !legal(input.height) {
        return (1, 0, 0);
    }
    if !(1..=4095).contains(&input.full_scale) {
        return (2, 0, 0);
    }
    if other {
        return (3, 0, 0);
    }
    let (sites, entries) = (input.width * input.height, 4 * (blocks(input) + 1));
    if windows.iter().any(|&long| long != sites) || tables.iter().any(|&long| long != entries) {
        return (4, 0, 0);
    }
    ACCEPTED
}

fn too_small(input: &Input) -> bool {
    input.width < 64 || input.height < 48
}

#[inline(never)]
fn plain_table<const WALK: bool>(input: &Input, output: &mut Table) {
    let found = tabled::<WALK>(input, &mut output.totals, &mut output.counts);
    (output.number, output.place, output.over) = found.err().unwrap_or(ACCEPTED);
}

fn tabled<const WALK: bool>(
    input: &Input,
    totals: &mut [u32],
    counts: &mut [u32],
) -> Result<(), Refusal> {
    let (mask, frame) = (&input.mask[..], &input.frame[..]);
    accepted(shape(
        input,
        false,
        &[mask.len(), frame.len()],
        &[totals.len(), counts.len()],
    ))?;
    accepted(codes::<WALK>(mask))?;
    accepted(samples::<WALK, 1>(input.full_scale, mask, [frame]))?;
    if too_small(input) {
        return Err((9, 0, 0));
    }
    let (across, blocks) = (input.width / 32, blocks(input));
    let (top, left) = ((input.height / 2 - 24) / 2, (input.width / 2 - 32) / 2);
    for row_parity in 0..2 {
        let mut put = |k: usize, area: [(u32, u32); 2]| {
            for (column_parity, entry) in area.into_iter().enumerate() {
                let at = (2 * row_parity + column_parity) * (blocks + 1) + k;
                (totals[at], counts[at]) = entry;
            }
        };
        for k in 0..blocks {
            put(
                k,
                areas::<12, 16>(input, row_parity, k / across * 12, k % across * 16),
            );
        }
        put(blocks, areas::<24, 32>(input, row_parity, top, left));
    }
    Ok(())
}

/// Total and count of what is surveyed in an area of two planes, which share the rows: even columns, then odd.
fn areas<const HIGH: usize, const WIDE: usize>(
    input: &Input,
    row_parity: usize,
    top: usize,
    left: usize,
) -> [(u32, u32); 2] {
    let mut sums = [(0, 0); 2];
    for u in top..top + HIGH {
        let from = (2 * u + row_parity) * input.width + 2 * left;
        let codes = &input.mask[from..from + 2 * WIDE];
        let samples = &input.frame[from..from + 2 * WIDE];
        for v in 0..WIDE {
            for (column_parity, (total, count)) in sums.iter_mut().enumerate() {
                let surveyed = codes[2 * v + column_parity] == 0;
                let sample = samples[2 * v + column_parity] as u32;
                *total += if surveyed { sample } else { 0 };
                *count += u32::from(surveyed);
            }
        }
    }
    sums
}

fn plain_recode(input: &Input, output: &mut Recoded) {
    for (code, answer) in input.codes.iter().zip(&mut output.answers) {
        let found = recoded(
            input,
            *code,
            &mut output.mask,
            &mut output.totals,
            &mut output.counts,
        );
        *answer = found.err().unwrap_or(ACCEPTED);
    }
}

/// A call for each code, as the library is called.
#[inline(never)]
fn recoded(
    input: &Input,
    code: u64,
    mask: &mut [u8],
    totals: &mut [u32],
    counts: &mut [u32],
) -> Result<(), Refusal> {
    let (site, frame) = (input.site, &input.frame[..]);
    // wraps at illegal sides alone, which are refused first
    let outside = site >= input.width.wrapping_mul(input.height);
    accepted(shape(
        input,
        outside,
        &[mask.len(), frame.len()],
        &[totals.len(), counts.len()],
    ))?;
    let (old, sample) = (mask[site], frame[site]);
    if old > 3 || code > 3 {
        return Err((5, site as u64, 0));
    }
    if (old == 0 || code == 0) && sample as u64 > input.full_scale {
        return Err((6, site as u64, 1));
    }
    if too_small(input) {
        return Err((9, 0, 0));
    }
    mask[site] = code as u8;
    if (old == 0) == (code == 0) {
        return Ok(());
    }
    let (y, x) = (site / input.width, site % input.width);
    let (u, v) = (y / 2, x / 2);
    let (across, down) = (input.width / 32, input.height / 24);
    let first = (y % 2 * 2 + x % 2) * (across * down + 1);
    let mut amend = |entry: usize| {
        if code == 0 {
            totals[entry] = totals[entry].wrapping_add(sample as u32);
            counts[entry] = counts[entry].wrapping_add(1);
        } else {
            totals[entry] = totals[entry].wrapping_sub(sample as u32);
            counts[entry] = counts[entry].wrapping_sub(1);
        }
    };
    let (row, column) = (u / 12, v / 16);
    if row < down && column < across {
        amend(first + row * across + column);
    }
    let (top, left) = ((input.height / 2 - 24) / 2, (input.width / 2 - 32) / 2);
    if (top..top + 24).contains(&u) && (left..left + 32).contains(&v) {
        amend(first + across * down);
    }
    Ok(())
}

#[inline(never)]
fn plain_judge(input: &Input, output: &mut Judged) {
    let found = judged(input, output).err().unwrap_or(ACCEPTED);
    (output.number, output.place) = (found.0, found.1);
}

/// Total over black, and count.
type Entry = (i64, i64);

fn judged(input: &Input, output: &mut Judged) -> Result<(), Refusal> {
    let (totals, counts) = (&input.totals[..], &input.counts[..]);
    let other = input.black_level > input.full_scale
        || input.bayer_order > 3
        || !(1..=16).contains(&input.limit);
    accepted(shape(input, other, &[], &[totals.len(), counts.len()]))?;
    let blocks = blocks(input);
    let lengths = [
        output.numerators.len(),
        output.denominators.len(),
        output.refusals.len(),
        output.fails.len(),
    ];
    if lengths != [2 * blocks; 4] {
        return Err((4, 0, 0));
    }
    if too_small(input) {
        return Err((9, 0, 0));
    }
    for i in 0..totals.len() {
        let most = if i % (blocks + 1) == blocks { 768 } else { 192 };
        if counts[i] > most || totals[i] as u64 > counts[i] as u64 * input.full_scale {
            return Err((11, 0, 0));
        }
    }
    // the planes of R, Gr, B and Gb for each order
    let planes =
        [[0, 1, 3, 2], [1, 0, 2, 3], [3, 2, 0, 1], [2, 3, 1, 0]][input.bayer_order as usize];
    let entry = |plane: usize, k: usize| -> Entry {
        let at = plane * (blocks + 1) + k;
        let count = counts[at] as i64;
        (totals[at] as i64 - input.black_level as i64 * count, count)
    };
    for ratio in 0..2 {
        let (colour, green) = (planes[2 * ratio], planes[2 * ratio + 1]);
        let centre = (entry(colour, blocks), entry(green, blocks));
        for k in 0..blocks {
            let verdict = verdict((entry(colour, k), entry(green, k)), centre);
            let (refusal, numerator, denominator) = match verdict {
                Ok((numerator, denominator)) => (0, numerator, denominator),
                Err(number) => (number, 0, 0),
            };
            let at = ratio * blocks + k;
            output.numerators[at] = numerator;
            output.denominators[at] = denominator;
            output.refusals[at] = refusal;
            output.fails[at] = u8::from(16 * numerator > input.limit * denominator);
        }
    }
    Ok(())
}

/// How far a block's ratio is from the centre's, R or B first in each, Gr or Gb second; or refusal 7 or 10.
fn verdict(block: (Entry, Entry), centre: (Entry, Entry)) -> Result<(u64, u64), u8> {
    let ((r, r_count), (green, green_count)) = block;
    let ((r_centre, r_centre_count), (green_centre, green_centre_count)) = centre;
    if r_count == 0 || green_count == 0 || r_centre_count == 0 || green_centre_count == 0 {
        return Err(7);
    }
    if green <= 0 || green_centre <= 0 || r_centre <= 0 {
        return Err(10);
    }
    let (a, b) = (r * green_count, green * r_count);
    let (c, d) = (r_centre * green_centre_count, green_centre * r_centre_count);
    Ok(((a * d - c * b).unsigned_abs(), (c * b) as u64))
}
