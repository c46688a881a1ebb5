use super::window::{accepted, codes, frame, mask, samples, shape, some, Refusal, ACCEPTED};
use crate::contest::Contest;

extern "C" {
    fn tip_stack_add(
        width: usize,
        height: usize,
        full_scale: u64,
        frames: u64,
        mask: *const u8,
        mask_len: usize,
        frame: *const u16,
        frame_len: usize,
        sums: *mut u32,
        sums_len: usize,
        squares: *mut u32,
        squares_len: usize,
        least: *mut u16,
        least_len: usize,
        greatest: *mut u16,
        greatest_len: usize,
        place: *mut u64,
        over: *mut u64,
        count: *mut u64,
    ) -> u64;
    fn tip_stack_variance(
        width: usize,
        height: usize,
        full_scale: u64,
        frames: u64,
        mask: *const u8,
        mask_len: usize,
        sums: *const u32,
        sums_len: usize,
        squares: *const u32,
        squares_len: usize,
        least: *const u16,
        least_len: usize,
        greatest: *const u16,
        greatest_len: usize,
        place: *mut u64,
        numerator: *mut u64,
        denominator: *mut u64,
        variance: *mut f64,
    ) -> u64;
    fn tip_blinking_sites(
        width: usize,
        height: usize,
        full_scale: u64,
        frames: u64,
        spread: u64,
        mask: *const u8,
        mask_len: usize,
        sums: *const u32,
        sums_len: usize,
        squares: *const u32,
        squares_len: usize,
        least: *const u16,
        least_len: usize,
        greatest: *const u16,
        greatest_len: usize,
        place: *mut u64,
        count: *mut u64,
    ) -> u64;
}

/// The four numbers of each site.
#[derive(Clone, Debug, PartialEq)]
pub struct Stack {
    sums: Vec<u32>,
    squares: Vec<u32>,
    least: Vec<u16>,
    greatest: Vec<u16>,
}

/// A stack of so many frames, two of them in turn, and what is asked of it: a frame that is offered to it, and a spread.
pub struct Input {
    side: usize,
    full_scale: u64,
    frames: u64,
    spread: u64,
    mask: Vec<u8>,
    frame: Vec<u16>,
    stack: Stack,
}

#[derive(Debug, PartialEq)]
pub struct Added {
    number: u64,
    place: u64,
    over: u64,
    count: u64,
    stack: Stack,
}

#[derive(Debug, PartialEq)]
pub struct Varied {
    number: u64,
    place: u64,
    numerator: u64,
    denominator: u64,
    variance: f64,
}

#[derive(Debug, PartialEq)]
pub struct Counted {
    number: u64,
    place: u64,
    count: u64,
}

pub fn add() -> Contest<Input, Added> {
    let mut inputs = vec![
        ("128 x 128", input(128, 1023, 50, black)),
        ("the first", input(16, 1023, 0, |_| {})),
        ("the second", input(16, 1023, 1, |_| {})),
        ("the hundredth", input(16, 1023, 99, |_| {})),
        ("refused 3", input(16, 1023, 101, |_| {})),
        ("refused 6", input(16, 500, 1, |_| {})),
        ("refused 12", input(16, 1023, 100, |_| {})),
        (
            "refused 11, empty",
            input(16, 1023, 0, |case| case.stack.greatest[9] = 1),
        ),
    ];
    inputs.extend(refused_by_all());
    Contest {
        call: "tip_stack_add",
        timed: &[128 * 128],
        inputs,
        lent: |input| Added {
            number: 77,
            place: 77,
            over: 77,
            count: 77,
            stack: input.stack.clone(),
        },
        library: library_add,
        plain: vec![
            ("indexed", |input, output| {
                plain_add(input, output, in_turn::<false, 1>)
            }),
            ("walk first", |input, output| {
                plain_add(input, output, in_turn::<true, 1>)
            }),
            ("judge at once", |input, output| {
                plain_add(input, output, at_once)
            }),
        ],
    }
}

pub fn variance() -> Contest<Input, Varied> {
    let mut inputs = vec![
        ("128 x 128", input(128, 1023, 50, |_| {})),
        ("refused 3", input(16, 1023, 0, |_| {})),
        ("refused 7", input(16, 1023, 1, |_| {})),
        ("refused 7, gaps", input(16, 1023, 2, gaps)),
    ];
    inputs.extend(refused_by_all());
    Contest {
        call: "tip_stack_variance",
        timed: &[128 * 128],
        inputs,
        lent: |_| Varied {
            number: 77,
            place: 77,
            numerator: 77,
            denominator: 77,
            variance: 77.0,
        },
        library: library_variance,
        plain: vec![
            ("indexed", |input, output| {
                plain_variance(input, output, in_turn::<false, 0>)
            }),
            ("walk first", |input, output| {
                plain_variance(input, output, in_turn::<true, 0>)
            }),
            ("judge at once", |input, output| {
                plain_variance(input, output, at_once)
            }),
        ],
    }
}

pub fn blinking() -> Contest<Input, Counted> {
    let mut inputs = vec![
        ("128 x 128", input(128, 1023, 50, |_| {})),
        ("spread 1", input(16, 1023, 2, |case| case.spread = 1)),
        ("spread 4095", input(16, 4095, 2, widest)),
        ("one frame", input(16, 1023, 1, |_| {})),
        ("gaps", input(16, 1023, 2, gaps)),
        ("refused 3", input(16, 1023, 0, |_| {})),
        ("refused 3, low", input(16, 1023, 2, |case| case.spread = 0)),
        (
            "refused 3, high",
            input(16, 1023, 2, |case| case.spread = 4096),
        ),
    ];
    inputs.extend(refused_by_all());
    Contest {
        call: "tip_blinking_sites",
        timed: &[128 * 128],
        inputs,
        lent: |_| Counted {
            number: 77,
            place: 77,
            count: 77,
        },
        library: library_blinking,
        plain: vec![
            ("indexed", |input, output| {
                plain_blinking(input, output, in_turn::<false, 0>)
            }),
            ("walk first", |input, output| {
                plain_blinking(input, output, in_turn::<true, 0>)
            }),
            ("judge at once", |input, output| {
                plain_blinking(input, output, at_once)
            }),
        ],
    }
}

fn input(side: usize, full_scale: u64, frames: u64, spoil: fn(&mut Input)) -> Input {
    let sites = side * side;
    let (mask, turns) = (mask(sites), [frame(sites, 0), frame(sites, 1)]);
    // what no frames leave stands at gaps, code 1, where it is not read
    let mut stack = Stack {
        sums: mask.iter().map(|code| *code as u32 * u32::MAX).collect(),
        squares: vec![0; sites],
        least: mask.iter().map(|code| *code as u16 * u16::MAX).collect(),
        greatest: vec![0; sites],
    };
    for k in 0..frames {
        put(k, &mask, &turns[k as usize % 2], &mut stack);
    }
    let [_, frame] = turns;
    let mut case = Input {
        side,
        full_scale,
        frames,
        spread: 32,
        mask,
        frame,
        stack,
    };
    spoil(&mut case);
    case
}

/// A black frame, and black ones in the stack: calls in turn, which are timed, then leave the stack as it is.
fn black(case: &mut Input) {
    case.frame.fill(0);
    case.stack.least.fill(0);
}

/// One site from 0 to 4095, and that spread.
fn widest(case: &mut Input) {
    case.spread = 4095;
    (case.stack.least[9], case.stack.greatest[9]) = (0, 4095);
}

fn gaps(case: &mut Input) {
    case.mask.fill(1);
}

/// With 50 frames in, what all three calls refuse: with 4, with 5, and with 11 for one thing each at one site.
fn refused_by_all() -> Vec<(&'static str, Input)> {
    let spoils: [(&'static str, fn(&mut Input)); 8] = [
        ("refused 4", |case| case.stack.greatest.truncate(9)),
        ("refused 5", |case| case.mask[9] = 4),
        ("refused 11, squares", |case| {
            case.stack.squares[9] = 50 * 1023 * 1023 + 1
        }),
        ("refused 11, squares for the sum", |case| {
            case.stack.squares[9] = 0
        }),
        ("refused 11, sum below least", |case| {
            case.stack.sums[9] = 50 * case.stack.least[9] as u32 - 1
        }),
        ("refused 11, sum above greatest", |case| {
            case.stack.sums[9] = 50 * case.stack.greatest[9] as u32 + 1;
            case.stack.squares[9] = 50 * 1023 * 1023;
        }),
        ("refused 11, greatest", |case| case.stack.greatest[9] = 1024),
        ("refused 11, least", |case| {
            case.stack.least[9] = case.stack.greatest[9] + 1
        }),
    ];
    let refused = |(name, spoil)| (name, input(16, 1023, 50, spoil));
    spoils.into_iter().map(refused).collect()
}

fn library_add(input: &Input, output: &mut Added) {
    let stack = &mut output.stack;
    // SAFETY: the pointers come from borrows, so they are aligned and nothing that is written overlaps.
    output.number = unsafe {
        tip_stack_add(
            input.side,
            input.side,
            input.full_scale,
            input.frames,
            input.mask.as_ptr(),
            input.mask.len(),
            input.frame.as_ptr(),
            input.frame.len(),
            stack.sums.as_mut_ptr(),
            stack.sums.len(),
            stack.squares.as_mut_ptr(),
            stack.squares.len(),
            stack.least.as_mut_ptr(),
            stack.least.len(),
            stack.greatest.as_mut_ptr(),
            stack.greatest.len(),
            &mut output.place,
            &mut output.over,
            &mut output.count,
        )
    };
}

fn library_variance(input: &Input, output: &mut Varied) {
    let stack = &input.stack;
    // SAFETY: as above.
    output.number = unsafe {
        tip_stack_variance(
            input.side,
            input.side,
            input.full_scale,
            input.frames,
            input.mask.as_ptr(),
            input.mask.len(),
            stack.sums.as_ptr(),
            stack.sums.len(),
            stack.squares.as_ptr(),
            stack.squares.len(),
            stack.least.as_ptr(),
            stack.least.len(),
            stack.greatest.as_ptr(),
            stack.greatest.len(),
            &mut output.place,
            &mut output.numerator,
            &mut output.denominator,
            &mut output.variance,
        )
    };
}

fn library_blinking(input: &Input, output: &mut Counted) {
    let stack = &input.stack;
    // SAFETY: as above.
    output.number = unsafe {
        tip_blinking_sites(
            input.side,
            input.side,
            input.full_scale,
            input.frames,
            input.spread,
            input.mask.as_ptr(),
            input.mask.len(),
            stack.sums.as_ptr(),
            stack.sums.len(),
            stack.squares.as_ptr(),
            stack.squares.len(),
            stack.least.as_ptr(),
            stack.least.len(),
            stack.greatest.as_ptr(),
            stack.greatest.len(),
            &mut output.place,
            &mut output.count,
        )
    };
}

/// Refusals 1 to 4: `other` where another parameter is out of range, and the frames that are offered.
fn shaped(input: &Input, other: bool, frames: &[&[u16]], stack: &Stack) -> Result<(), Refusal> {
    let lengths = [
        input.mask.len(),
        stack.sums.len(),
        stack.squares.len(),
        stack.least.len(),
        stack.greatest.len(),
    ];
    let side = input.side;
    accepted(shape(side, side, input.full_scale, other, &lengths))?;
    if frames.iter().any(|frame| frame.len() != side * side) {
        return Err((4, 0, 0));
    }
    Ok(())
}

/// How refusals 5, 6 and 11 are told: of the frames that are offered and of a stack.
type Judge<const FRAMES: usize> = fn(&Input, [&[u16]; FRAMES], &Stack) -> Result<(), Refusal>;

/// One after the other.
fn in_turn<const WALK: bool, const FRAMES: usize>(
    input: &Input,
    frames: [&[u16]; FRAMES],
    stack: &Stack,
) -> Result<(), Refusal> {
    accepted(codes::<WALK>(&input.mask))?;
    accepted(samples::<WALK, FRAMES>(
        input.full_scale,
        &input.mask,
        frames,
    ))?;
    accepted(impossible::<WALK>(input, stack))
}

/// Refusal 11: what no `frames` frames can have left at a surveyed site, as it is written down.
fn impossible<const WALK: bool>(input: &Input, stack: &Stack) -> Refusal {
    let (k, full_scale) = (input.frames, input.full_scale);
    let sites = input.mask.len();
    let (sums, squares) = (&stack.sums[..sites], &stack.squares[..sites]);
    let (least, greatest) = (&stack.least[..sites], &stack.greatest[..sites]);
    let bad = |i: usize| {
        let (s, q) = (sums[i] as u64, squares[i] as u64);
        let (l, g) = (least[i] as u64, greatest[i] as u64);
        let sums_bad = (s > k * full_scale) | (q > k * full_scale * full_scale) | (k * q < s * s);
        let ends_bad = (l > g) | (g > full_scale) | ((k == 0) & ((l > 0) | (g > 0)));
        (input.mask[i] == 0) & (sums_bad | ends_bad | (s < k * l) | (s > k * g))
    };
    if some::<WALK>(sites, bad) {
        (11, 0, 0)
    } else {
        ACCEPTED
    }
}

/// In one walk, each number in as few bits as it needs; one after the other only where something is wrong.
fn at_once<const FRAMES: usize>(
    input: &Input,
    frames: [&[u16]; FRAMES],
    stack: &Stack,
) -> Result<(), Refusal> {
    let limits = Limits::of(input);
    let sites = input.mask.len();
    let (mask, frames) = (&input.mask[..], frames.map(|frame| &frame[..sites]));
    let (sums, squares) = (&stack.sums[..sites], &stack.squares[..sites]);
    let (least, greatest) = (&stack.least[..sites], &stack.greatest[..sites]);
    let top = input.full_scale as u16;
    let wrong = |i: usize| {
        let (code, surveyed) = (mask[i], mask[i] == 0);
        let over = frames
            .iter()
            .fold(false, |over, frame| over | (frame[i] > top));
        let exceeded = limits.exceeded(sums[i], squares[i], least[i], greatest[i]);
        (code > 3) | (surveyed & (over | exceeded))
    };
    if some::<true>(sites, wrong) {
        in_turn::<true, FRAMES>(input, frames, stack)
    } else {
        Ok(())
    }
}

/// Refusal 11 of frame counts to 100. A sum above `frames * full_scale` is above `frames * greatest` too, or greatest is
/// above full scale; with no frame in greatest is at most 0, and least at most that.
#[derive(Clone, Copy)]
struct Limits {
    frames: u32,
    squares: u32,
    greatest: u16,
}

impl Limits {
    fn of(input: &Input) -> Limits {
        let (frames, full_scale) = (input.frames as u32, input.full_scale as u32);
        Limits {
            frames,
            squares: frames * full_scale * full_scale,
            greatest: if frames == 0 { 0 } else { full_scale as u16 },
        }
    }

    fn exceeded(self, s: u32, q: u32, l: u16, g: u16) -> bool {
        let k = self.frames;
        (l > g)
            | (g > self.greatest)
            | (q > self.squares)
            | (s < k * l as u32)
            | (s > k * g as u32)
            | (k as u64 * (q as u64) < s as u64 * s as u64)
    }
}

fn plain_add(input: &Input, output: &mut Added, judge: Judge<1>) {
    let found = added(input, &mut output.stack, judge);
    let refusal = found.err().unwrap_or(ACCEPTED);
    output.number = refusal.0;
    output.place = refusal.1;
    output.over = refusal.2;
    output.count = if found.is_ok() { input.frames + 1 } else { 0 };
}

fn added(input: &Input, stack: &mut Stack, judge: Judge<1>) -> Result<(), Refusal> {
    let frames = [&input.frame[..]];
    shaped(input, input.frames > 100, &frames, stack)?;
    judge(input, frames, stack)?;
    if input.frames == 100 {
        return Err((12, 0, 0));
    }
    put(input.frames, &input.mask, &input.frame, stack);
    Ok(())
}

fn put(frames: u64, mask: &[u8], frame: &[u16], stack: &mut Stack) {
    let Stack {
        sums,
        squares,
        least,
        greatest,
    } = stack;
    put_in(frames, mask, frame, sums, squares, least, greatest);
}

/// Adds a frame to a stack that is possible: with no frame in its greatest is 0, and needs no case of its own. Its lists
/// are parameters, by which the compiler knows that none overlaps another.
#[inline(never)]
fn put_in(
    frames: u64,
    mask: &[u8],
    frame: &[u16],
    sums: &mut [u32],
    squares: &mut [u32],
    least: &mut [u16],
    greatest: &mut [u16],
) {
    let sites = mask.len();
    let frame = &frame[..sites];
    let (sums, squares) = (&mut sums[..sites], &mut squares[..sites]);
    let (least, greatest) = (&mut least[..sites], &mut greatest[..sites]);
    let floor = if frames == 0 { u16::MAX } else { 0 };
    for i in 0..sites {
        // all is read before anything is written, whatever the code: so the walk vectorises
        let (surveyed, sample) = (mask[i] == 0, frame[i]);
        let (s, q, l, g) = (sums[i], squares[i], least[i], greatest[i]);
        let p = if surveyed { sample } else { 0 };
        let lesser = l.max(floor).min(p);
        sums[i] = s.wrapping_add(p as u32);
        squares[i] = q.wrapping_add(p as u32 * p as u32);
        least[i] = if surveyed { lesser } else { l };
        greatest[i] = g.max(p);
    }
}

fn plain_variance(input: &Input, output: &mut Varied, judge: Judge<0>) {
    let (refusal, numerator, denominator, variance) = match varied(input, judge) {
        Ok((numerator, denominator)) => (
            ACCEPTED,
            numerator,
            denominator,
            numerator as f64 / denominator as f64,
        ),
        Err(refusal) => (refusal, 0, 0, 0.0),
    };
    *output = Varied {
        number: refusal.0,
        place: refusal.1,
        numerator,
        denominator,
        variance,
    };
}

fn varied(input: &Input, judge: Judge<0>) -> Result<(u64, u64), Refusal> {
    let k = input.frames;
    shaped(input, k == 0 || k > 100, &[], &input.stack)?;
    let n = surveyed(&input.mask);
    if n == 0 || k < 2 {
        accepted(codes::<true>(&input.mask))?;
        return Err((7, 0, 0));
    }
    judge(input, [], &input.stack)?;
    let Stack { sums, squares, .. } = &input.stack;
    Ok((numerator(k as u32, &input.mask, sums, squares), n * k * k))
}

/// How many sites are surveyed: at most 128 * 128, and so in few bits.
fn surveyed(mask: &[u8]) -> u64 {
    let mut count = 0u16;
    for code in mask {
        count += (*code == 0) as u16;
    }
    count as u64
}

/// Products of two numbers of 32 bits each, which vectorise; those of 64 bits do not. Inlined, it would take them.
#[inline(never)]
fn numerator(k: u32, mask: &[u8], sums: &[u32], squares: &[u32]) -> u64 {
    let sites = mask.len();
    let (sums, squares) = (&sums[..sites], &squares[..sites]);
    let mut total = 0;
    for i in 0..sites {
        let (s, q) = (sums[i], squares[i]);
        let term = (k as u64 * q as u64).wrapping_sub(s as u64 * s as u64);
        total += if mask[i] == 0 { term } else { 0 };
    }
    total
}

fn plain_blinking(input: &Input, output: &mut Counted, judge: Judge<0>) {
    let found = counted(input, judge);
    let refusal = found.err().unwrap_or(ACCEPTED);
    *output = Counted {
        number: refusal.0,
        place: refusal.1,
        count: found.unwrap_or(0),
    };
}

fn counted(input: &Input, judge: Judge<0>) -> Result<u64, Refusal> {
    let (k, spread) = (input.frames, input.spread);
    let other = !(1..=4095).contains(&spread) || k == 0 || k > 100;
    shaped(input, other, &[], &input.stack)?;
    judge(input, [], &input.stack)?;
    let (mask, sites) = (&input.mask[..], input.mask.len());
    let (least, greatest) = (&input.stack.least[..sites], &input.stack.greatest[..sites]);
    let mut count = 0u16;
    for i in 0..sites {
        let blinks = greatest[i].wrapping_sub(least[i]) >= spread as u16;
        count += ((mask[i] == 0) & blinks) as u16;
    }
    Ok(count as u64)
}
