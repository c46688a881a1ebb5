//! Each call accepted and refused, and what it leaves of the buffers lent to it. What the answers mean is tested in
//! tests/second; here, that each Rust function is the C function that it names.

use std::fmt::Debug;
use tippovrain::*;

const SMALL: Window = window(2, 2);
/// Full scale 0, which is refused with 2.
const DULL: Window = Window {
    full_scale: 0,
    ..SMALL
};

const fn window(width: usize, height: usize) -> Window {
    Window {
        width,
        height,
        full_scale: 1023,
    }
}

/// K1's frames.
const FIRST: [u16; 4] = [100, 101, 102, 103];
const SECOND: [u16; 4] = [101, 101, 102, 104];

/// A refusal of a call, by number and place.
fn refused<T>(call: Call) -> impl Fn(u64, usize) -> Result<T, Refusal> {
    move |number, place| {
        assert!(call.numbers().contains(&number));
        Err(Refusal {
            call,
            number,
            place,
            over: 0,
        })
    }
}

/// Refusal 6 of a call, by place and how many samples are above full scale.
fn above<T>(call: Call) -> impl Fn(usize, u64) -> Result<T, Refusal> {
    move |place, over| {
        Err(Refusal {
            call,
            number: 6,
            place,
            over,
        })
    }
}

/// How a call on so many sites counts what is above full scale in one frame; any other is in range.
fn counts_over<T: Debug + PartialEq>(
    name: Call,
    sites: usize,
    call: impl Fn(&[u8], &[u16]) -> Result<T, Refusal>,
) {
    let (refused, above) = (refused(name), above(name));
    let (mut mask, mut frame) = (vec![SURVEYED; sites], vec![100; sites]);
    frame[sites - 1] = 1024;
    assert_eq!(call(&mask, &frame), above(sites - 1, 1));
    // full scale itself is not above it
    (frame[0], frame[1]) = (1023, 1024);
    assert_eq!(call(&mask, &frame), above(1, 2));
    frame.fill(1024);
    assert_eq!(call(&mask, &frame), above(0, sites as u64));
    // what is not surveyed holds more, and does not count
    for (site, code) in [GAP, DEFECT, FILLED].into_iter().enumerate() {
        (mask[site], frame[site]) = (code, 65535);
    }
    assert_eq!(call(&mask, &frame), above(3, sites as u64 - 3));
    // codes are not counted, nor samples beside them
    mask.fill(SURVEYED);
    mask[sites - 1] = 4;
    assert_eq!(call(&mask, &frame), refused(5, sites - 1));
}

fn signed(numerator: i64, denominator: u64) -> SignedFraction {
    SignedFraction {
        numerator,
        denominator,
    }
}

fn unsigned(numerator: u64, denominator: u64) -> Fraction {
    Fraction {
        numerator,
        denominator,
    }
}

#[test]
fn raw10() {
    let refused = refused(Call::UnpackRaw10);
    let mut out = [7; 4];
    for (width, height, bytes) in [(3, 2, 5), (2, usize::MAX, 5), (0, 2, 0)] {
        assert_eq!(
            unpack_raw10(width, height, &[25; 5][..bytes], &mut out),
            refused(1, 0)
        );
    }
    assert_eq!(unpack_raw10(2, 2, &[25; 4], &mut out), refused(4, 0));
    assert_eq!(unpack_raw10(2, 2, &[], &mut out), refused(4, 0));
    assert_eq!(unpack_raw10(2, 2, &[25; 5], &mut out[..3]), refused(4, 0));
    assert_eq!(unpack_raw10(2, 2, &[25; 5], &mut []), refused(4, 0));
    assert_eq!(out, [7; 4]);
    assert_eq!(unpack_raw10(2, 2, &[25, 25, 25, 26, 37], &mut out), Ok(()));
    assert_eq!(out, SECOND);
}

#[test]
fn pair() {
    let (refused, above) = (refused(Call::PairFigures), above(Call::PairFigures));
    let figures = |p, variance, r, noise| PairFigures {
        n: 4,
        variance: Variance {
            exact: unsigned(p, 32),
            figure: variance,
        },
        r,
        noise,
    };
    assert_eq!(
        pair_figures(SMALL, &[0; 4], &FIRST, &SECOND),
        Ok(figures(4, 0.125, 90, 0.3515625))
    );
    // one buffer may be lent twice to be read. In K1 p equals n; here it does not
    assert_eq!(
        pair_figures(SMALL, &[0; 4], &FIRST, &FIRST),
        Ok(figures(0, 0.0, 0, 0.0))
    );

    // each with all right that is tested before it, and something wrong that is tested after it
    let refuse = |window, mask: &[u8], second: &[u16], refusal| {
        assert_eq!(pair_figures(window, mask, &FIRST, second), refusal);
    };
    refuse(Window { width: 3, ..DULL }, &[], &[], refused(1, 0));
    refuse(DULL, &[], &[], refused(2, 0));
    refuse(SMALL, &[0, 4, 0, 0], &SECOND[..3], refused(4, 0));
    refuse(SMALL, &[0, 4, 0, 0], &[1024; 4], refused(5, 1));
    refuse(SMALL, &[0, 1, 1, 1], &[1024; 4], above(0, 1));
    refuse(
        SMALL,
        &[0, 1, 1, 1],
        &[0, 65535, 65535, 65535],
        refused(7, 0),
    );
}

/// Both frames are counted, whichever has the place.
#[test]
fn pair_over() {
    let above = above(Call::PairFigures);
    counts_over(Call::PairFigures, 4, |mask, frame| {
        pair_figures(SMALL, mask, frame, &FIRST)
    });
    counts_over(Call::PairFigures, 4, |mask, frame| {
        pair_figures(SMALL, mask, &FIRST, frame)
    });
    let dim = Window {
        full_scale: 101,
        ..SMALL
    };
    assert_eq!(pair_figures(dim, &[0; 4], &FIRST, &SECOND), above(2, 4));
    assert_eq!(
        pair_figures(dim, &[0, 0, GAP, 0], &FIRST, &SECOND),
        above(3, 2)
    );
    assert_eq!(
        pair_figures(SMALL, &[0; 4], &[0, 0, 0, 1024], &[1024, 1024, 0, 0]),
        above(3, 3)
    );
    // one buffer lent twice is two frames
    assert_eq!(pair_figures(dim, &[0; 4], &FIRST, &FIRST), above(2, 4));
}

#[test]
fn dark() {
    let refused = refused(Call::DarkLevel);
    assert_eq!(
        dark_level(SMALL, 64, &[0; 4], &[60, 64, 64, 64]),
        Ok(signed(-4, 4))
    );
    assert_eq!(
        dark_level(SMALL, 1023, &[0; 4], &[1023; 4]),
        Ok(signed(0, 4))
    );
    assert_eq!(dark_level(SMALL, 1024, &[0; 4], &[1023; 4]), refused(3, 0));
    assert_eq!(dark_level(SMALL, 64, &[], &[]), refused(4, 0));
    assert_eq!(
        dark_level(SMALL, 64, &[GAP, DEFECT, FILLED, GAP], &[1024; 4]),
        refused(7, 0)
    );
    counts_over(Call::DarkLevel, 4, |mask, frame| {
        dark_level(SMALL, 64, mask, frame)
    });
}

/// What a stack holds at a site: the sum of its samples, that of their squares, the least and the greatest.
type Held = (u32, u32, u16, u16);

/// A stack of SMALL that holds something at one site, and 0 at all others.
fn stack_at(site: usize, frames: u64, (sum, square, least, greatest): Held) -> Stack {
    let mut stack = Stack::new(SMALL);
    stack.frames = frames;
    stack.sums[site] = sum;
    stack.squares[site] = square;
    stack.least[site] = least;
    stack.greatest[site] = greatest;
    stack
}

/// A gap at site 3, where a stack may hold anything.
const GAP_LAST: [u8; 4] = [SURVEYED, SURVEYED, SURVEYED, GAP];
const BLINKS: [[u16; 4]; 2] = [[100, 101, 102, 65535], [101, 101, 99, 0]];

/// Both frames in, and at the gap what no frames give.
fn both_in() -> Stack {
    Stack {
        frames: 2,
        sums: vec![201, 202, 201, 7],
        squares: vec![20201, 20402, 20205, 8],
        least: vec![100, 101, 99, 10],
        greatest: vec![101, 101, 102, 9],
    }
}

#[test]
fn stack() {
    let mut stack = stack_at(3, 0, (7, 8, 10, 9));
    let mut turned = stack.clone();
    let add = |frame, stack: &mut Stack| stack_add(SMALL, &GAP_LAST, frame, stack);
    assert_eq!(add(&BLINKS[0], &mut stack), Ok(1));
    let one_in = Stack {
        frames: 1,
        sums: vec![100, 101, 102, 7],
        squares: vec![10000, 10201, 10404, 8],
        least: vec![100, 101, 102, 10],
        greatest: vec![100, 101, 102, 9],
    };
    assert_eq!(stack, one_in);
    assert_eq!(add(&BLINKS[1], &mut stack), Ok(2));
    assert_eq!(stack, both_in());
    assert_eq!(add(&BLINKS[1], &mut turned), Ok(1));
    assert_eq!(add(&BLINKS[0], &mut turned), Ok(2));
    assert_eq!(turned, both_in());
    counts_over(Call::StackAdd, 4, |mask, frame| {
        stack_add(SMALL, mask, frame, &mut Stack::new(SMALL))
    });
}

#[test]
fn stack_figures() {
    let variance = Variance {
        exact: unsigned(10, 12),
        figure: 10.0 / 12.0,
    };
    assert_eq!(stack_variance(SMALL, &GAP_LAST, &both_in()), Ok(variance));
    for (spread, count) in [(1, 2), (2, 1), (3, 1), (4, 0), (4095, 0)] {
        let counted = blinking_sites(SMALL, spread, &GAP_LAST, &both_in());
        assert_eq!(counted, Ok(count));
    }
    // no surveyed site is no refusal
    assert_eq!(blinking_sites(SMALL, 1, &[GAP; 4], &both_in()), Ok(0));
}

/// Each with all right that is tested before it, and something wrong that is tested after it.
#[test]
fn stack_refused() {
    let (refused, above) = (refused(Call::StackAdd), above(Call::StackAdd));
    let add = |window, frames, mask: &[u8], frame: &[u16], refusal| {
        let lent = stack_at(0, frames, (0, 0, 0, 1024));
        let mut stack = lent.clone();
        assert_eq!(stack_add(window, mask, frame, &mut stack), refusal);
        assert_eq!(stack, lent);
    };
    add(Window { width: 3, ..DULL }, 101, &[], &[], refused(1, 0));
    add(DULL, 101, &[], &[], refused(2, 0));
    add(SMALL, 101, &[], &[], refused(3, 0));
    add(SMALL, 100, &[0, 4, 0, 0], &[], refused(4, 0));
    add(SMALL, 100, &[], &[1024; 4], refused(4, 0));
    add(SMALL, 100, &[0, 4, 0, 0], &[1024; 4], refused(5, 1));
    add(SMALL, 100, &[0; 4], &[0, 1024, 1024, 0], above(1, 2));
    add(SMALL, 100, &[0; 4], &[0; 4], refused(11, 0));
    add(SMALL, 100, &[GAP, 0, 0, 0], &[0; 4], refused(12, 0));
    // what is offered to 99 frames is the hundredth
    let mut stack = stack_at(0, 99, (0, 0, 0, 0));
    assert_eq!(stack_add(SMALL, &[0; 4], &[0; 4], &mut stack), Ok(100));
}

#[test]
fn stack_variance_refused() {
    let refused = refused(Call::StackVariance);
    let vary = |window, frames, mask: &[u8], refusal| {
        let stack = stack_at(0, frames, (0, 0, 0, 1024));
        assert_eq!(stack_variance(window, mask, &stack), refusal);
    };
    vary(Window { height: 3, ..DULL }, 0, &[], refused(1, 0));
    vary(DULL, 0, &[], refused(2, 0));
    vary(SMALL, 0, &[], refused(3, 0));
    vary(SMALL, 101, &[], refused(3, 0));
    vary(SMALL, 1, &[], refused(4, 0));
    vary(SMALL, 1, &[0, 0, 0, 4], refused(5, 3));
    vary(SMALL, 1, &[0; 4], refused(7, 0));
    vary(SMALL, 2, &[GAP; 4], refused(7, 0));
    vary(SMALL, 2, &[0; 4], refused(11, 0));
}

#[test]
fn blinking_refused() {
    let refused = refused(Call::BlinkingSites);
    let count = |window, frames, spread, mask: &[u8], refusal| {
        let stack = stack_at(0, frames, (0, 0, 0, 1024));
        assert_eq!(blinking_sites(window, spread, mask, &stack), refusal);
    };
    count(Window { width: 130, ..DULL }, 0, 0, &[], refused(1, 0));
    count(DULL, 0, 0, &[], refused(2, 0));
    for (frames, spread) in [(0, 1), (101, 1), (1, 0), (1, 4096), (1, u64::MAX)] {
        count(SMALL, frames, spread, &[], refused(3, 0));
    }
    for (frames, spread) in [(1, 1), (100, 4095)] {
        count(SMALL, frames, spread, &[], refused(4, 0));
        count(SMALL, frames, spread, &[0, 0, 4, 4], refused(5, 2));
        count(SMALL, frames, spread, &[0; 4], refused(11, 0));
        count(SMALL, frames, spread, &[GAP, 0, 0, 0], Ok(0));
    }
}

/// The numbers with which adding a black frame, the variance and the count of blinking sites refuse a stack, 0 where
/// they accept it.
fn verdicts(window: Window, mask: &[u8], stack: &Stack) -> [u64; 3] {
    let black = vec![0; mask.len()];
    let mut added = stack.clone();
    let add = stack_add(window, mask, &black, &mut added).map(|_| ());
    assert_eq!(add.is_err(), added == *stack);
    let variance = stack_variance(window, mask, stack).map(|_| ());
    let blinking = blinking_sites(window, 4095, mask, stack).map(|_| ());
    [add, variance, blinking].map(|answer| answer.map_or_else(|refusal| refusal.number, |()| 0))
}

/// Each arm of 11 that decides alone, at full scale 1: so many frames, an impossible stack, and a possible one a unit
/// or two from it.
const IMPOSSIBLE: [(u64, Held, Held); 11] = [
    (0, (0, 1, 0, 0), (0, 0, 0, 0)), // squares
    (0, (0, 0, 0, 1), (0, 0, 0, 0)), // greatest, with no frame in
    (1, (0, 0, 0, 2), (0, 0, 0, 1)), // greatest above full scale
    (1, (0, 0, 1, 1), (0, 0, 0, 1)), // sum below frames * least
    (1, (1, 1, 0, 0), (1, 1, 0, 1)), // sum above frames * greatest
    (1, (1, 0, 0, 1), (1, 1, 0, 1)), // frames * squares below the square of the sum
    (2, (0, 3, 0, 0), (0, 2, 0, 0)), // the same with two frames in
    (2, (0, 0, 0, 2), (0, 0, 0, 1)),
    (2, (1, 1, 1, 1), (2, 2, 1, 1)),
    (2, (1, 1, 0, 0), (1, 1, 0, 1)),
    (2, (2, 1, 0, 1), (2, 2, 0, 1)),
];

/// 11 in the three calls, at each surveyed site and at no gap.
#[test]
fn impossible_stacks() {
    let dim = Window {
        full_scale: 1,
        ..SMALL
    };
    for (frames, impossible, possible) in IMPOSSIBLE {
        // no frame in is 3 in the variance and the count, one frame in is 7 in the variance
        let (accepted, refused) = match frames {
            0 => ([0, 3, 3], [11, 3, 3]),
            1 => ([0, 7, 0], [11, 7, 11]),
            _ => ([0, 0, 0], [11, 11, 11]),
        };
        for site in 0..4 {
            let stack = stack_at(site, frames, impossible);
            let mut mask = [SURVEYED; 4];
            assert_eq!(verdicts(dim, &mask, &stack), refused);
            let near = stack_at(site, frames, possible);
            assert_eq!(verdicts(dim, &mask, &near), accepted);
            mask[site] = GAP;
            assert_eq!(verdicts(dim, &mask, &stack), accepted);
        }
    }
}

/// Each list is asked for its length; a stack of any window is made, and refused where the window is.
#[test]
fn stack_lists() {
    let shorten: [fn(&mut Stack); 4] = [
        |stack| stack.sums.truncate(3),
        |stack| stack.squares.truncate(3),
        |stack| stack.least.truncate(3),
        |stack| stack.greatest.truncate(3),
    ];
    for shorten in shorten {
        let mut stack = stack_at(0, 2, (0, 0, 0, 0));
        shorten(&mut stack);
        assert_eq!(verdicts(SMALL, &[0; 4], &stack), [4; 3]);
    }
    for side in [0, 3, 130, usize::MAX] {
        for window in [window(side, 2), window(2, side)] {
            assert_eq!(verdicts(window, &[], &Stack::new(window)), [1; 3]);
        }
    }
    let great = window(128, 128);
    let mut stack = Stack::new(great);
    assert_eq!(verdicts(great, &[0; 128 * 128], &stack), [0, 3, 3]);
    stack.frames = 2;
    assert_eq!(verdicts(great, &[0; 128 * 128], &stack), [0; 3]);
}

type Pattern = fn(Window, u64, &[u8], &[u32]) -> Result<PatternNoise, Refusal>;

/// Twelve lines, two sites long; line 6 has 110, or 90, all others 100.
fn pattern(name: Call, call: Pattern, window: Window, line: [usize; 2]) {
    let refused = refused(name);
    let mut sums = [100; 24];
    let noise = PatternNoise {
        level_squared: unsigned(800, 46047276),
        max: unsigned(200, 20460),
    };
    for stripe in [110, 90] {
        for site in line {
            sums[site] = stripe;
        }
        assert_eq!(call(window, 1, &[0; 24], &sums), Ok(noise));
    }
    let turned = self::window(window.height, window.width);
    assert_eq!(call(turned, 1, &[0; 24], &sums), refused(9, 0));
    assert_eq!(call(window, 0, &[0; 24], &sums), refused(3, 0));
    assert_eq!(call(window, 1, &[0; 24], &sums[..23]), refused(4, 0));
    let mut mask = [0; 24];
    mask[3] = GAP;
    assert_eq!(call(window, 1, &mask, &sums), refused(8, 0));
    mask[5] = 4;
    assert_eq!(call(window, 1, &mask, &sums), refused(5, 5));
    sums[0] = 1024;
    assert_eq!(call(window, 1, &[0; 24], &sums), refused(11, 0));
}

#[test]
fn vertical_pattern() {
    let window = window(12, 2);
    pattern(Call::PatternVertical, pattern_vertical, window, [6, 18]);
}

#[test]
fn horizontal_pattern() {
    let window = window(2, 12);
    pattern(
        Call::PatternHorizontal,
        pattern_horizontal,
        window,
        [12, 13],
    );
}

/// The lone site of K6 and K7, on both sides of the default and of 28.
#[test]
fn thresholds() {
    let found = |threshold, sample| {
        let mut frame = [64; 16];
        frame[5] = sample;
        find_defects(window(4, 4), threshold, &[0; 16], &frame, &mut [9; 16])
    };
    for (threshold, least) in [(0, 96), (24, 96), (28, 102)] {
        assert_eq!(found(threshold, least - 1), Ok(0));
        assert_eq!(found(threshold, least), Ok(1));
    }
}

#[test]
fn defects_and_repair() {
    let refused = refused(Call::FindDefects);
    let (not_repaired, above) = (self::refused(Call::Repair), above(Call::Repair));
    let window = window(4, 4);
    let mut frame = [64; 16];
    frame[5] = 102;
    let mut found = [9; 16];
    assert_eq!(
        find_defects(window, 4096, &[0; 16], &frame, &mut found),
        refused(3, 0)
    );
    assert_eq!(
        find_defects(window, 28, &[0; 16], &frame, &mut found[1..]),
        refused(4, 0)
    );
    assert_eq!(
        find_defects(window, 28, &[4; 16], &frame, &mut found),
        refused(5, 0)
    );
    assert_eq!(found, [9; 16]);
    assert_eq!(
        find_defects(window, 28, &[0; 16], &frame, &mut found),
        Ok(1)
    );
    let mut one = [0; 16];
    one[5] = DEFECT;
    assert_eq!(found, one);

    let (mut samples, mut codes) = ([9; 16], [9; 16]);
    let high = [1024; 16];
    assert_eq!(
        repair(window, &found, &high, &mut samples, &mut codes),
        above(0, 15)
    );
    assert_eq!(
        repair(window, &found, &frame, &mut samples[1..], &mut codes),
        not_repaired(4, 0)
    );
    assert_eq!(
        repair(window, &found, &frame, &mut samples, &mut codes[1..]),
        not_repaired(4, 0)
    );
    assert_eq!((samples, codes), ([9; 16], [9; 16]));
    assert_eq!(
        repair(window, &found, &frame, &mut samples, &mut codes),
        Ok(1)
    );
    one[5] = FILLED;
    assert_eq!((samples, codes), ([64; 16], one));
    counts_over(Call::FindDefects, 16, |mask, frame| {
        find_defects(window, 28, mask, frame, &mut [9; 16])
    });
    counts_over(Call::Repair, 16, |mask, frame| {
        repair(window, mask, frame, &mut [9; 16], &mut [9; 16])
    });
}

type Lines = fn(Window, &[u8], &[u16], &mut [u8]) -> Result<(), Refusal>;

/// Nine lines to a plane; one site is at 103, all others at 100.
fn lines(name: Call, call: Lines, window: Window, site: usize, mark: usize) {
    let (refused, above) = (refused(name), above(name));
    let mut frame = [100; 36];
    frame[site] = 103;
    let turned = self::window(window.height, window.width);
    let mut marks = [9; 36];
    assert_eq!(
        call(turned, &[0; 36], &frame, &mut marks[..4]),
        refused(9, 0)
    );
    assert_eq!(
        call(window, &[0; 36], &frame, &mut marks[1..]),
        refused(4, 0)
    );
    assert_eq!(
        call(window, &[0; 36], &[1024; 36], &mut marks),
        above(0, 36)
    );
    assert_eq!(marks, [9; 36]);
    assert_eq!(call(window, &[0; 36], &frame, &mut marks), Ok(()));
    let mut one = [0; 36];
    one[mark] = 1;
    assert_eq!(marks, one);
    counts_over(name, 36, |mask, frame| {
        call(window, mask, frame, &mut [9; 36])
    });
}

#[test]
fn rows() {
    let window = window(2, 18);
    lines(Call::DefectiveRows, defective_rows, window, 17, 13);
}

#[test]
fn columns() {
    let window = window(18, 2);
    lines(Call::DefectiveColumns, defective_columns, window, 26, 22);
}

#[test]
fn colour() {
    let refused = refused(Call::ColourRatios);
    let window = window(64, 48);
    // by parity of row and column: 65, 66 / 68, 72, so 1, 2 / 4, 8 above black
    let frame: Vec<u16> = (0..64 * 48)
        .map(|site| [65, 66, 68, 72][site / 64 % 2 * 2 + site % 2])
        .collect();
    let mask = vec![0; 64 * 48];
    let once = 768 * 768;
    for (order, gr, r, b, gb) in [
        (BayerOrder::R, 2, 1, 8, 4),
        (BayerOrder::Gr, 1, 2, 4, 8),
        (BayerOrder::B, 4, 8, 1, 2),
        (BayerOrder::Gb, 8, 4, 2, 1),
    ] {
        let to_gr = |x: i64| signed(x * once, gr * once as u64);
        let ratios = ColourRatios {
            r: to_gr(r),
            b: to_gr(b),
            gb: to_gr(gb),
        };
        assert_eq!(colour_ratios(window, 64, order, &mask, &frame), Ok(ratios));
    }
    assert_eq!(
        colour_ratios(window, 1024, BayerOrder::R, &mask, &frame),
        refused(3, 0)
    );
    assert_eq!(
        colour_ratios(window, 64, BayerOrder::R, &mask[1..], &frame),
        refused(4, 0)
    );
    assert_eq!(
        colour_ratios(window, 66, BayerOrder::R, &mask, &frame),
        refused(10, 0)
    );
    assert_eq!(
        colour_ratios(window, 64, BayerOrder::R, &[GAP; 64 * 48], &frame),
        refused(7, 0)
    );
    assert_eq!(
        colour_ratios(SMALL, 64, BayerOrder::R, &[GAP; 4], &FIRST),
        refused(9, 0)
    );
    // outside the centres too, and where the window would get 9
    let tall = self::window(64, 52);
    for (window, sites) in [(tall, 64 * 52), (SMALL, 4)] {
        counts_over(Call::ColourRatios, sites, |mask, frame| {
            colour_ratios(window, 64, BayerOrder::R, mask, frame)
        });
    }
}

/// 64 x 48 with R at site 0: R 164, Gr and Gb 264, B 114.
const LEVELS: [u16; 4] = [164, 264, 264, 114];

fn even_colours() -> Vec<u16> {
    (0..64 * 48)
        .map(|site| LEVELS[site / 64 % 2 * 2 + site % 2])
        .collect()
}

/// Their totals and counts with every site surveyed: of each plane four blocks, then the centre.
fn even_table() -> (Vec<u32>, Vec<u32>) {
    let sites = |entry: usize| if entry % 5 == 4 { 768 } else { 192 };
    (
        (0..20)
            .map(|entry| sites(entry) * u32::from(LEVELS[entry / 5]))
            .collect(),
        (0..20).map(sites).collect(),
    )
}

/// The sites of plane (0,0), R's, in the first block.
fn first_block() -> impl Iterator<Item = usize> {
    (0..192).map(|i| i / 16 * 2 * 64 + i % 16 * 2)
}

#[test]
fn shading_tables() {
    let refused = refused(Call::ShadingTable);
    // 2 x 2 blocks, and columns and rows left over; the centre begins at column 1 and row 1 of a plane
    let window = window(70, 52);
    let sites = 70 * 52;
    let (mut mask, mut frame) = (vec![0; sites], vec![10; sites]);
    (mask[0], frame[0]) = (GAP, 65535); // plane (0,0), in the first block alone
    frame[3 * 70 + 2] = 17; // plane (1,0), in the first block and the centre
    frame[2 * 70 + 33 * 2 - 1] = 15; // plane (0,1), in the centre alone
    frame[sites - 1] = 1023; // plane (1,1), in neither
    let (mut totals, mut counts) = (vec![9; 20], vec![8; 20]);
    let spared = |mask: &[u8], frame: &[u16], totals: &mut [u32], counts: &mut [u32]| {
        let answer = shading_table(window, mask, frame, totals, counts);
        assert!(totals.iter().all(|total| *total == 9));
        assert!(counts.iter().all(|count| *count == 8));
        answer
    };
    for answer in [
        spared(&mask[1..], &frame, &mut totals, &mut counts),
        spared(&mask, &frame[1..], &mut totals, &mut counts),
        spared(&mask, &frame, &mut totals[1..], &mut counts),
        spared(&mask, &frame, &mut totals, &mut counts[1..]),
    ] {
        assert_eq!(answer, refused(4, 0));
    }
    assert_eq!(
        shading_table(window, &mask, &frame, &mut totals, &mut counts),
        Ok(())
    );
    let (mut all_totals, mut all_counts) = (vec![1920; 20], vec![192; 20]);
    for centre in [4, 9, 14, 19] {
        (all_totals[centre], all_counts[centre]) = (7680, 768);
    }
    (all_totals[0], all_counts[0]) = (1910, 191);
    (all_totals[9], all_totals[10], all_totals[14]) = (7685, 1927, 7687);
    assert_eq!((totals, counts), (all_totals, all_counts));

    // the lengths are needed where 9 follows, and a sample above full scale is met first
    for (window, entries) in [
        (self::window(62, 48), 12),
        (self::window(64, 46), 12),
        (SMALL, 4),
    ] {
        let sites = window.width * window.height;
        let call = |entries: usize| {
            let (mut totals, mut counts) = (vec![9; entries], vec![9; entries]);
            shading_table(
                window,
                &vec![GAP; sites],
                &vec![0; sites],
                &mut totals,
                &mut counts,
            )
        };
        assert_eq!(call(entries), refused(9, 0));
        assert_eq!(call(20), refused(4, 0));
    }
    for (window, entries) in [(window, 20), (SMALL, 4)] {
        counts_over(
            Call::ShadingTable,
            window.width * window.height,
            |mask, frame| {
                shading_table(
                    window,
                    mask,
                    frame,
                    &mut vec![9; entries],
                    &mut vec![9; entries],
                )
            },
        );
    }
}

#[test]
fn shading_recoded() {
    let (refused, above) = (refused(Call::ShadingRecode), above(Call::ShadingRecode));
    let window = window(64, 48);
    let (mut mask, mut frame) = (vec![0; 64 * 48], even_colours());
    let (mut totals, mut counts) = even_table();
    let (even_totals, even_counts) = even_table();
    (mask[9], mask[10], mask[11], frame[10], frame[11]) = (4, GAP, GAP, 1024, 65535);
    let lent = mask.clone();

    // each with all right that is tested before it, and something wrong that is tested after it
    let dull = Window {
        full_scale: 0,
        ..window
    };
    let mut refuse = |window, site, code, cut: [usize; 4], refusal: Result<(), Refusal>| {
        let answer = shading_recode(
            window,
            site,
            code,
            &mut mask[cut[0]..],
            &frame[cut[1]..],
            &mut totals[cut[2]..],
            &mut counts[cut[3]..],
        );
        assert_eq!(answer, refusal);
        assert_eq!(
            (&mask, &totals, &counts),
            (&lent, &even_totals, &even_counts)
        );
    };
    refuse(
        Window { width: 63, ..dull },
        64 * 48,
        4,
        [1; 4],
        refused(1, 0),
    );
    refuse(dull, 64 * 48, 4, [1; 4], refused(2, 0));
    refuse(window, 64 * 48, 4, [1; 4], refused(3, 0));
    refuse(window, usize::MAX, 4, [1; 4], refused(3, 0));
    for cut in [[1, 0, 0, 0], [0, 1, 0, 0], [0, 0, 1, 0], [0, 0, 0, 1]] {
        refuse(window, 10, 4, cut, refused(4, 0));
    }
    refuse(window, 10, 4, [0; 4], refused(5, 10));
    refuse(window, 9, 0, [0; 4], refused(5, 9));
    refuse(window, 10, 0, [0; 4], above(10, 1));

    // a bad code elsewhere, and a gap's sample, are not asked for
    let mut recode = |site, code| {
        shading_recode(
            window,
            site,
            code,
            &mut mask,
            &frame,
            &mut totals,
            &mut counts,
        )
        .unwrap();
        (mask[site], totals.clone(), counts.clone())
    };
    let even = |code| (code, even_totals.clone(), even_counts.clone());
    assert_eq!(recode(11, DEFECT), even(DEFECT));
    let (mut less, mut fewer) = even_table();
    (less[15], less[19]) = (less[15] - 114, less[19] - 114);
    (fewer[15], fewer[19]) = (191, 767);
    assert_eq!(recode(65, GAP), (GAP, less.clone(), fewer.clone()));
    assert_eq!(recode(65, FILLED), (FILLED, less, fewer));
    assert_eq!(recode(65, SURVEYED), even(SURVEYED));

    // a table that fits no mask is amended modulo 2^32
    let (mut totals, mut counts) = (vec![0; 20], vec![u32::MAX; 20]);
    let mut again = |code| {
        shading_recode(window, 0, code, &mut mask, &frame, &mut totals, &mut counts).unwrap();
        (totals[0], totals[4], counts[0], counts[4])
    };
    assert_eq!(
        again(GAP),
        (u32::MAX - 163, u32::MAX - 163, u32::MAX - 1, u32::MAX - 1)
    );
    assert_eq!(again(SURVEYED), (0, 0, u32::MAX, u32::MAX));

    // 9 comes last: a code above 3 and a sample above full scale are met first
    let small = |site, code, mask: &mut [u8; 4]| {
        shading_recode(
            SMALL,
            site,
            code,
            mask,
            &[1024, 0, 0, 0],
            &mut [9; 4],
            &mut [9; 4],
        )
    };
    assert_eq!(small(1, 4, &mut [0; 4]), refused(5, 1));
    assert_eq!(small(0, 1, &mut [0; 4]), above(0, 1));
    let mut mask = [0; 4];
    assert_eq!(small(1, 1, &mut mask), refused(9, 0));
    assert_eq!(mask, [0; 4]);
}

/// What judging leaves: numerators, denominators, refusals, fails.
type Judged = (Vec<u64>, Vec<u64>, Vec<u8>, Vec<u8>);

fn judged(
    black_level: u64,
    order: BayerOrder,
    limit: u64,
    totals: &[u32],
    counts: &[u32],
) -> Result<Judged, Refusal> {
    let (mut up, mut down, mut refusals, mut fails) =
        (vec![9; 8], vec![9; 8], vec![9; 8], vec![9; 8]);
    let answer = shading_judge(
        window(64, 48),
        black_level,
        order,
        limit,
        totals,
        counts,
        &mut up,
        &mut down,
        &mut refusals,
        &mut fails,
    );
    if answer.is_err() {
        assert_eq!((&up, &down), (&vec![9; 8], &vec![9; 8]));
        assert_eq!((&refusals, &fails), (&vec![9; 8], &vec![9; 8]));
    }
    answer.map(|()| (up, down, refusals, fails))
}

#[test]
fn shading_judged() {
    let (mut totals, mut counts) = even_table();
    // c and b of a ratio, levels above black
    let under = |at_centre: u64, in_block: u64| at_centre * 768 * 768 * in_block * 192 * 192;
    let even = |r_gr, b_gb| [[r_gr; 4], [b_gb; 4]].concat();
    // which planes a ratio takes is told here; which of them is above, below
    for (order, r, gr, b, gb) in [
        (BayerOrder::R, 100, 200, 50, 200),
        (BayerOrder::Gr, 200, 100, 200, 50),
        (BayerOrder::B, 50, 200, 100, 200),
        (BayerOrder::Gb, 200, 50, 200, 100),
    ] {
        let denominators = even(under(r, gr), under(b, gb));
        assert_eq!(
            judged(64, order, 1, &totals, &counts),
            Ok((vec![0; 8], denominators, vec![0; 8], vec![0; 8]))
        );
    }

    // R at 184 in the first block: a seventh off, the others a twenty-first
    (totals[0], totals[4]) = (192 * 184, 768 * 169);
    let denominators = even(under(105, 200), under(50, 200));
    let mut numerators = vec![0; 8];
    numerators[0] = denominators[0] / 7;
    numerators[1..4].fill(denominators[0] / 21);
    for (limit, fail) in [(2, 1), (3, 0)] {
        assert_eq!(
            judged(64, BayerOrder::R, limit, &totals, &counts),
            Ok((
                numerators.clone(),
                denominators.clone(),
                vec![0; 8],
                [&[fail][..], &[0; 7]].concat()
            ))
        );
    }

    // plane (0,0) as a green: an eighth off, just two sixteenths
    for (order, first) in [(BayerOrder::Gr, 0), (BayerOrder::Gb, 4)] {
        for (limit, fail) in [(1, 1), (2, 0)] {
            let (up, down, _, fails) = judged(64, order, limit, &totals, &counts).unwrap();
            assert_eq!((up[first], down[first]), (under(30, 100), under(200, 120)));
            assert_eq!(fails[first], fail);
        }
    }

    // no surveyed B in the last block, and Gr of the second at black: both alone, with zeros
    (totals[18], counts[18]) = (0, 0);
    (totals[19], counts[19]) = (576 * 114, 576);
    totals[6] = 192 * 64;
    let (up, down, refusals, fails) = judged(64, BayerOrder::R, 2, &totals, &counts).unwrap();
    assert_eq!(refusals, [0, 10, 0, 0, 0, 0, 0, 7]);
    for refused in [1, 7] {
        assert_eq!((up[refused], down[refused], fails[refused]), (0, 0, 0));
    }
    assert_eq!(
        (up[0], down[0], fails[0]),
        (numerators[0], denominators[0], 1)
    );
    assert!([0, 2, 3, 4, 5, 6].iter().all(|&at| down[at] > 0));
}

#[test]
fn shading_not_judged() {
    let refused = refused(Call::ShadingJudge);
    let (totals, counts) = even_table();
    let order = BayerOrder::R;
    for (black_level, limit) in [(1024, 1), (64, 0), (64, 17), (64, u64::MAX)] {
        assert_eq!(
            judged(black_level, order, limit, &totals[1..], &counts),
            refused(3, 0)
        );
    }
    assert_eq!(judged(64, order, 1, &totals[1..], &counts), refused(4, 0));
    assert_eq!(judged(64, order, 1, &totals, &counts[1..]), refused(4, 0));
    for short in 0..4 {
        let long = |at: usize| if at == short { 7 } else { 8 };
        let answer = shading_judge(
            window(64, 48),
            64,
            order,
            1,
            &totals,
            &counts,
            &mut vec![9; long(0)],
            &mut vec![9; long(1)],
            &mut vec![9; long(2)],
            &mut vec![9; long(3)],
        );
        assert_eq!(answer.unwrap_err(), refused(4, 0).unwrap_err());
    }
    // one more at each entry, and 11 before 7
    for entry in 0..20 {
        let (mut more, mut none) = (counts.clone(), totals.clone());
        more[entry] += 1;
        none.fill(0);
        assert_eq!(judged(64, order, 1, &none, &more), refused(11, 0));
        let (mut above, mut few) = (totals.clone(), counts.clone());
        (above[entry], few[entry]) = (1, 0);
        assert_eq!(judged(64, order, 1, &above, &few), refused(11, 0));
        let mut high = totals.clone();
        high[entry] = counts[entry] * 1023;
        assert!(judged(64, order, 1, &high, &counts).is_ok());
        high[entry] += 1;
        assert_eq!(judged(64, order, 1, &high, &counts), refused(11, 0));
    }
    // 9 before 11: no list of a window that is too small is looked at
    let answer = shading_judge(
        SMALL,
        64,
        order,
        1,
        &[1; 4],
        &[0; 4],
        &mut [],
        &mut [],
        &mut [],
        &mut [],
    );
    assert_eq!(answer.unwrap_err(), refused(9, 0).unwrap_err());
}

#[test]
fn shading_table_owned() {
    let window = window(64, 48);
    let (mut mask, mut frame) = (vec![0; 64 * 48], even_colours());
    for site in first_block() {
        frame[site] = 184;
    }
    let mut table = ShadingTable::new(window, &mask, &frame).unwrap();
    let fresh = table.clone();
    let (mut totals, counts) = even_table();
    (totals[0], totals[4]) = (192 * 184, 768 * 169);
    assert_eq!(
        (table.window(), table.totals(), table.counts()),
        (window, &totals[..], &counts[..])
    );
    assert_eq!(ShadingTable::of_lists(window, totals, counts), table);

    let shading = table.judge(64, BayerOrder::R, 2).unwrap();
    assert_eq!((shading.rows(), shading.columns()), (2, 2));
    let block = shading.block(ShadingRatio::RGr, 0, 0).unwrap();
    assert_eq!(block.off, unsigned(65_229_815_808_000, 456_608_710_656_000));
    assert!(block.fails);
    assert!(!shading.passes());
    assert!(table.judge(64, BayerOrder::R, 3).unwrap().passes());

    for site in first_block() {
        assert_eq!(table.recode(site, GAP, &mut mask, &frame), Ok(()));
    }
    assert_eq!(mask.iter().filter(|code| **code == GAP).count(), 192);
    assert_eq!(ShadingTable::new(window, &mask, &frame).unwrap(), table);
    let shading = table.judge(64, BayerOrder::R, 2).unwrap();
    let seven = refused::<BlockShading>(Call::ShadingJudge)(7, 0);
    assert_eq!(shading.block(ShadingRatio::RGr, 0, 0), seven);
    assert!(shading.block(ShadingRatio::BGb, 0, 0).is_ok());
    assert!(!shading.passes());
    for site in first_block() {
        assert_eq!(table.recode(site, SURVEYED, &mut mask, &frame), Ok(()));
    }
    assert_eq!(table, fresh);
    // refused, it stays
    let not_recoded = refused::<()>(Call::ShadingRecode);
    assert_eq!(
        table.recode(64 * 48, GAP, &mut mask, &frame),
        not_recoded(3, 0)
    );
    assert_eq!(table.recode(0, 4, &mut mask, &frame), not_recoded(5, 0));
    assert_eq!(table, fresh);
}

/// Rows and columns of blocks where they differ: 128 x 128 has five rows of four.
#[test]
fn shading_grid() {
    let window = window(128, 128);
    let mut frame = vec![100; 128 * 128];
    // R of one block, the third row's second: it alone fails in R/Gr
    for i in 0..192 {
        frame[(2 * 12 + i / 16) * 2 * 128 + (16 + i % 16) * 2] = 200;
    }
    let table = ShadingTable::new(window, &vec![0; 128 * 128], &frame).unwrap();
    assert_eq!(table.totals().len(), 84);
    let shading = table.judge(0, BayerOrder::R, 8).unwrap();
    assert_eq!((shading.rows(), shading.columns()), (5, 4));
    for row in 0..5 {
        for column in 0..4 {
            let fails = |ratio| shading.block(ratio, row, column).unwrap().fails;
            assert_eq!(fails(ShadingRatio::RGr), (row, column) == (2, 1));
            assert!(!fails(ShadingRatio::BGb));
        }
    }
    for (row, column) in [(5, 0), (0, 4)] {
        let outside = || shading.block(ShadingRatio::RGr, row, column);
        assert!(std::panic::catch_unwind(outside).is_err());
    }
}

/// Lists from elsewhere and windows out of range are refused, never a fault of the crate.
#[test]
fn shading_table_refused() {
    let not_made = refused::<ShadingTable>(Call::ShadingTable);
    for side in [0, 3, 130, usize::MAX] {
        assert_eq!(
            ShadingTable::new(window(side, 48), &[], &[]),
            not_made(1, 0)
        );
        assert_eq!(
            ShadingTable::new(window(64, side), &[], &[]),
            not_made(1, 0)
        );
    }
    assert_eq!(ShadingTable::new(window(64, 48), &[], &[]), not_made(4, 0));
    assert_eq!(ShadingTable::new(SMALL, &[0; 4], &FIRST), not_made(9, 0));

    let not_judged = refused::<Shading>(Call::ShadingJudge);
    let judge = |window, totals: &[u32], counts: &[u32]| {
        ShadingTable::of_lists(window, totals.to_vec(), counts.to_vec()).judge(64, BayerOrder::R, 1)
    };
    let (totals, mut counts) = even_table();
    assert_eq!(
        judge(window(64, usize::MAX), &totals, &counts),
        not_judged(1, 0)
    );
    assert_eq!(
        judge(window(64, 48), &totals, &counts[1..]),
        not_judged(4, 0)
    );
    counts[7] = 193;
    assert_eq!(judge(window(64, 48), &totals, &counts), not_judged(11, 0));
}

#[test]
fn jobs() {
    let (refused, above) = (refused(Call::Job), above(Call::Job));
    let stream = include_bytes!("../../../crates/job/stdin");
    let figures = JobFigures {
        sites: 4,
        variance: unsigned(4, 32),
        noise: unsigned(90, 256),
        dark: signed(150, 4),
    };
    assert_eq!(job(stream), Ok(figures));
    assert_eq!(job(&[]), refused(20, 0));
    assert_eq!(job(&stream[..12]), refused(20, 10));
    assert_eq!(job(&[stream.as_slice(), &[0]].concat()), refused(23, 46));
    let with = |at: usize, byte: u8| {
        let mut changed = stream.to_vec();
        changed[at] = byte;
        job(&changed)
    };
    assert_eq!(with(5, 3), refused(21, 5));
    assert_eq!(with(17, 3), refused(22, 15));
    assert_eq!(with(4, 3), refused(1, 0));
    assert_eq!(with(4, 66), refused(24, 0));
    assert_eq!(with(18, 4), refused(3, 0));

    // full scale 101 and a code at site 3, where both frames are above it, as at site 2
    let dim = |code: u8| {
        let mut changed = stream.to_vec();
        changed[13..15].copy_from_slice(&[0, 101]);
        changed[26] = code;
        job(&changed)
    };
    assert_eq!(dim(SURVEYED), above(2, 4));
    for code in [GAP, DEFECT, FILLED] {
        assert_eq!(dim(code), above(2, 2));
    }
    assert_eq!(dim(4), refused(5, 3));
}

/// A list of points by mean and variance; the exposures are the greatest there are, and change nothing.
fn points(of: &[(u64, u64)]) -> Vec<Point> {
    of.iter()
        .map(|&(mean, variance)| Point {
            exposure: u64::MAX,
            mean,
            variance,
        })
        .collect()
}

fn transfer(
    numerator: i64,
    denominator: u64,
    figure: f64,
    saturation: usize,
) -> Result<PhotonTransfer, Refusal> {
    Ok(PhotonTransfer {
        gain: Gain {
            exact: signed(numerator, denominator),
            figure,
        },
        saturation,
    })
}

#[test]
fn gain() {
    // variance is twice the mean from 1 to 3, and greatest twice outside
    let line = points(&[(9, 900), (100, 200), (200, 400), (300, 600), (9, 900)]);
    assert_eq!(
        photon_transfer(&line, 1, 3),
        transfer(120_000, 60_000, 2.0, 0)
    );
    assert_eq!(
        photon_transfer(&line[1..], 1, 2),
        transfer(20_000, 10_000, 2.0, 3)
    );
    let fall = points(&[(0, 1), (3, 0)]);
    assert_eq!(photon_transfer(&fall, 0, 1), transfer(-3, 9, -1.0 / 3.0, 0));
    let flat = photon_transfer(&points(&[(0, 7), (1, 7)]), 0, 1).unwrap();
    assert_eq!((flat.gain.exact, flat.saturation), (signed(0, 1), 0));
    assert_eq!(flat.gain.figure.to_bits(), 0);
}

#[test]
fn gain_refused() {
    let refused = refused(Call::PhotonTransfer);
    // each with all right that is tested before it, and something wrong that is tested after it
    let alike = points(&[(5, 6); 65]);
    for (count, first, last) in [(0, 0, 0), (65, 0, 0), (64, 1, 0), (64, 0, 64), (9, 9, 9)] {
        assert_eq!(photon_transfer(&alike[..count], first, last), refused(3, 0));
    }
    assert_eq!(
        photon_transfer(&alike[..9], usize::MAX, usize::MAX),
        refused(3, 0)
    );
    for beyond in [(65_521, 0), (0, (1 << 28) + 1)] {
        let list = points(&[(5, 6), (5, 6), beyond]);
        assert_eq!(photon_transfer(&list, 0, 0), refused(3, 0));
        assert_eq!(photon_transfer(&list, 1, 2), refused(3, 0));
    }
    assert_eq!(photon_transfer(&alike[..64], 63, 63), refused(7, 0));
    assert_eq!(photon_transfer(&alike[..64], 0, 63), refused(13, 0));
    // 32 points at 0 and 0, 32 at both limits
    let mut ends = points(&[(0, 0); 64]);
    ends[32..].fill(points(&[(65_520, 1 << 28)])[0]);
    assert_eq!(photon_transfer(&ends, 0, 63), refused(14, 0));
}

const CALLS: [Call; 18] = [
    Call::UnpackRaw10,
    Call::PairFigures,
    Call::DarkLevel,
    Call::StackAdd,
    Call::StackVariance,
    Call::BlinkingSites,
    Call::PatternVertical,
    Call::PatternHorizontal,
    Call::FindDefects,
    Call::Repair,
    Call::DefectiveRows,
    Call::DefectiveColumns,
    Call::ColourRatios,
    Call::ShadingTable,
    Call::ShadingRecode,
    Call::ShadingJudge,
    Call::PhotonTransfer,
    Call::Job,
];

fn told(call: Call, number: u64, over: u64) -> Refusal {
    Refusal {
        call,
        number,
        place: 3,
        over,
    }
}

const HEADER: &str = include_str!("../../../include/tippovrain.h");

/// The header's text on a C function: the comment before its declaration.
fn header_on(function: &str) -> &'static str {
    let before = &HEADER[..HEADER.find(&format!("uint64_t {function}(")).unwrap()];
    &before[before.rfind("/*").unwrap()..]
}

/// The numbers of the header's list of a C function's refusals: all that stand outside brackets.
fn header_numbers(function: &str) -> Vec<u64> {
    let (_, list) = header_on(function)
        .split_once("Refusals, in the order tested:")
        .unwrap();
    let mut depth = 0;
    let outside: String = list
        .chars()
        .filter(|letter| {
            depth += i32::from(*letter == '(') - i32::from(*letter == ')');
            depth == 0
        })
        .collect();
    let list = outside.split('.').next().unwrap();
    list.split(|letter: char| !letter.is_ascii_digit())
        .filter_map(|number| number.parse().ok())
        .collect()
}

/// Where the header has a list of a call's own.
#[test]
fn numbers_are_the_headers() {
    for (function, call) in [
        ("tip_unpack_raw10", Call::UnpackRaw10),
        ("tip_pair_figures", Call::PairFigures),
        ("tip_dark_level", Call::DarkLevel),
        ("tip_stack_add", Call::StackAdd),
        ("tip_stack_variance", Call::StackVariance),
        ("tip_blinking_sites", Call::BlinkingSites),
        ("tip_pattern_vertical", Call::PatternVertical),
        ("tip_find_defects", Call::FindDefects),
        ("tip_repair", Call::Repair),
        ("tip_defective_rows", Call::DefectiveRows),
        ("tip_colour_ratios", Call::ColourRatios),
        ("tip_shading_table", Call::ShadingTable),
        ("tip_shading_recode", Call::ShadingRecode),
        ("tip_shading_judge", Call::ShadingJudge),
        ("tip_photon_transfer", Call::PhotonTransfer),
    ] {
        assert_eq!(header_numbers(function), call.numbers(), "{function}");
    }
}

#[test]
fn each_function_is_a_call() {
    assert_eq!(HEADER.matches("\nuint64_t tip_").count(), CALLS.len());
}

/// A call has words of its own for each number that it gives, and one phrase for every other.
#[test]
fn words_for_each_number() {
    let unknown = told(Call::Job, 0, 0).meaning();
    for call in CALLS {
        let mut meanings = Vec::new();
        for number in 0..100 {
            let meaning = told(call, number, 0).meaning();
            assert_eq!(meaning != unknown, call.numbers().contains(&number));
            if meaning != unknown {
                meanings.push(meaning);
            }
        }
        meanings.sort();
        meanings.dedup();
        assert_eq!(meanings.len(), call.numbers().len(), "{call:?}");
    }
}

/// One number has the words of each call.
#[test]
fn words_of_the_call() {
    for (call, number, begins) in [
        (Call::DarkLevel, 3, "the black level is above"),
        (Call::Job, 3, "the black level is above"),
        (Call::FindDefects, 3, "the threshold is above 4095"),
        (Call::StackAdd, 3, "the frame count is above 100"),
        (Call::StackVariance, 3, "the frame count is not in 1"),
        (Call::BlinkingSites, 3, "the spread is not in 1 to 4095"),
        (Call::ShadingRecode, 3, "the site is outside"),
        (
            Call::ShadingJudge,
            3,
            "the black level is above full scale, in grey levels, or the limit",
        ),
        (Call::PhotonTransfer, 3, "the list is empty or"),
        (Call::ShadingRecode, 5, "the site's old or new mask code"),
        (Call::ShadingRecode, 6, "the site's sample is above"),
        (Call::PairFigures, 7, "fewer than 2 sites"),
        (Call::DarkLevel, 7, "no site is surveyed"),
        (Call::ColourRatios, 7, "the centre of some plane"),
        (Call::ShadingJudge, 7, "one of the ratio's two planes"),
        (Call::PhotonTransfer, 7, "fewer than 2 points"),
        (Call::PatternVertical, 9, "the width is below 12"),
        (Call::DefectiveRows, 9, "the height is below 18"),
        (Call::ShadingTable, 9, "the width is below 64"),
        (Call::ColourRatios, 10, "the Gr total, black level"),
        (
            Call::ShadingJudge,
            10,
            "black level taken off, the total of Gr, or",
        ),
        (Call::StackAdd, 11, "the stack cannot come from"),
        (Call::StackVariance, 11, "the stack cannot come from"),
        (Call::BlinkingSites, 11, "the stack cannot come from"),
        (Call::PatternHorizontal, 11, "a sum is above"),
        (Call::ShadingJudge, 11, "a count is above its sites"),
        (Call::PhotonTransfer, 13, "all chosen means are equal"),
        (Call::PhotonTransfer, 14, "numerator or denominator"),
    ] {
        let meaning = told(call, number, 0).meaning();
        assert!(meaning.starts_with(begins), "{meaning}");
    }
    let needed = |call| told(call, 4, 0).meaning();
    assert!(needed(Call::PairFigures).ends_with("width * height elements"));
    assert!(needed(Call::UnpackRaw10).contains("width * height * 5 / 4 bytes"));
    assert!(needed(Call::DefectiveRows).ends_with("2 * height marks"));
    assert!(needed(Call::DefectiveColumns).ends_with("2 * width marks"));
    let blocks = ", blocks being (width / 32) * (height / 24), each divided down";
    for (call, lengths) in [
        (Call::ShadingTable, "4 * (blocks + 1) totals and counts"),
        (Call::ShadingRecode, "4 * (blocks + 1) totals and counts"),
        (
            Call::ShadingJudge,
            "2 * blocks of each number that is written",
        ),
    ] {
        assert!(needed(call).ends_with(&format!("{lengths}{blocks}")));
    }
}

/// A place is said as what it counts, and not said where it is always 0.
#[test]
fn refusals_printed() {
    let begins = |call, number, over, text: &str| {
        let printed = told(call, number, over).to_string();
        assert!(printed.starts_with(text), "{printed}");
    };
    begins(Call::Job, 5, 0, "refused 5 at site 3: a mask code");
    begins(Call::Repair, 6, 1, "refused 6 at site 3: 1 sample above");
    begins(Call::Job, 6, 9, "refused 6 at site 3: 9 samples above");
    begins(Call::Job, 22, 0, "refused 22 at byte 3: the length of");
    begins(Call::Job, 24, 0, "refused 24: a side of the stream's");
    begins(Call::StackAdd, 12, 0, "refused 12: the stack is full");
    begins(Call::BlinkingSites, 5, 0, "refused 5 at site 3: a mask");
    begins(Call::BlinkingSites, 11, 0, "refused 11: the stack cannot");
    begins(
        Call::ShadingTable,
        6,
        2,
        "refused 6 at site 3: 2 samples above full scale, counted",
    );
    begins(
        Call::ShadingRecode,
        5,
        0,
        "refused 5 at site 3: the site's old or new",
    );
    begins(
        Call::ShadingRecode,
        6,
        1,
        "refused 6 at site 3: 1 sample above full scale, while",
    );
    begins(Call::ShadingJudge, 11, 0, "refused 11: a count is");
    begins(Call::PhotonTransfer, 3, 0, "refused 3: the list is");
    begins(
        Call::PhotonTransfer,
        20,
        0,
        "refused 20: this call does not",
    );
    // an answer can go where any error goes
    let refusal = pair_figures(SMALL, &[], &[], &[]).unwrap_err();
    let error: Box<dyn std::error::Error> = Box::new(refusal);
    assert!(error.to_string().starts_with("refused 4: a buffer"));
}
