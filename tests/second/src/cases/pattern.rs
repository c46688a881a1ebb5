//! Cases of pattern noise; vertical and horizontal run the same ones, turned.

use reference::pattern;
use reference::shared::Answer;

use super::dice::Dice;
use super::shapes::{self, Shape};
use super::spoil;
use super::stacks::{self, Stack};
use super::tally::{Case, Tally};
use super::windows;
use crate::library::{self, Lent};

#[derive(Clone, Copy, Debug, PartialEq)]
enum Lines {
    Columns,
    Rows,
}

#[derive(Clone, Debug, PartialEq)]
struct Pattern {
    lines: Lines,
    width: usize,
    height: usize,
    full_scale: u64,
    frames: u64,
    mask: Lent<u8>,
    sums: Lent<u32>,
}

impl Case for Pattern {
    fn reference(&mut self) -> Answer {
        let lent = pattern::Sums {
            width: self.width,
            height: self.height,
            full_scale: self.full_scale,
            frames: self.frames,
            mask: &self.mask,
            sums: &self.sums,
        };
        match self.lines {
            Lines::Columns => pattern::pattern_vertical(&lent),
            Lines::Rows => pattern::pattern_horizontal(&lent),
        }
    }

    fn library(&mut self) -> Answer {
        let lent = library::pattern::Sums {
            width: self.width,
            height: self.height,
            full_scale: self.full_scale,
            frames: self.frames,
            mask: &mut self.mask,
            sums: &mut self.sums,
        };
        match self.lines {
            Lines::Columns => library::pattern::pattern_vertical(lent),
            Lines::Rows => library::pattern::pattern_horizontal(lent),
        }
    }
}

#[derive(Clone, Copy, Debug, PartialEq)]
enum Program {
    Reference,
    Library,
}

impl Program {
    fn answer(self, stack: &mut Pattern) -> Answer {
        match self {
            Program::Reference => stack.reference(),
            Program::Library => stack.library(),
        }
    }
}

/// A stack and its negative in one program: the stack's figures are expected of the negative.
#[derive(Clone, Debug, PartialEq)]
struct Negative {
    program: Program,
    stack: Pattern,
    negative: Pattern,
}

impl Case for Negative {
    fn reference(&mut self) -> Answer {
        self.program.answer(&mut self.stack)
    }

    fn library(&mut self) -> Answer {
        self.program.answer(&mut self.negative)
    }
}

impl Lines {
    fn shape(self, count: usize, along: usize) -> Shape {
        match self {
            Lines::Columns => Shape {
                width: count,
                height: along,
            },
            Lines::Rows => Shape {
                width: along,
                height: count,
            },
        }
    }

    /// The line that a site lies in.
    fn of_site(self, site: usize, shape: Shape) -> usize {
        match self {
            Lines::Columns => site % shape.width,
            Lines::Rows => site / shape.width,
        }
    }
}

pub fn pattern_vertical(tally: &mut Tally, dice: &mut Dice) {
    round(Lines::Columns, tally, dice);
}

pub fn pattern_horizontal(tally: &mut Tally, dice: &mut Dice) {
    round(Lines::Rows, tally, dice);
}

fn of_stack(lines: Lines, stack: Stack) -> Pattern {
    Pattern {
        lines,
        width: stack.width,
        height: stack.height,
        full_scale: stack.full_scale,
        frames: stack.frames,
        mask: stack.mask,
        sums: stack.sums,
    }
}

/// A fully surveyed window whose sites of line i all hold `sum(i)`.
fn of_lines(
    lines: Lines,
    (count, along): (usize, usize),
    (full_scale, frames): (u64, u64),
    sum: impl Fn(usize) -> u64,
) -> Pattern {
    let shape = lines.shape(count, along);
    let sums = (0..shape.sites())
        .map(|site| sum(lines.of_site(site, shape)) as u32)
        .collect();
    Pattern {
        lines,
        width: shape.width,
        height: shape.height,
        full_scale,
        frames,
        mask: Lent::new("mask", vec![0; shape.sites()]),
        sums: Lent::new("sums", sums),
    }
}

fn frames(dice: &mut Dice) -> u64 {
    let any = dice.between(1, 100);
    dice.among(&[1, any, any, 100])
}

/// Sums anywhere, near one level but for a dark line, near one level, or one level a line.
fn of_sides(lines: Lines, count: usize, along: usize, dice: &mut Dice) -> Pattern {
    let (full_scale, frames) = (windows::full_scale(dice), frames(dice));
    let most = full_scale * frames;
    let levels: Vec<u64> = (0..count).map(|_| dice.between(0, most)).collect();
    let mut case = of_lines(lines, (count, along), (full_scale, frames), |i| levels[i]);
    let shape = lines.shape(count, along);
    let (style, dark) = (dice.below(4), dice.below(count));
    for (site, sum) in case.sums.iter_mut().enumerate() {
        let near = (levels[0] + dice.between(0, 9)).min(most) as u32;
        match style {
            0 => *sum = dice.between(0, most) as u32,
            1 if lines.of_site(site, shape) == dark => *sum = near / 2,
            1 | 2 => *sum = near,
            _ => (),
        }
    }
    case
}

fn legal(lines: Lines, dice: &mut Dice) -> Pattern {
    let most = dice.among(&[12, 14, 24, 128]);
    let count = shapes::even(dice, 12, most);
    let along = shapes::even(dice, 2, 16);
    of_sides(lines, count, along, dice)
}

fn round(lines: Lines, tally: &mut Tally, dice: &mut Dice) {
    published(lines, tally);
    single_lines(lines, tally, dice);
    dark_and_bright(lines, tally, dice);
    stripes(lines, tally, dice);
    slopes(lines, tally, dice);
    greatest(lines, tally);
    negatives(lines, tally, dice);
    sides(lines, tally, dice);
    sums_above(lines, tally, dice);
    codes(lines, tally, dice);
    stacks::common(tally, dice, lines.shape(12, 2), |tally, stack, _| {
        tally.run(of_stack(lines, stack));
    });
    spoil::every_set(tally, dice, |dice| legal(lines, dice), SPOILERS);
    for _ in 0..80 {
        tally.run(legal(lines, dice));
    }
    for &shape in shapes::GREAT {
        tally.run(of_sides(lines, shape.width, shape.height, dice));
    }
}

const SPOILERS: &[spoil::Spoiler<Pattern>] = &[
    |case, dice| {
        let count = shapes::even(dice, 2, 10);
        *case = of_sides(case.lines, count, 12, dice);
    },
    |case, dice| {
        let site = dice.below(case.sums.len());
        case.sums[site] = (case.frames * case.full_scale) as u32 + 1;
    },
    |case, dice| {
        let site = dice.below(case.mask.len());
        case.mask[site] = dice.between(1, 3) as u8;
    },
    |case, dice| spoil::code(&mut case.mask, dice),
    |case, dice| match dice.below(2) {
        0 => spoil::length(&mut case.mask, dice),
        _ => spoil::length(&mut case.sums, dice),
    },
    |case, dice| {
        let above = spoil::beyond(100, dice);
        case.frames = dice.among(&[0, above]);
    },
    |case, dice| case.full_scale = spoil::full_scale(dice),
    |case, dice| spoil::side(&mut case.width, &mut case.height, dice),
];

/// K8, K8 with the line dark (request c), and R14's two dark lines.
fn published(lines: Lines, tally: &mut Tally) {
    for level in [110, 90] {
        let one = |i| if i == 6 { level } else { 100 };
        tally.run(of_lines(lines, (12, 2), (1023, 1), one));
    }
    let two = |i| if i == 5 || i == 6 { 0 } else { 100 };
    tally.run(of_lines(lines, (12, 2), (1023, 1), two));
}

/// One brighter and one darker line at every index. The five at each end do not count themselves:
/// they show in the ten around a line that does.
fn single_lines(lines: Lines, tally: &mut Tally, dice: &mut Dice) {
    for count in [12, 14, 26, 128] {
        let along = shapes::even(dice, 2, 6);
        for line in 0..count {
            for level in [90, 110] {
                let bad = |i| if i == line { level } else { 100 };
                tally.run(of_lines(lines, (count, along), (4095, 1), bad));
            }
        }
    }
}

/// A dark and a bright line, side by side and far apart; the dark one is the greater, the bright
/// one, or neither.
fn dark_and_bright(lines: Lines, tally: &mut Tally, dice: &mut Dice) {
    for count in [12, 14, 26, 128] {
        let along = shapes::even(dice, 2, 6);
        for (dark, bright) in [(5, count - 6), (count - 6, 5)] {
            for (below, above) in [(10, 9), (9, 10), (10, 10)] {
                let mut levels = vec![100; count];
                levels[dark] -= below;
                levels[bright] += above;
                tally.run(of_lines(lines, (count, along), (1023, 1), |i| levels[i]));
            }
        }
    }
}

/// Full swing between stripes of one to six lines, and a slope in rounded steps.
fn stripes(lines: Lines, tally: &mut Tally, dice: &mut Dice) {
    for (full_scale, frames) in [(1, 1), (1, 100), (1023, 2), (4095, 1), (4095, 100)] {
        let most = full_scale * frames;
        for step in 1..=6 {
            let along = dice.among(&[2, 128]);
            let striped = |i| if i / step % 2 == 0 { 0 } else { most };
            tally.run(of_lines(lines, (128, along), (full_scale, frames), striped));
            tally.run(of_lines(lines, (12, along), (full_scale, frames), striped));
        }
        for level in [0, most] {
            tally.run(of_lines(lines, (128, 128), (full_scale, frames), |_| level));
        }
        tally.run(of_lines(lines, (128, 2), (full_scale, frames), |i| {
            most * i as u64 / 127
        }));
    }
}

/// Equal lines, and straight slopes up and down: Max is 0, on a slope with a level above 0.
fn slopes(lines: Lines, tally: &mut Tally, dice: &mut Dice) {
    for (full_scale, frames) in [(1023, 1), (4095, 100)] {
        let most = full_scale * frames;
        for count in [12, 14, 128] {
            let sides = (count, shapes::even(dice, 2, 6));
            let last = count as u64 - 1;
            let level = dice.between(0, most);
            tally.run(of_lines(lines, sides, (full_scale, frames), |_| level));
            for step in [1, most / last] {
                for start in [0, last] {
                    let slope = |i: usize| step * start.abs_diff(i as u64);
                    tally.run(of_lines(lines, sides, (full_scale, frames), slope));
                }
            }
        }
    }
}

/// The greatest Max there is, 524,160,000 over 524,160,000: one line bright among dark ones, and
/// one dark among bright ones.
fn greatest(lines: Lines, tally: &mut Tally) {
    for line in [5, 64, 122] {
        for (one, others) in [(409_500, 0), (0, 409_500)] {
            let apart = |i| if i == line { one } else { others };
            tally.run(of_lines(lines, (128, 128), (4095, 100), apart));
        }
    }
}

/// Every sum taken from the greatest there may be: dark turns bright, and no figure changes.
fn negatives(lines: Lines, tally: &mut Tally, dice: &mut Dice) {
    for _ in 0..20 {
        let stack = tally.run(legal(lines, dice));
        let most = (stack.full_scale * stack.frames) as u32;
        let mut negative = stack.clone();
        for sum in negative.sums.iter_mut() {
            *sum = most - *sum;
        }
        for program in [Program::Reference, Program::Library] {
            tally.run(Negative {
                program,
                stack: stack.clone(),
                negative: negative.clone(),
            });
        }
    }
}

/// Both sides of the needed 12, whatever the other side is.
fn sides(lines: Lines, tally: &mut Tally, dice: &mut Dice) {
    for count in [2, 4, 8, 10, 12, 14] {
        for along in [2, 4, 10, 12, 128] {
            tally.run(of_sides(lines, count, along, dice));
            let mut above = of_sides(lines, count, along, dice);
            above.sums[0] = u32::MAX;
            tally.run(above);
        }
    }
}

/// The greatest sum and one above it, at every site.
fn sums_above(lines: Lines, tally: &mut Tally, dice: &mut Dice) {
    for (full_scale, frames) in [(1, 1), (1023, 7), (4095, 100)] {
        for site in 0..24 {
            let most = (full_scale * frames) as u32;
            for sum in [most, most + 1, u32::MAX] {
                let level = dice.between(0, most.into());
                let mut case = of_lines(lines, (12, 2), (full_scale, frames), |_| level);
                case.sums[site] = sum;
                tally.run(case);
            }
        }
    }
}

/// A code that is not 0 before, at or after one above 3, in large and in small windows.
fn codes(lines: Lines, tally: &mut Tally, dice: &mut Dice) {
    for count in [10, 12] {
        for code in [1, 2, 3, 4, 255] {
            for site in [0, 7, 2 * count - 1] {
                let mut case = of_sides(lines, count, 2, dice);
                case.mask[site] = code;
                tally.run(case.clone());
                let other = dice.below(2 * count);
                case.mask[other] = dice.between(0, 4) as u8;
                case.sums[other] = u32::MAX;
                tally.run(case);
            }
        }
    }
}
