//! Cases of finding defective sites and of their repair.

use reference::counts::Exposure;
use reference::shared::Answer;
use reference::sites;

use super::counts::{self, Exposed};
use super::dice::Dice;
use super::shapes::{self, Shape};
use super::spoil;
use super::tally::{Case, Tally};
use super::windows::{self, Window};
use crate::library::{self, Lent};

#[derive(Clone, Debug, PartialEq)]
pub struct Find {
    pub threshold: u64,
    pub window: Window,
    out_mask: Lent<u8>,
}

#[derive(Clone, Debug, PartialEq)]
struct Repair {
    window: Window,
    out_frame: Lent<u16>,
    out_mask: Lent<u8>,
}

impl Case for Find {
    fn reference(&mut self) -> Answer {
        sites::find_defects(self.window.lent(), self.threshold, &mut self.out_mask)
    }

    fn library(&mut self) -> Answer {
        library::sites::find_defects(self.window.lend(), self.threshold, &mut self.out_mask)
    }
}

impl Case for Repair {
    fn reference(&mut self) -> Answer {
        sites::repair(self.window.lent(), &mut self.out_frame, &mut self.out_mask)
    }

    fn library(&mut self) -> Answer {
        let window = self.window.lend();
        library::sites::repair(window, &mut self.out_frame, &mut self.out_mask)
    }
}

impl Exposed for Find {
    fn exposure(&self) -> Exposure<'_> {
        self.window.exposure()
    }

    fn lent(&mut self, _: usize) -> (&mut [u8], &mut [u16]) {
        self.window.mask_and_frame()
    }
}

impl Exposed for Repair {
    fn exposure(&self) -> Exposure<'_> {
        self.window.exposure()
    }

    fn lent(&mut self, _: usize) -> (&mut [u8], &mut [u16]) {
        self.window.mask_and_frame()
    }
}

const LEAST: Shape = Shape {
    width: 2,
    height: 2,
};

fn out_mask(sites: usize, dice: &mut Dice) -> Lent<u8> {
    Lent::new("out_mask", (0..sites).map(|_| dice.draw() as u8).collect())
}

fn out_frame(sites: usize, dice: &mut Dice) -> Lent<u16> {
    Lent::new(
        "out_frame",
        (0..sites).map(|_| dice.draw() as u16).collect(),
    )
}

pub fn finding(threshold: u64, window: Window, dice: &mut Dice) -> Find {
    let out_mask = out_mask(window.sites(), dice);
    Find {
        threshold,
        window,
        out_mask,
    }
}

/// Thresholds near the spread of the samples, so that some sites are found and some not.
pub fn find_in(window: Window, dice: &mut Dice) -> Find {
    let (near, far) = (
        dice.between(1, 8),
        dice.between(1, window.full_scale.clamp(1, 4095)),
    );
    let threshold = dice.among(&[0, 1, 24, 28, 4095, near, near, far, far]);
    finding(threshold, window, dice)
}

fn repair_in(window: Window, dice: &mut Dice) -> Repair {
    let sites = window.sites();
    Repair {
        window,
        out_frame: out_frame(sites, dice),
        out_mask: out_mask(sites, dice),
    }
}

pub fn find_defects(tally: &mut Tally, dice: &mut Dice) {
    published(tally, dice);
    thresholds(tally, dice);
    both_sides_of_the_threshold(tally, dice);
    lone_sites(tally, dice);
    pairs(tally, dice);
    reach(tally, dice);
    clusters(tally, dice);
    out_mask_lengths(tally, dice);
    windows::common(tally, dice, LEAST, find_in);
    spoil::every_set(
        tally,
        dice,
        |dice| find_in(Window::legal(dice), dice),
        FIND_SPOILERS,
    );
    for _ in 0..150 {
        tally.run(find_in(Window::legal(dice), dice));
    }
}

pub fn repair(tally: &mut Tally, dice: &mut Dice) {
    every_neighbourhood(tally, dice);
    twice(tally, dice);
    out_lengths(tally, dice);
    windows::common(tally, dice, LEAST, repair_in);
    spoil::every_set(
        tally,
        dice,
        |dice| repair_in(Window::legal(dice), dice),
        REPAIR_SPOILERS,
    );
    for _ in 0..150 {
        tally.run(repair_in(Window::legal(dice), dice));
    }
}

pub fn counts_of_finding(tally: &mut Tally, dice: &mut Dice) {
    let make = |shape, mask, dice: &mut Dice| find_in(Window::of_mask(shape, mask, dice), dice);
    counts::common(tally, dice, shapes::SQUARE, make, FIND_SPOILERS);
}

pub fn counts_of_repair(tally: &mut Tally, dice: &mut Dice) {
    let make = |shape, mask, dice: &mut Dice| repair_in(Window::of_mask(shape, mask, dice), dice);
    counts::common(tally, dice, shapes::SQUARE, make, REPAIR_SPOILERS);
}

pub const FIND_SPOILERS: &[spoil::Spoiler<Find>] = &[
    |case, dice| case.window.spoil_sample(dice),
    |case, dice| case.window.spoil_code(dice),
    |case, dice| match dice.below(2) {
        0 => case.window.spoil_length(dice),
        _ => spoil::length(&mut case.out_mask, dice),
    },
    |case, dice| case.threshold = spoil::beyond(4095, dice),
    |case, dice| case.window.spoil_full_scale(dice),
    |case, dice| case.window.spoil_sides(dice),
];

const REPAIR_SPOILERS: &[spoil::Spoiler<Repair>] = &[
    |case, dice| case.window.spoil_sample(dice),
    |case, dice| case.window.spoil_code(dice),
    |case, dice| match dice.below(3) {
        0 => case.window.spoil_length(dice),
        1 => spoil::length(&mut case.out_frame, dice),
        _ => spoil::length(&mut case.out_mask, dice),
    },
    |case, dice| case.window.spoil_full_scale(dice),
    |case, dice| case.window.spoil_sides(dice),
];

/// K6 and K7, their like for 24 (request g), and the samples of all at the default, at every site.
fn published(tally: &mut Tally, dice: &mut Dice) {
    let shape = Shape {
        width: 4,
        height: 4,
    };
    for (threshold, samples) in [
        (28, &[101, 102][..]),
        (24, &[95, 96]),
        (0, &[95, 96, 101, 102]),
    ] {
        for site in 0..16 {
            for &sample in samples {
                let mut frame = vec![64; 16];
                frame[site] = sample;
                let window = Window::of(shape, 1023, vec![0; 16], frame);
                tally.run(finding(threshold, window, dice));
            }
        }
    }
}

fn thresholds(tally: &mut Tally, dice: &mut Dice) {
    for threshold in [
        0,
        1,
        2,
        23,
        24,
        25,
        27,
        28,
        29,
        4094,
        4095,
        4096,
        65536,
        1 << 32,
        (1 << 32) + 24,
        (1 << 32) + 28,
        1 << 63,
        u64::MAX,
    ] {
        tally.run(finding(threshold, Window::legal(dice), dice));
        // A threshold above full scale is legal.
        let dark = Window::of(LEAST, 1, vec![0; 4], vec![0, 1, 0, 1]);
        tally.run(finding(threshold, dark, dice));
        let shape = Shape {
            width: 4,
            height: 4,
        };
        let mut frame = vec![0; 16];
        frame[dice.below(16)] = 4095;
        tally.run(finding(
            threshold,
            Window::of(shape, 4095, vec![0; 16], frame),
            dice,
        ));
        tally.run(finding(threshold, stairs(), dice));
    }
}

/// Samples as far below the level as above it, so that the mean is the level: each threshold to 29
/// finds two sites less than the one before.
fn stairs() -> Window {
    let mut frame = vec![64; 64];
    for (step, away) in [1, 2, 23, 24, 25, 27, 28, 29].into_iter().enumerate() {
        frame[4 * step] -= away;
        frame[4 * step + 2] += away;
    }
    let shape = Shape {
        width: 32,
        height: 2,
    };
    Window::of(shape, 1023, vec![0; 64], frame)
}

/// One site of a level window moves step by step past the threshold, above and below the level;
/// a gap in its plane brings whole quotients, where the threshold is met exactly.
fn both_sides_of_the_threshold(tally: &mut Tally, dice: &mut Dice) {
    for (width, gaps) in [(4, 0), (4, 1), (4, 2), (6, 0), (6, 1)] {
        let shape = Shape { width, height: 4 };
        for sample in 400..=600 {
            let mut frame = vec![500; shape.sites()];
            let mut mask = vec![0; shape.sites()];
            frame[0] = sample;
            for gap in [2, 2 * width].iter().take(gaps) {
                mask[*gap] = dice.between(1, 3) as u8;
                frame[*gap] = windows::unsurveyed(dice);
            }
            let threshold = dice.among(&[0, 24, 28, 1, 40]);
            tally.run(finding(
                threshold,
                Window::of(shape, 1023, mask, frame),
                dice,
            ));
        }
    }
}

/// The same frame at the default, at what it stands for, and at 28.
fn at_0_24_and_28(window: &Window, tally: &mut Tally, dice: &mut Dice) {
    for threshold in [0, 24, 28] {
        tally.run(finding(threshold, window.clone(), dice));
    }
}

/// The other sites of a site's plane, up to 15 plane steps away in each direction.
pub fn neighbours(shape: Shape, site: usize) -> Vec<usize> {
    let near = |a: usize, b: usize| a % 2 == b % 2 && a.abs_diff(b) <= 30;
    let width = shape.width;
    (0..shape.sites())
        .filter(|&other| other != site)
        .filter(|other| near(other / width, site / width) && near(other % width, site % width))
        .collect()
}

/// The level at every surveyed site, anything at the others.
fn level_frame(level: u16, mask: &[u8], dice: &mut Dice) -> Vec<u16> {
    mask.iter()
        .map(|&code| match code {
            0 => level,
            _ => windows::unsurveyed(dice),
        })
        .collect()
}

/// Small windows, and some that are larger than the box. The last number of each is all the
/// neighbours that a site can have: no gaps.
fn lone_sites(tally: &mut Tally, dice: &mut Dice) {
    for (width, height, numbers) in [
        (4, 4, &[1, 2, 3][..]),
        (6, 4, &[3, 4, 5]),
        (64, 66, &[24, 960]),
        (128, 2, &[6, 12, 30]),
        (2, 128, &[4, 14, 30]),
    ] {
        for &number in numbers {
            lone_site(Shape { width, height }, number, tally, dice);
        }
    }
}

/// One site of a level window, with at most so many surveyed neighbours, on both sides of 24 and
/// of 28 from its mean, above and below the level.
fn lone_site(shape: Shape, most: usize, tally: &mut Tally, dice: &mut Dice) {
    let any = dice.below(shape.sites());
    let middle = shape.width * (shape.height / 2) + shape.width / 2;
    let site = dice.among(&[0, middle, any]);
    let mut others = neighbours(shape, site);
    dice.shuffle(&mut others);
    let surveyed = others.len().min(most);
    let mut mask = vec![0; shape.sites()];
    for &gap in &others[surveyed..] {
        mask[gap] = dice.between(1, 3) as u8;
    }
    for threshold in [24usize, 28] {
        // With n neighbours at the level the mean follows by one part in n + 1: where n divides
        // the threshold, it is met exactly.
        let least = (threshold + threshold.div_ceil(surveyed)) as u16;
        for away in [least - 1, least] {
            for sample in [500 - away, 500 + away] {
                let mut frame = level_frame(500, &mask, dice);
                frame[site] = sample;
                let window = Window::of(shape, 1023, mask.clone(), frame);
                at_0_24_and_28(&window, tally, dice);
            }
        }
    }
}

/// Two sites of one box, as far below the level as above it, leave their mean at the level: 24 and
/// 28 are met exactly with any gaps and without, also where sites lie outside the box.
fn pairs(tally: &mut Tally, dice: &mut Dice) {
    for (width, height) in [(64, 66), (128, 2), (2, 128)] {
        let shape = Shape { width, height };
        let bright = dice.below(shape.sites());
        let dark = dice.among(&neighbours(shape, bright));
        for mut mask in [vec![0; shape.sites()], windows::mask(shape.sites(), dice)] {
            (mask[bright], mask[dark]) = (0, 0);
            for away in [23, 24, 27, 28] {
                let mut frame = level_frame(64, &mask, dice);
                frame[bright] += away;
                frame[dark] -= away;
                let window = Window::of(shape, 1023, mask.clone(), frame);
                at_0_24_and_28(&window, tally, dice);
            }
        }
    }
}

/// One bright site in a dark window: who sees it shows how far the neighbourhood goes.
/// Planes of 31, one less and one more, and of the greatest size.
fn reach(tally: &mut Tally, dice: &mut Dice) {
    for length in [2, 30, 32, 60, 62, 64, 66, 94, 128] {
        for along in 0..length {
            let lying = Shape {
                width: length,
                height: 2,
            };
            let upright = Shape {
                width: 2,
                height: length,
            };
            for (shape, site) in [(lying, along), (upright, 2 * along)] {
                let mut frame = vec![0; shape.sites()];
                frame[site] = dice.among(&[15, 16, 30, 31, 60]);
                let window = Window::of(shape, 1023, vec![0; shape.sites()], frame);
                tally.run(finding(1, window, dice));
            }
        }
    }
    for site in [0, 63, 64 * 32 + 31, 64 * 63, 64 * 64 - 1] {
        let shape = Shape {
            width: 64,
            height: 64,
        };
        let mut frame = vec![0; shape.sites()];
        frame[site] = dice.among(&[255, 256, 257, 511, 512, 900]);
        tally.run(finding(
            1,
            Window::of(shape, 1023, vec![0; shape.sites()], frame),
            dice,
        ));
    }
}

/// Bright clusters, on corners too, beside gaps, filled sites and older defects.
fn clusters(tally: &mut Tally, dice: &mut Dice) {
    for turn in 0..30 {
        let shape = if turn == 0 {
            shapes::GREAT[0]
        } else {
            shapes::legal(dice)
        };
        let mut window = Window::of_shape(shape, dice);
        window.full_scale = 1023;
        for site in 0..shape.sites() {
            window.frame[site] = if window.mask[site] == 0 {
                dice.between(60, 68) as u16
            } else {
                windows::unsurveyed(dice)
            };
        }
        // A very bright site moves a small plane's mean, and leaves few between 24 and 28 from it.
        let brightest = dice.among(&[130, 130, 130, 1023]);
        for _ in 0..=dice.below(3) {
            let (row, column) = (dice.below(shape.height), dice.below(shape.width));
            for near_row in row..(row + 3).min(shape.height) {
                for near_column in column..(column + 3).min(shape.width) {
                    let site = near_row * shape.width + near_column;
                    let bright = dice.between(80, brightest) as u16;
                    window.frame[site] = dice.among(&[88, 90, 92, 96, 102, 116, bright, bright]);
                }
            }
        }
        let threshold = dice.among(&[0, 0, 24, 28, 20, 40]);
        tally.run(finding(threshold, window, dice));
    }
}

fn out_mask_lengths(tally: &mut Tally, dice: &mut Dice) {
    for shape in [LEAST, shapes::legal(dice), shapes::GREAT[0]] {
        for length in spoil::wrong_lengths(shape.sites()) {
            let mut case = find_in(Window::of_shape(shape, dice), dice);
            case.out_mask.resize(length, 0);
            tally.run(case);
        }
    }
}

/// All 256 sets of surveyed neighbours of one defect; the others hold codes 1 to 3.
fn every_neighbourhood(tally: &mut Tally, dice: &mut Dice) {
    let shape = Shape {
        width: 6,
        height: 6,
    };
    let (row, column) = (dice.below(2), dice.below(2));
    for set in 0..256u32 {
        let mut mask = windows::mask(36, dice);
        for turn in 0..9 {
            let site = (row + 2 * (turn / 3)) * 6 + column + 2 * (turn % 3);
            // The centre is the fifth of nine and has no bit of its own.
            let bit = if turn > 4 { turn - 1 } else { turn };
            mask[site] = match turn {
                4 => 2,
                _ if set >> bit & 1 == 1 => 0,
                _ => dice.between(1, 3) as u8,
            };
        }
        tally.run(repair_in(Window::of_mask(shape, mask, dice), dice));
    }
}

/// A repair of what a repair gave changes nothing.
fn twice(tally: &mut Tally, dice: &mut Dice) {
    for turn in 0..30 {
        let shape = if turn < 2 {
            shapes::GREAT[turn]
        } else {
            shapes::legal(dice)
        };
        let turns = dice.among(&[2, 4, 30]);
        let mask = (0..shape.sites())
            .map(|_| {
                if dice.one_in(turns) {
                    dice.between(0, 3) as u8
                } else {
                    2 * dice.below(2) as u8
                }
            })
            .collect();
        let once = tally.run(repair_in(Window::of_mask(shape, mask, dice), dice));
        let mask = once.out_mask.to_vec();
        let again = Window::of(shape, once.window.full_scale, mask, once.out_frame.to_vec());
        tally.run(repair_in(again, dice));
    }
}

fn out_lengths(tally: &mut Tally, dice: &mut Dice) {
    for shape in [LEAST, shapes::legal(dice), shapes::GREAT[0]] {
        for length in spoil::wrong_lengths(shape.sites()) {
            let case = repair_in(Window::of_shape(shape, dice), dice);
            let (mut frame, mut mask) = (case.clone(), case);
            frame.out_frame.resize(length, 0);
            mask.out_mask.resize(length, 0);
            tally.run(frame);
            tally.run(mask);
        }
    }
}
