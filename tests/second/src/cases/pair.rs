//! Cases of the figures of a pair.

use reference::counts::Exposure;
use reference::pair;
use reference::shared::Answer;

use super::counts::{self, Exposed};
use super::dice::Dice;
use super::shapes::{self, Shape};
use super::spoil;
use super::tally::{Case, Tally};
use super::windows;
use crate::library::{self, Lent};

#[derive(Clone, Debug, PartialEq)]
pub struct Pair {
    pub width: usize,
    pub height: usize,
    pub full_scale: u64,
    pub mask: Lent<u8>,
    pub first: Lent<u16>,
    /// None where the first buffer is given twice.
    pub second: Option<Lent<u16>>,
}

impl Case for Pair {
    fn reference(&mut self) -> Answer {
        pair::pair_figures(&pair::Pair {
            width: self.width,
            height: self.height,
            full_scale: self.full_scale,
            mask: &self.mask,
            first: &self.first,
            second: self.second.as_ref().unwrap_or(&self.first),
        })
    }

    fn library(&mut self) -> Answer {
        library::pair::pair_figures(library::pair::Pair {
            width: self.width,
            height: self.height,
            full_scale: self.full_scale,
            mask: &mut self.mask,
            first: &mut self.first,
            second: self.second.as_mut(),
        })
    }
}

impl Exposed for Pair {
    const FRAMES: usize = 2;

    fn exposure(&self) -> Exposure<'_> {
        Exposure {
            width: self.width,
            full_scale: self.full_scale,
            mask: &self.mask,
            frames: vec![&self.first, self.second.as_ref().unwrap_or(&self.first)],
        }
    }

    fn lent(&mut self, turn: usize) -> (&mut [u8], &mut [u16]) {
        let frame = match &mut self.second {
            Some(second) if turn == 1 => second,
            _ => &mut self.first,
        };
        (&mut self.mask, frame)
    }
}

const LEAST: Shape = Shape {
    width: 2,
    height: 2,
};

impl Pair {
    pub fn second(&mut self) -> &mut Lent<u16> {
        self.second.as_mut().expect("a second frame of its own")
    }

    /// With the two frames exchanged, in two buffers also where one was given twice.
    pub fn swapped(&self) -> Self {
        let second = self.second.as_ref().unwrap_or(&self.first);
        Pair {
            first: Lent::new("first", second.to_vec()),
            second: Some(Lent::new("second", self.first.to_vec())),
            ..self.clone()
        }
    }
}

pub fn of_mask(shape: Shape, mask: Vec<u8>, dice: &mut Dice) -> Pair {
    let full_scale = windows::full_scale(dice);
    let first = windows::frame(&mask, full_scale, dice);
    let second = windows::frame(&mask, full_scale, dice);
    Pair {
        width: shape.width,
        height: shape.height,
        full_scale,
        mask: Lent::new("mask", mask),
        first: Lent::new("first", first),
        second: Some(Lent::new("second", second)),
    }
}

pub fn of_shape(shape: Shape, dice: &mut Dice) -> Pair {
    let mask = windows::mask(shape.sites(), dice);
    of_mask(shape, mask, dice)
}

pub fn legal(dice: &mut Dice) -> Pair {
    of_shape(shapes::legal(dice), dice)
}

/// Two frames of a fully surveyed 2 x 2 window.
fn of_four(full_scale: u64, first: [u16; 4], second: [u16; 4]) -> Pair {
    Pair {
        width: 2,
        height: 2,
        full_scale,
        mask: Lent::new("mask", vec![0; 4]),
        first: Lent::new("first", first.to_vec()),
        second: Some(Lent::new("second", second.to_vec())),
    }
}

pub fn pair_figures(tally: &mut Tally, dice: &mut Dice) {
    published(tally);
    small_differences(tally, dice);
    tied_frames(tally, dice);
    full_swing(tally, dice);
    roots(tally, dice);
    few_surveyed(tally, dice);
    scales(tally, dice);
    samples_above(tally, dice);
    both_frames_above(tally, dice);
    codes_above(tally, dice);
    wrong_lengths(tally, dice);
    wrong_sides(tally, dice);
    for _ in 0..2 {
        spoil::every_set(tally, dice, legal, SPOILERS);
        for &shape in shapes::GREAT {
            tally.run(of_shape(shape, dice));
        }
    }
    for _ in 0..160 {
        tally.run(legal(dice));
    }
}

pub fn counts(tally: &mut Tally, dice: &mut Dice) {
    worked_counts(tally);
    over_in_one_buffer(tally, dice);
    counts::common(tally, dice, shapes::SQUARE, of_mask, SPOILERS);
}

pub const SPOILERS: &[spoil::Spoiler<Pair>] = &[
    |case, dice| {
        let count = dice.below(2);
        let sites = case.mask.len();
        case.mask = Lent::new("mask", windows::mask_surveying(count, sites, dice));
    },
    |case, dice| spoil::sample(&mut case.mask, &mut case.first, case.full_scale, dice),
    |case, dice| {
        let second = case.second.as_mut().expect("a second frame");
        spoil::sample(&mut case.mask, second, case.full_scale, dice);
    },
    |case, dice| spoil::code(&mut case.mask, dice),
    |case, dice| match dice.below(3) {
        0 => spoil::length(&mut case.mask, dice),
        1 => spoil::length(&mut case.first, dice),
        _ => spoil::length(case.second(), dice),
    },
    |case, dice| case.full_scale = spoil::full_scale(dice),
    |case, dice| spoil::side(&mut case.width, &mut case.height, dice),
];

/// K1 and K2.
fn published(tally: &mut Tally) {
    let first = [100, 101, 102, 103];
    tally.run(of_four(1023, first, [101, 101, 102, 104]));
    tally.run(of_four(1023, first, first.map(|sample| sample + 7)));
}

/// Samples over in both frames, beside full scale and a gap: 6 at 0, and at 2 with the frames
/// exchanged, and the count is 3.
fn worked_counts(tally: &mut Tally) {
    let mut case = of_four(1023, [1024, 65535, 100, 1023], [100, 65535, 2000, 65535]);
    case.mask[1] = 1;
    counts::ask(tally, case.swapped());
    counts::ask(tally, case);
}

/// One buffer given twice is two frames: each of its samples over counts in both.
fn over_in_one_buffer(tally: &mut Tally, dice: &mut Dice) {
    for turns in [30, 3, 1] {
        let mut case = legal(dice);
        counts::expose(&mut case, 0, turns, dice);
        case.second = None;
        counts::ask(tally, case);
        tally.meet("one buffer given twice");
    }
}

/// Every difference from -2 to 2 at each of four sites. P runs from 0 to 64 and is often one more
/// than in another case, as 4 and 3, 12 and 11.
fn small_differences(tally: &mut Tally, dice: &mut Dice) {
    for set in 0..625 {
        let first = [0; 4].map(|_| dice.between(2, 1021) as u16);
        let mut second = first;
        for (sample, place) in second.iter_mut().zip([1, 5, 25, 125]) {
            *sample = *sample + set / place % 5 - 2;
        }
        tally.run(of_four(1023, first, second));
    }
}

/// A lamp drift, equal frames, and one buffer given twice.
fn tied_frames(tally: &mut Tally, dice: &mut Dice) {
    for _ in 0..16 {
        let mut drift = legal(dice);
        drift.full_scale = 4095;
        for site in 0..drift.mask.len() {
            drift.first[site] = dice.between(0, 4088) as u16;
            drift.second()[site] = drift.first[site] + 7;
        }
        tally.run(drift.clone());
        drift.second = Some(Lent::new("second", drift.first.to_vec()));
        tally.run(drift.clone());
        drift.second = None;
        tally.run(drift.clone());
        spoil::sample(&mut drift.mask, &mut drift.first, 4095, dice);
        tally.run(drift);
    }
}

/// The greatest differences, from one-sided (P 0) to balanced: 128 x 128 in turns of 2 has the
/// greatest P of all windows, (16,384 x 4,095)^2. Each also with one sample a grey level off.
fn full_swing(tally: &mut Tally, dice: &mut Dice) {
    let any = [shapes::legal(dice), shapes::legal(dice)];
    for &shape in shapes::GREAT.iter().chain(&any) {
        for turns in [1, 2, 3, 64] {
            let mut swing = of_mask(shape, vec![0; shape.sites()], dice);
            swing.full_scale = 4095;
            for site in 0..shape.sites() {
                let up = site % turns == 0;
                swing.first[site] = if up { 0 } else { 4095 };
                swing.second()[site] = if up { 4095 } else { 0 };
            }
            tally.run(swing.clone());
            let site = dice.below(shape.sites());
            swing.first[site] = swing.first[site].abs_diff(1);
            tally.run(swing);
        }
    }
}

/// 2048 x P is (64 x full scale)^2 x 2 x rising x falling: a square, a site off one, and near one.
fn roots(tally: &mut Tally, dice: &mut Dice) {
    for (rising, falling) in [
        (1, 2),
        (2, 1),
        (2, 2),
        (9, 8),
        (5461, 10_922),
        (10_922, 5461),
        (10_922, 5460),
        (10_921, 5461),
        (10_922, 5462),
        // At full scale 4095 these two are 1 short of a square, and a root taken in floats comes
        // out one too great.
        (4747, 4058),
        (9494, 2029),
    ] {
        for full_scale in [1, dice.between(2, 4094) as u16, 4095] {
            tally.run(rising_and_falling(rising, falling, full_scale, dice));
        }
    }
}

/// So many sites that rise from 0 to full scale, so many that fall, and gaps.
fn rising_and_falling(rising: usize, falling: usize, full_scale: u16, dice: &mut Dice) -> Pair {
    let shape = shapes::GREAT[0];
    let mask = windows::mask_surveying(rising + falling, shape.sites(), dice);
    let mut case = of_mask(shape, mask, dice);
    case.full_scale = full_scale.into();
    let mut left = rising;
    for site in 0..shape.sites() {
        if case.mask[site] == 0 {
            let rises = left > 0;
            left -= usize::from(rises);
            case.first[site] = if rises { 0 } else { full_scale };
            case.second()[site] = if rises { full_scale } else { 0 };
        }
    }
    case
}

fn few_surveyed(tally: &mut Tally, dice: &mut Dice) {
    for count in 0..4 {
        let small = [LEAST, shapes::legal(dice), shapes::legal(dice)];
        for &shape in small.iter().chain(shapes::GREAT) {
            let mask = windows::mask_surveying(count, shape.sites(), dice);
            tally.run(of_mask(shape, mask, dice));
        }
    }
}

/// Each full scale, with samples at most 1 and with random ones.
fn scales(tally: &mut Tally, dice: &mut Dice) {
    for &full_scale in windows::FULL_SCALES {
        tally.run(of_four(full_scale, [0, 1, 0, 1], [1, 1, 0, 0]));
        for _ in 0..2 {
            let mut case = legal(dice);
            case.full_scale = full_scale;
            tally.run(case);
        }
    }
}

/// Full scale and one above it at each pair of places, at surveyed sites and with each site a gap.
fn samples_above(tally: &mut Tally, dice: &mut Dice) {
    for full_scale in [1u16, 10, 1023, 4095] {
        for excess in [0, 1] {
            for in_first in 0..5 {
                for in_second in 0..5 {
                    let (mut first, mut second) = ([0; 5], [0; 5]);
                    first[in_first] = full_scale + excess;
                    second[in_second] = full_scale + excess;
                    // The fifth place stands for no such sample in that frame.
                    let case = of_four(
                        full_scale.into(),
                        [first[0], first[1], first[2], first[3]],
                        [second[0], second[1], second[2], second[3]],
                    );
                    tally.run(case.clone());
                    for site in 0..4 {
                        let mut gap = case.clone();
                        gap.mask[site] = dice.between(1, 3) as u8;
                        tally.run(gap);
                    }
                }
            }
        }
    }
}

/// A sample above full scale in each frame, the second frame's at the earlier site or at the same.
/// The first frame's is the place; with the frames exchanged the other one is.
fn both_frames_above(tally: &mut Tally, dice: &mut Dice) {
    for turn in 0..45 {
        let shape = match shapes::GREAT.get(turn) {
            Some(&great) => great,
            None => shapes::legal(dice),
        };
        let mut case = of_mask(shape, vec![0; shape.sites()], dice);
        let (one, other) = (dice.below(shape.sites()), dice.below(shape.sites()));
        case.first[one.max(other)] = spoil::above(case.full_scale, u16::MAX, dice);
        case.second()[one.min(other)] = spoil::above(case.full_scale, u16::MAX, dice);
        tally.run(case.swapped());
        tally.run(case);
    }
}

/// Every code at every site, with a sample above full scale before, at or after it.
fn codes_above(tally: &mut Tally, dice: &mut Dice) {
    for code in [0, 1, 2, 3, 4, 5, 127, 128, 254, 255] {
        for site in 0..4 {
            let mut case = of_four(1023, [0, 1, 2, 3], [3, 2, 1, 0]);
            case.mask[site] = code;
            tally.run(case.clone());
            let mut above = case.clone();
            above.first[dice.below(4)] = 1024;
            tally.run(above);
            case.second()[dice.below(4)] = 1024;
            tally.run(case);
        }
    }
}

/// Each buffer alone, and all three alike.
fn wrong_lengths(tally: &mut Tally, dice: &mut Dice) {
    let small = [LEAST, shapes::legal(dice), shapes::legal(dice)];
    for &shape in small.iter().chain(&shapes::GREAT[..2]) {
        for length in spoil::wrong_lengths(shape.sites()) {
            let case = of_shape(shape, dice);
            let (mut mask, mut first, mut second) = (case.clone(), case.clone(), case.clone());
            let mut all = case;
            mask.mask.resize(length, 0);
            first.first.resize(length, 0);
            second.second().resize(length, 0);
            all.mask.resize(length, 0);
            all.first.resize(length, 0);
            all.second().resize(length, 0);
            for case in [mask, first, second, all] {
                tally.run(case);
            }
        }
    }
}

/// Alone, and with a wrong full scale.
fn wrong_sides(tally: &mut Tally, dice: &mut Dice) {
    for shape in shapes::illegal() {
        let mut case = of_shape(shape, dice);
        tally.run(case.clone());
        case.full_scale = spoil::full_scale(dice);
        tally.run(case);
    }
}
