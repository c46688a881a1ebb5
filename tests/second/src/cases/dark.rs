//! Cases of the dark level.

use reference::counts::Exposure;
use reference::dark;
use reference::shared::Answer;

use super::counts::{self, Exposed};
use super::dice::Dice;
use super::shapes::{self, Shape};
use super::spoil;
use super::tally::{Case, Tally};
use super::windows::{self, Window};
use crate::library;

#[derive(Clone, Debug, PartialEq)]
struct Dark {
    black_level: u64,
    window: Window,
}

impl Case for Dark {
    fn reference(&mut self) -> Answer {
        dark::dark_level(self.window.lent(), self.black_level)
    }

    fn library(&mut self) -> Answer {
        library::dark::dark_level(self.window.lend(), self.black_level)
    }
}

impl Exposed for Dark {
    fn exposure(&self) -> Exposure<'_> {
        self.window.exposure()
    }

    fn lent(&mut self, _: usize) -> (&mut [u8], &mut [u16]) {
        self.window.mask_and_frame()
    }
}

const LEAST: Shape = Shape {
    width: 2,
    height: 2,
};

fn of_window(window: Window, dice: &mut Dice) -> Dark {
    let full_scale = window.full_scale;
    let any = dice.between(0, full_scale.min(4095));
    Dark {
        black_level: dice.among(&[0, 64.min(full_scale), full_scale, any]),
        window,
    }
}

fn legal(dice: &mut Dice) -> Dark {
    of_window(Window::legal(dice), dice)
}

pub fn dark_level(tally: &mut Tally, dice: &mut Dice) {
    published(tally);
    black_levels(tally, dice);
    around_black(tally, dice);
    none_surveyed(tally, dice);
    windows::common(tally, dice, LEAST, of_window);
    spoil::every_set(tally, dice, legal, SPOILERS);
    for _ in 0..80 {
        tally.run(legal(dice));
    }
}

pub fn counts(tally: &mut Tally, dice: &mut Dice) {
    let make = |shape, mask, dice: &mut Dice| {
        let window = Window::of_mask(shape, mask, dice);
        of_window(window, dice)
    };
    counts::common(tally, dice, shapes::SQUARE, make, SPOILERS);
}

const SPOILERS: &[spoil::Spoiler<Dark>] = &[
    |case, dice| case.window.mask.fill(dice.between(1, 3) as u8),
    |case, dice| case.window.spoil_sample(dice),
    |case, dice| case.window.spoil_code(dice),
    |case, dice| case.window.spoil_length(dice),
    |case, dice| case.black_level = spoil::beyond(case.window.full_scale, dice),
    |case, dice| case.window.spoil_full_scale(dice),
    |case, dice| case.window.spoil_sides(dice),
];

/// K5, and the first frame of K1.
fn published(tally: &mut Tally) {
    for frame in [vec![60, 64, 64, 64], vec![100, 101, 102, 103]] {
        let window = Window::of(LEAST, 1023, vec![0; 4], frame);
        tally.run(Dark {
            black_level: 64,
            window,
        });
    }
}

/// Both sides of the black level's limit, which moves with full scale.
fn black_levels(tally: &mut Tally, dice: &mut Dice) {
    for full_scale in [1, 2, 64, 1023, 4094, 4095] {
        for black_level in [
            0,
            1,
            full_scale - 1,
            full_scale,
            full_scale + 1,
            4095,
            4096,
            1 << 32,
            (1 << 32) + 1,
            1 << 63,
            u64::MAX,
        ] {
            let mask = windows::mask(4, dice);
            let frame = windows::frame(&mask, full_scale, dice);
            let window = Window::of(LEAST, full_scale, mask, frame);
            tally.run(Dark {
                black_level,
                window,
            });
        }
    }
}

/// Sums one below, at and one above the black level, and the furthest from it.
fn around_black(tally: &mut Tally, dice: &mut Dice) {
    for shape in [LEAST, shapes::legal(dice), shapes::GREAT[0]] {
        for black_level in [1, 64, 2000, 4094] {
            for step in [-1, 0, 1] {
                let mut frame = vec![black_level as u16; shape.sites()];
                let site = dice.below(shape.sites());
                frame[site] = (black_level as i64 + step) as u16;
                let window = Window::of(shape, 4095, vec![0; shape.sites()], frame);
                tally.run(Dark {
                    black_level,
                    window,
                });
            }
        }
        for (black_level, sample) in [(4095, 0), (0, 4095), (0, 0), (4095, 4095)] {
            let frame = vec![sample; shape.sites()];
            let window = Window::of(shape, 4095, vec![0; shape.sites()], frame);
            tally.run(Dark {
                black_level,
                window,
            });
        }
    }
}

fn none_surveyed(tally: &mut Tally, dice: &mut Dice) {
    for count in 0..3 {
        for shape in [LEAST, shapes::legal(dice), shapes::GREAT[0]] {
            let mask = windows::mask_surveying(count, shape.sites(), dice);
            tally.run(of_window(Window::of_mask(shape, mask, dice), dice));
        }
    }
}
