//! Cases of the colour ratios.

use reference::colour;
use reference::counts::Exposure;
use reference::shared::Answer;

use super::counts::{self, Exposed};
use super::dice::Dice;
use super::shapes::{self, Shape};
use super::spoil;
use super::tally::{Case, Tally};
use super::windows::{self, Window};
use crate::library;

#[derive(Clone, Debug, PartialEq)]
struct Ratios {
    black_level: u64,
    bayer_order: u64,
    window: Window,
}

impl Case for Ratios {
    fn reference(&mut self) -> Answer {
        colour::colour_ratios(self.window.lent(), self.black_level, self.bayer_order)
    }

    fn library(&mut self) -> Answer {
        library::colour::colour_ratios(self.window.lend(), self.black_level, self.bayer_order)
    }
}

impl Exposed for Ratios {
    fn exposure(&self) -> Exposure<'_> {
        self.window.exposure()
    }

    fn lent(&mut self, _: usize) -> (&mut [u8], &mut [u16]) {
        self.window.mask_and_frame()
    }
}

/// The smallest window whose planes hold a centre.
const LEAST: Shape = Shape {
    width: 64,
    height: 48,
};

fn of_window(window: Window, dice: &mut Dice) -> Ratios {
    let full_scale = window.full_scale;
    let any = dice.between(0, full_scale.min(4095));
    let black_level = dice.among(&[0, 64.min(full_scale), full_scale / 2, full_scale, any]);
    Ratios {
        black_level,
        bayer_order: dice.between(0, 3),
        window,
    }
}

fn shape(dice: &mut Dice) -> Shape {
    let (wide, high) = (
        dice.among(&[64, 66, 70, 128]),
        dice.among(&[48, 50, 54, 128]),
    );
    Shape {
        width: shapes::even(dice, 64, wide),
        height: shapes::even(dice, 48, high),
    }
}

fn legal(dice: &mut Dice) -> Ratios {
    let shape = shape(dice);
    of_window(Window::of_shape(shape, dice), dice)
}

/// Where a plane's centre begins.
struct Centre {
    left: usize,
    top: usize,
}

const WIDE: usize = 32;
const HIGH: usize = 24;

fn centre(shape: Shape) -> Centre {
    Centre {
        left: (shape.width / 2 - WIDE) / 2,
        top: (shape.height / 2 - HIGH) / 2,
    }
}

/// The site of a plane, planes counted (0,0), (0,1), (1,0), (1,1).
fn site(shape: Shape, plane: usize, row: usize, column: usize) -> usize {
    (2 * row + plane / 2) * shape.width + 2 * column + plane % 2
}

/// A fully surveyed window of one level.
fn level(shape: Shape, sample: u16) -> Window {
    Window::of(
        shape,
        4095,
        vec![0; shape.sites()],
        vec![sample; shape.sites()],
    )
}

pub fn colour_ratios(tally: &mut Tally, dice: &mut Dice) {
    sides(tally, dice);
    edges_of_the_centre(tally, dice);
    totals_around_zero(tally, dice);
    blind_centres(tally, dice);
    parameters(tally, dice);
    greatest(tally, dice);
    windows::common(tally, dice, LEAST, of_window);
    spoil::every_set(tally, dice, legal, SPOILERS);
    for _ in 0..60 {
        tally.run(legal(dice));
    }
}

pub fn counts(tally: &mut Tally, dice: &mut Dice) {
    let make = |shape, mask, dice: &mut Dice| {
        let window = Window::of_mask(shape, mask, dice);
        of_window(window, dice)
    };
    counts::common(tally, dice, LEAST, make, SPOILERS);
}

const SPOILERS: &[spoil::Spoiler<Ratios>] = &[
    |case, dice| {
        let small = Shape {
            width: shapes::even(dice, 2, 62),
            height: shapes::even(dice, 2, 60),
        };
        *case = of_window(Window::of_shape(small, dice), dice);
    },
    |case, dice| case.window.mask.fill(dice.between(1, 3) as u8),
    |case, _| case.black_level = case.window.full_scale,
    |case, dice| case.window.spoil_sample(dice),
    |case, dice| case.window.spoil_code(dice),
    |case, dice| case.window.spoil_length(dice),
    |case, dice| match dice.below(2) {
        0 => case.black_level = spoil::beyond(case.window.full_scale, dice),
        _ => case.bayer_order = spoil::beyond(3, dice),
    },
    |case, dice| case.window.spoil_full_scale(dice),
    |case, dice| case.window.spoil_sides(dice),
];

/// Both sides of the needed 64 and 48, surveyed and blind.
fn sides(tally: &mut Tally, dice: &mut Dice) {
    for width in [2, 48, 62, 64, 66, 68, 70, 72, 126, 128] {
        for height in [2, 46, 48, 50, 52, 54, 56, 64, 128] {
            let shape = Shape { width, height };
            let mut case = of_window(Window::of_shape(shape, dice), dice);
            case.black_level = 0;
            tally.run(case.clone());
            case.window.mask.fill(1);
            tally.run(case);
        }
    }
}

/// One site apart from its level, just inside or outside the centre, in each plane and order;
/// the rests of the planes are 0 to 3.
fn edges_of_the_centre(tally: &mut Tally, dice: &mut Dice) {
    for rest in 0..4 {
        let shape = Shape {
            width: 64 + 2 * rest,
            height: 48 + 2 * (3 - rest),
        };
        let Centre { left, top } = centre(shape);
        for plane in 0..4 {
            for row in [top.wrapping_sub(1), top, top + HIGH - 1, top + HIGH] {
                for column in [left.wrapping_sub(1), left, left + WIDE - 1, left + WIDE] {
                    if row >= shape.height / 2 || column >= shape.width / 2 {
                        continue;
                    }
                    let mut window = level(shape, 101);
                    window.frame[site(shape, plane, row, column)] = dice.between(0, 4095) as u16;
                    let bayer_order = dice.between(0, 3);
                    tally.run(Ratios {
                        black_level: 100,
                        bayer_order,
                        window: window.clone(),
                    });
                    window.mask[site(shape, plane, row, column)] = dice.between(1, 3) as u8;
                    tally.run(Ratios {
                        black_level: 100,
                        bayer_order,
                        window,
                    });
                }
            }
        }
    }
}

/// Each plane in turn one below, at and one above the black level in sum, in each order.
fn totals_around_zero(tally: &mut Tally, dice: &mut Dice) {
    for bayer_order in 0..4 {
        for plane in 0..4 {
            for steps in [-2, -1, 0, 1, 2] {
                let shape = shape(dice);
                let Centre { left, top } = centre(shape);
                let mut window = level(shape, 105);
                for row in 0..shape.height / 2 {
                    for column in 0..shape.width / 2 {
                        window.frame[site(shape, plane, row, column)] = 100;
                    }
                }
                let (row, column) = (top + dice.below(HIGH), left + dice.below(WIDE));
                window.frame[site(shape, plane, row, column)] = (100 + steps) as u16;
                tally.run(Ratios {
                    black_level: 100,
                    bayer_order,
                    window,
                });
            }
        }
    }
}

/// A plane whose centre has no surveyed site, or just one, though its rim is surveyed.
fn blind_centres(tally: &mut Tally, dice: &mut Dice) {
    for bayer_order in 0..4 {
        for plane in 0..4 {
            for surveyed in 0..2 {
                let mut window = blind_centre(plane, surveyed, dice);
                tally.run(Ratios {
                    black_level: 100,
                    bayer_order,
                    window: window.clone(),
                });
                // The other planes at the black level: 7 comes before 10.
                for sample in window.frame.iter_mut().filter(|sample| **sample == 101) {
                    *sample = 100;
                }
                tally.run(Ratios {
                    black_level: 100,
                    bayer_order,
                    window,
                });
            }
        }
    }
}

/// A window at 101 but for one plane's centre, which has `surveyed` (0 or 1) sites.
fn blind_centre(plane: usize, surveyed: usize, dice: &mut Dice) -> Window {
    let shape = shape(dice);
    let Centre { left, top } = centre(shape);
    let mut window = level(shape, 101);
    for row in top..top + HIGH {
        for column in left..left + WIDE {
            let at = site(shape, plane, row, column);
            window.mask[at] = dice.between(1, 3) as u8;
            window.frame[at] = windows::unsurveyed(dice);
        }
    }
    for _ in 0..surveyed {
        let (row, column) = (top + dice.below(HIGH), left + dice.below(WIDE));
        let at = site(shape, plane, row, column);
        (window.mask[at], window.frame[at]) = (0, 100 + dice.below(3) as u16);
    }
    window
}

/// Both sides of the limits of black level and Bayer order.
fn parameters(tally: &mut Tally, dice: &mut Dice) {
    for bayer_order in [
        0,
        1,
        2,
        3,
        4,
        5,
        255,
        256,
        1 << 32,
        (1 << 32) + 1,
        1 << 63,
        u64::MAX,
    ] {
        let window = Window::of_shape(LEAST, dice);
        tally.run(Ratios {
            black_level: 0,
            bayer_order,
            window,
        });
    }
    for full_scale in [1, 64, 4095] {
        for black_level in [
            0,
            full_scale - 1,
            full_scale,
            full_scale + 1,
            4096,
            1 << 32,
            1 << 63,
            u64::MAX,
        ] {
            let mut window = level(LEAST, full_scale as u16);
            window.full_scale = full_scale;
            tally.run(Ratios {
                black_level,
                bayer_order: dice.between(0, 3),
                window,
            });
        }
    }
}

/// The greatest totals of either sign.
fn greatest(tally: &mut Tally, dice: &mut Dice) {
    for black_level in [0, 1, 4094, 4095] {
        for bright in 0..4 {
            let mut window = level(shapes::GREAT[0], dice.among(&[0, 4095]));
            for row in 0..64 {
                for column in 0..64 {
                    window.frame[site(shapes::GREAT[0], bright, row, column)] = 4095;
                }
            }
            tally.run(Ratios {
                black_level,
                bayer_order: dice.between(0, 3),
                window,
            });
        }
    }
}
