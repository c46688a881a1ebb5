//! Masks and frames, and what the calls on one frame have in common.

use reference::counts::Exposure;

use super::dice::Dice;
use super::shapes::{self, Shape};
use super::spoil;
use super::tally::{Case, Tally};
use crate::library::{self, Lent};

/// Both sides of each limit of full scale, and wide numbers with legal low bits.
pub const FULL_SCALES: &[u64] = &[
    0,
    1,
    2,
    1023,
    1024,
    4094,
    4095,
    4096,
    65535,
    65536 + 1023,
    (1 << 32) + 1023,
    1 << 63,
    u64::MAX,
];

pub fn full_scale(dice: &mut Dice) -> u64 {
    let any = dice.between(1, 4095);
    dice.among(&[1, 2, 1023, 4095, any, any])
}

/// All codes 0 to 3, from fully surveyed windows to hardly surveyed ones.
pub fn mask(sites: usize, dice: &mut Dice) -> Vec<u8> {
    let style = dice.below(6);
    (0..sites)
        .map(|_| match style {
            0 => 0,
            1 | 2 if !dice.one_in(8) => 0,
            3 if !dice.one_in(2) => 0,
            4 if dice.one_in(8) => 0,
            5 => dice.below(4) as u8,
            _ => dice.between(1, 3) as u8,
        })
        .collect()
}

/// Exactly `count` surveyed sites.
pub fn mask_surveying(count: usize, sites: usize, dice: &mut Dice) -> Vec<u8> {
    let mut mask: Vec<u8> = (0..sites).map(|_| dice.between(1, 3) as u8).collect();
    let mut left = count;
    while left > 0 {
        let site = dice.below(sites);
        if mask[site] != 0 {
            mask[site] = 0;
            left -= 1;
        }
    }
    mask
}

/// Surveyed samples up to full scale, the others any 16-bit number and often 65535.
pub fn frame(mask: &[u8], full_scale: u64, dice: &mut Dice) -> Vec<u16> {
    let style = dice.below(3);
    let level = dice.between(0, full_scale);
    mask.iter()
        .map(|&code| match (code, style) {
            (0, 0) => dice.between(0, full_scale) as u16,
            (0, 1) => dice.among(&[0, full_scale]) as u16,
            (0, _) => (level + dice.between(0, 6))
                .saturating_sub(3)
                .min(full_scale) as u16,
            _ => unsurveyed(dice),
        })
        .collect()
}

pub fn unsurveyed(dice: &mut Dice) -> u16 {
    let any = dice.draw() as u16;
    dice.among(&[65535, any])
}

/// What every call on one frame is lent.
#[derive(Clone, Debug, PartialEq)]
pub struct Window {
    pub width: usize,
    pub height: usize,
    pub full_scale: u64,
    pub mask: Lent<u8>,
    pub frame: Lent<u16>,
}

impl Window {
    pub fn of(shape: Shape, full_scale: u64, mask: Vec<u8>, frame: Vec<u16>) -> Self {
        Window {
            width: shape.width,
            height: shape.height,
            full_scale,
            mask: Lent::new("mask", mask),
            frame: Lent::new("frame", frame),
        }
    }

    pub fn of_mask(shape: Shape, mask: Vec<u8>, dice: &mut Dice) -> Self {
        let full_scale = full_scale(dice);
        let frame = frame(&mask, full_scale, dice);
        Window::of(shape, full_scale, mask, frame)
    }

    pub fn of_shape(shape: Shape, dice: &mut Dice) -> Self {
        Window::of_mask(shape, mask(shape.sites(), dice), dice)
    }

    pub fn legal(dice: &mut Dice) -> Self {
        Window::of_shape(shapes::legal(dice), dice)
    }

    /// The length that a buffer of one cell a site needs, as long as the sides are as made.
    pub fn sites(&self) -> usize {
        let (width, height) = (self.width, self.height);
        Shape { width, height }.sites()
    }

    pub fn lent(&self) -> reference::shared::Window<'_> {
        reference::shared::Window {
            width: self.width,
            height: self.height,
            full_scale: self.full_scale,
            mask: &self.mask,
            frame: &self.frame,
        }
    }

    pub fn lend(&mut self) -> library::Window<'_> {
        library::Window {
            width: self.width,
            height: self.height,
            full_scale: self.full_scale,
            mask: &mut self.mask,
            frame: &mut self.frame,
        }
    }

    pub fn exposure(&self) -> Exposure<'_> {
        Exposure {
            width: self.width,
            full_scale: self.full_scale,
            mask: &self.mask,
            frames: vec![&self.frame],
        }
    }

    pub fn mask_and_frame(&mut self) -> (&mut [u8], &mut [u16]) {
        (&mut self.mask, &mut self.frame)
    }

    pub fn spoil_code(&mut self, dice: &mut Dice) {
        spoil::code(&mut self.mask, dice);
    }

    pub fn spoil_sample(&mut self, dice: &mut Dice) {
        spoil::sample(&mut self.mask, &mut self.frame, self.full_scale, dice);
    }

    pub fn spoil_length(&mut self, dice: &mut Dice) {
        match dice.below(2) {
            0 => spoil::length(&mut self.mask, dice),
            _ => spoil::length(&mut self.frame, dice),
        }
    }

    pub fn spoil_full_scale(&mut self, dice: &mut Dice) {
        self.full_scale = spoil::full_scale(dice);
    }

    pub fn spoil_sides(&mut self, dice: &mut Dice) {
        spoil::side(&mut self.width, &mut self.height, dice);
    }
}

/// What every call on one frame has to be tried with; `least` is the smallest shape it accepts.
pub fn common<C: Case>(
    tally: &mut Tally,
    dice: &mut Dice,
    least: Shape,
    wrap: impl Fn(Window, &mut Dice) -> C,
) {
    let mut windows: Vec<Window> = vec![];
    windows.extend(
        shapes::illegal()
            .iter()
            .map(|&shape| Window::of_shape(shape, dice)),
    );
    windows.extend(
        shapes::GREAT
            .iter()
            .map(|&shape| Window::of_shape(shape, dice)),
    );
    for &full_scale in FULL_SCALES {
        let low = (0..least.sites()).map(|_| dice.below(2) as u16).collect();
        windows.push(Window::of(least, full_scale, vec![0; least.sites()], low));
        windows.push(Window {
            full_scale,
            ..Window::of_shape(least, dice)
        });
    }
    for site in [
        0,
        1,
        dice.below(least.sites()),
        least.sites() - 2,
        least.sites() - 1,
    ] {
        codes_at(site, least, dice, &mut windows);
        samples_at(site, least, dice, &mut windows);
    }
    for shape in [least, shapes::legal(dice), shapes::GREAT[0]] {
        for length in spoil::wrong_lengths(shape.sites()) {
            let (mut mask, mut frame) =
                (Window::of_shape(shape, dice), Window::of_shape(shape, dice));
            mask.mask.resize(length, 0);
            frame.frame.resize(length, 0);
            windows.extend([mask, frame]);
        }
    }
    for window in windows {
        tally.run(wrap(window, dice));
    }
}

/// Every kind of code at one site, alone and with a sample above full scale anywhere.
fn codes_at(site: usize, shape: Shape, dice: &mut Dice, windows: &mut Vec<Window>) {
    for code in [0, 1, 2, 3, 4, 5, 128, 255] {
        let mut window = Window::of_mask(shape, vec![0; shape.sites()], dice);
        window.mask[site] = code;
        windows.push(window.clone());
        let other = dice.below(shape.sites());
        window.frame[other] = spoil::above(window.full_scale, u16::MAX, dice);
        windows.push(window);
    }
}

/// Full scale, one above it and 65535 at one site, for each of the four codes.
fn samples_at(site: usize, shape: Shape, dice: &mut Dice, windows: &mut Vec<Window>) {
    for code in 0..4 {
        let mut window = Window::of_mask(shape, vec![0; shape.sites()], dice);
        window.mask[site] = code;
        for sample in [
            window.full_scale as u16,
            window.full_scale as u16 + 1,
            65535,
        ] {
            window.frame[site] = sample;
            windows.push(window.clone());
        }
    }
}
