//! Cases of unpacking RAW10.

use reference::raw;
use reference::shared::Answer;

use super::dice::Dice;
use super::shapes::{self, Shape};
use super::spoil;
use super::tally::{Case, Tally};
use crate::library::{self, Lent};

#[derive(Clone, Debug, PartialEq)]
struct Unpack {
    width: usize,
    height: usize,
    bytes: Lent<u8>,
    out: Lent<u16>,
}

impl Case for Unpack {
    fn reference(&mut self) -> Answer {
        raw::unpack_raw10(self.width, self.height, &self.bytes, &mut self.out)
    }

    fn library(&mut self) -> Answer {
        library::raw::unpack_raw10(self.width, self.height, &mut self.bytes, &mut self.out)
    }
}

fn of_bytes(shape: Shape, bytes: Vec<u8>, dice: &mut Dice) -> Unpack {
    let out = (0..shape.sites()).map(|_| dice.draw() as u16).collect();
    Unpack {
        width: shape.width,
        height: shape.height,
        bytes: Lent::new("bytes", bytes),
        out: Lent::new("out", out),
    }
}

fn of_shape(shape: Shape, dice: &mut Dice) -> Unpack {
    let bytes = (0..shape.sites() * 5 / 4)
        .map(|_| dice.draw() as u8)
        .collect();
    of_bytes(shape, bytes, dice)
}

fn legal(dice: &mut Dice) -> Unpack {
    of_shape(shapes::legal(dice), dice)
}

pub fn unpack_raw10(tally: &mut Tally, dice: &mut Dice) {
    published(tally, dice);
    every_sample_in_every_turn(tally, dice);
    every_value_of_each_byte(tally, dice);
    // Widths 2, 6, 10 ... let a group run on into the next row.
    for width in (2..=14).step_by(2) {
        for height in (2..=14).step_by(2) {
            tally.run(of_shape(Shape { width, height }, dice));
        }
    }
    for &shape in shapes::GREAT {
        tally.run(of_shape(shape, dice));
    }
    for shape in shapes::illegal() {
        tally.run(of_shape(shape, dice));
    }
    wrong_lengths(tally, dice);
    spoil::every_set(tally, dice, legal, SPOILERS);
    for _ in 0..40 {
        tally.run(legal(dice));
    }
}

const SPOILERS: &[spoil::Spoiler<Unpack>] = &[
    |case, dice| spoil::length(&mut case.bytes, dice),
    |case, dice| spoil::length(&mut case.out, dice),
    |case, dice| spoil::side(&mut case.width, &mut case.height, dice),
];

/// K3 and K4.
fn published(tally: &mut Tally, dice: &mut Dice) {
    for bytes in [[25, 25, 25, 25, 228], [25, 25, 25, 26, 37]] {
        tally.run(of_bytes(
            Shape {
                width: 2,
                height: 2,
            },
            bytes.to_vec(),
            dice,
        ));
    }
}

/// All 1,024 values, each in each of the four turns of a group.
fn every_sample_in_every_turn(tally: &mut Tally, dice: &mut Dice) {
    for turn in 0..4 {
        let samples: Vec<u16> = (0..1024).map(|site| (site + turn) % 1024).collect();
        tally.run(of_bytes(
            Shape {
                width: 32,
                height: 32,
            },
            packed(&samples),
            dice,
        ));
    }
}

pub fn packed(samples: &[u16]) -> Vec<u8> {
    let mut bytes = vec![];
    for group in samples.chunks(4) {
        bytes.extend(group.iter().map(|sample| (sample / 4) as u8));
        bytes.push(
            (0..4)
                .map(|turn| ((group[turn] % 4) << (2 * turn)) as u8)
                .sum(),
        );
    }
    bytes
}

fn every_value_of_each_byte(tally: &mut Tally, dice: &mut Dice) {
    for at in 0..5 {
        for value in 0..=255 {
            let mut case = of_shape(
                Shape {
                    width: 2,
                    height: 2,
                },
                dice,
            );
            case.bytes[at] = value;
            tally.run(case);
        }
    }
}

fn wrong_lengths(tally: &mut Tally, dice: &mut Dice) {
    for shape in [
        Shape {
            width: 2,
            height: 2,
        },
        Shape {
            width: 6,
            height: 4,
        },
        shapes::GREAT[0],
    ] {
        for length in spoil::wrong_lengths(shape.sites() * 5 / 4) {
            let mut case = of_shape(shape, dice);
            case.bytes.resize(length, 0);
            tally.run(case);
        }
        for length in spoil::wrong_lengths(shape.sites()) {
            let mut case = of_shape(shape, dice);
            case.out.resize(length, 0);
            tally.run(case);
        }
        // As many bytes as sites, and as many samples as bytes.
        let mut case = of_shape(shape, dice);
        case.bytes.resize(shape.sites(), 0);
        case.out.resize(shape.sites() * 5 / 4, 0);
        tally.run(case);
    }
}
