//! Cases of defective rows and columns; both run the same ones, turned.

use reference::counts::Exposure;
use reference::lines;
use reference::shared::Answer;

use super::counts::{self, Exposed};
use super::dice::Dice;
use super::shapes::{self, Shape};
use super::spoil;
use super::tally::{Case, Tally};
use super::windows::{self, Window};
use crate::library::{self, Lent};

#[derive(Clone, Copy, Debug, PartialEq)]
enum Kind {
    Rows,
    Columns,
}

#[derive(Clone, Debug, PartialEq)]
struct Lines {
    kind: Kind,
    window: Window,
    marks: Lent<u8>,
}

impl Case for Lines {
    fn reference(&mut self) -> Answer {
        match self.kind {
            Kind::Rows => lines::defective_rows(self.window.lent(), &mut self.marks),
            Kind::Columns => lines::defective_columns(self.window.lent(), &mut self.marks),
        }
    }

    fn library(&mut self) -> Answer {
        let window = self.window.lend();
        match self.kind {
            Kind::Rows => library::lines::defective_rows(window, &mut self.marks),
            Kind::Columns => library::lines::defective_columns(window, &mut self.marks),
        }
    }
}

impl Exposed for Lines {
    fn exposure(&self) -> Exposure<'_> {
        self.window.exposure()
    }

    fn lent(&mut self, _: usize) -> (&mut [u8], &mut [u16]) {
        self.window.mask_and_frame()
    }
}

impl Kind {
    /// `across` counts the window's lines, `along` the sites in one.
    fn shape(self, across: usize, along: usize) -> Shape {
        match self {
            Kind::Rows => Shape {
                width: along,
                height: across,
            },
            Kind::Columns => Shape {
                width: across,
                height: along,
            },
        }
    }

    fn site(self, line: usize, along: usize, shape: Shape) -> usize {
        match self {
            Kind::Rows => line * shape.width + along,
            Kind::Columns => along * shape.width + line,
        }
    }

    fn across(self, window: &Window) -> usize {
        match self {
            Kind::Rows => window.height,
            Kind::Columns => window.width,
        }
    }
}

pub fn defective_rows(tally: &mut Tally, dice: &mut Dice) {
    round(Kind::Rows, tally, dice);
}

pub fn defective_columns(tally: &mut Tally, dice: &mut Dice) {
    round(Kind::Columns, tally, dice);
}

pub fn counts_of_rows(tally: &mut Tally, dice: &mut Dice) {
    counts_of(Kind::Rows, tally, dice);
}

pub fn counts_of_columns(tally: &mut Tally, dice: &mut Dice) {
    counts_of(Kind::Columns, tally, dice);
}

fn counts_of(kind: Kind, tally: &mut Tally, dice: &mut Dice) {
    let make = |shape, mask, dice: &mut Dice| {
        let window = Window::of_mask(shape, mask, dice);
        of_window(kind, window, dice)
    };
    counts::common(tally, dice, kind.shape(18, 4), make, SPOILERS);
}

fn of_window(kind: Kind, window: Window, dice: &mut Dice) -> Lines {
    let across = kind.across(&window);
    // Where the side is far out of range, the window's own length stands for the marks.
    let length = if across <= 1000 {
        2 * across
    } else {
        window.sites()
    };
    let marks = (0..length).map(|_| dice.draw() as u8).collect();
    Lines {
        kind,
        window,
        marks: Lent::new("marks", marks),
    }
}

fn legal(kind: Kind, dice: &mut Dice) -> Lines {
    let most = dice.among(&[18, 18, 20, 36, 64, 128]);
    let across = shapes::even(dice, 18, most);
    let along = shapes::even(dice, 2, 12);
    of_window(
        kind,
        Window::of_shape(kind.shape(across, along), dice),
        dice,
    )
}

fn round(kind: Kind, tally: &mut Tally, dice: &mut Dice) {
    single_lines(kind, tally, dice);
    spread_excess(kind, tally, dice);
    gaps(kind, tally, dice);
    sides(kind, tally, dice);
    marks_lengths(kind, tally, dice);
    let least = kind.shape(18, 2);
    windows::common(tally, dice, least, |window, dice| {
        of_window(kind, window, dice)
    });
    spoil::every_set(tally, dice, |dice| legal(kind, dice), SPOILERS);
    for _ in 0..150 {
        tally.run(legal(kind, dice));
    }
}

const SPOILERS: &[spoil::Spoiler<Lines>] = &[
    |case, dice| {
        let across = shapes::even(dice, 2, 16);
        let shape = case.kind.shape(across, 18);
        *case = of_window(case.kind, Window::of_shape(shape, dice), dice);
    },
    |case, dice| case.window.spoil_sample(dice),
    |case, dice| case.window.spoil_code(dice),
    |case, dice| match dice.below(2) {
        0 => case.window.spoil_length(dice),
        _ => spoil::length(&mut case.marks, dice),
    },
    |case, dice| case.window.spoil_full_scale(dice),
    |case, dice| case.window.spoil_sides(dice),
];

/// K9 and K10, and their like in every line of every plane, the eight at each end included.
fn single_lines(kind: Kind, tally: &mut Tally, dice: &mut Dice) {
    for across in [18, 20, 34, 36, 128] {
        let shape = kind.shape(across, 2);
        for line in 0..across {
            for along in 0..2 {
                let level = dice.among(&[97, 98, 102, 103]);
                let mut frame = vec![100; shape.sites()];
                frame[kind.site(line, along, shape)] = level;
                let window = Window::of(shape, 1023, vec![0; shape.sites()], frame);
                tally.run(of_window(kind, window, dice));
            }
        }
    }
    let shape = kind.shape(18, 2);
    for level in [97, 98, 102, 103] {
        let mut frame = vec![100; shape.sites()];
        frame[kind.site(8, 0, shape)] = level;
        tally.run(of_window(
            kind,
            Window::of(shape, 1023, vec![0; 36], frame),
            dice,
        ));
    }
}

/// An excess spread over the sites of one line of a plane, on both sides of where that line is
/// marked (2.5 a site, more where it meets itself: R18, R19) and of where its neighbours are
/// (40 a site, half of it where they meet the line twice).
fn spread_excess(kind: Kind, tally: &mut Tally, dice: &mut Dice) {
    for across in [18, 20, 32, 34, 64] {
        for line in 0..across {
            let in_plane = if line == 8 {
                11
            } else {
                dice.between(1, 11) as usize
            };
            let first = dice.below(2);
            let limits = [
                5 * in_plane / 2,
                8 * in_plane / 3,
                20 * in_plane / 7,
                20 * in_plane,
                40 * in_plane,
            ];
            for limit in limits {
                for excess in [limit, limit + 1, limit + 2] {
                    let shape = kind.shape(across, 2 * in_plane);
                    let darker = dice.one_in(2);
                    let mut frame = vec![500; shape.sites()];
                    for turn in 0..excess {
                        let along = first + 2 * (turn % in_plane);
                        let sample = &mut frame[kind.site(line, along, shape)];
                        *sample = if darker { *sample - 1 } else { *sample + 1 };
                    }
                    let window = Window::of(shape, 1023, vec![0; shape.sites()], frame);
                    tally.run(of_window(kind, window, dice));
                }
            }
        }
    }
}

/// Lines wholly in gaps, and few surveyed lines at all distances from each other.
fn gaps(kind: Kind, tally: &mut Tally, dice: &mut Dice) {
    for across in [18, 20, 40] {
        let shape = kind.shape(across, 4);
        for turns in [2, 6, 12] {
            for _ in 0..20 {
                let mut mask = vec![0; shape.sites()];
                for line in 0..across {
                    let blind = !dice.one_in(turns);
                    for along in 0..4 {
                        if blind {
                            mask[kind.site(line, along, shape)] = dice.between(1, 3) as u8;
                        }
                    }
                }
                tally.run(of_window(kind, Window::of_mask(shape, mask, dice), dice));
            }
        }
        for surveyed in 0..4 {
            let mask = windows::mask_surveying(surveyed, shape.sites(), dice);
            tally.run(of_window(kind, Window::of_mask(shape, mask, dice), dice));
        }
    }
}

/// Both sides of the needed 18, whatever the other side is.
fn sides(kind: Kind, tally: &mut Tally, dice: &mut Dice) {
    for across in [2, 4, 16, 18, 20] {
        for along in [2, 16, 18, 128] {
            let shape = kind.shape(across, along);
            tally.run(of_window(kind, Window::of_shape(shape, dice), dice));
        }
    }
}

fn marks_lengths(kind: Kind, tally: &mut Tally, dice: &mut Dice) {
    for (across, along) in [(16, 18), (18, 2), (20, 18), (18, 20), (128, 128)] {
        let shape = kind.shape(across, along);
        let lengths = spoil::wrong_lengths(2 * across);
        for length in lengths
            .into_iter()
            .chain([2 * across, 2 * along, across * along])
        {
            let mut case = of_window(kind, Window::of_shape(shape, dice), dice);
            case.marks.resize(length, 0);
            tally.run(case);
        }
    }
}
