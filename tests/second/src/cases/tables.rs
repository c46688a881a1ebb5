//! Cases of making a block table (document 02, j).

use reference::blocks;
use reference::counts::Exposure;
use reference::refusals::Sides;
use reference::shading::{self, Making};
use reference::shared::Answer;

use super::counts::{self, Exposed};
use super::dice::Dice;
use super::shapes::{self, Shape};
use super::spoil;
use super::tally::{Asked, Case, Tally};
use super::windows::{self, Window};
use crate::library::{self, Lent};

/// A window, and what its table is written to.
#[derive(Clone, Debug, PartialEq)]
pub struct Table {
    pub window: Window,
    pub totals: Lent<u32>,
    pub counts: Lent<u32>,
}

impl Case for Table {
    fn reference(&mut self) -> Answer {
        shading::shading_table(Making {
            window: self.window.lent(),
            totals: &mut self.totals,
            counts: &mut self.counts,
        })
    }

    fn library(&mut self) -> Answer {
        let table = library::shading::Table {
            totals: &mut self.totals,
            counts: &mut self.counts,
        };
        library::shading::shading_table(self.window.lend(), table)
    }
}

impl Exposed for Table {
    fn exposure(&self) -> Exposure<'_> {
        self.window.exposure()
    }

    fn lent(&mut self, _: usize) -> (&mut [u8], &mut [u16]) {
        self.window.mask_and_frame()
    }
}

impl Table {
    /// The table's cells hold any numbers.
    pub fn of_window(window: Window, dice: &mut Dice) -> Self {
        let length = entries(Shape {
            width: window.width,
            height: window.height,
        });
        Table {
            window,
            totals: Lent::new("totals", junk(length, dice)),
            counts: Lent::new("counts", junk(length, dice)),
        }
    }

    pub fn of_shape(shape: Shape, dice: &mut Dice) -> Self {
        Table::of_window(Window::of_shape(shape, dice), dice)
    }

    pub fn legal(dice: &mut Dice) -> Self {
        let shape = shape(dice);
        Table::of_shape(shape, dice)
    }

    pub fn contents(&self) -> blocks::Table {
        blocks::Table {
            totals: self.totals.to_vec(),
            counts: self.counts.to_vec(),
        }
    }

    pub fn shape(&self) -> Shape {
        Shape {
            width: self.window.width,
            height: self.window.height,
        }
    }

    pub fn spoil_length(&mut self, dice: &mut Dice) {
        match dice.below(3) {
            0 => spoil::length(&mut self.totals, dice),
            1 => spoil::length(&mut self.counts, dice),
            _ => self.window.spoil_length(dice),
        }
    }
}

/// The smallest window whose planes hold a centre.
pub const LEAST: Shape = Shape {
    width: 64,
    height: 48,
};

/// Around the whole blocks, and around the smallest plane.
const WIDTHS: &[usize] = &[62, 64, 66, 94, 96, 98, 126, 128];
const HEIGHTS: &[usize] = &[46, 48, 50, 70, 72, 74, 96, 120, 128];

/// Planes that hold a centre, more often small ones.
pub fn shape(dice: &mut Dice) -> Shape {
    let (wide, high) = (dice.among(&[4, 6, 8]), dice.among(&[4, 6, 9]));
    Shape {
        width: dice.among(&WIDTHS[1..wide]),
        height: dice.among(&HEIGHTS[1..high]),
    }
}

/// One side is below what a centre needs.
pub fn small(dice: &mut Dice) -> Shape {
    let (width, height) = (shapes::even(dice, 2, 62), shapes::even(dice, 2, 46));
    let legal = shape(dice);
    let (width, height) = dice.among(&[
        (width, height),
        (62, legal.height),
        (legal.width, 46),
        (width, legal.height),
        (legal.width, height),
    ]);
    Shape { width, height }
}

/// What a careless program would ask for, where that is short; else 4.
pub fn entries(shape: Shape) -> usize {
    let (width, height) = (shape.width, shape.height);
    match (Sides { width, height }).entries() {
        entries @ ..=400 => entries,
        _ => 4,
    }
}

pub fn junk(length: usize, dice: &mut Dice) -> Vec<u32> {
    (0..length)
        .map(|_| {
            let any = dice.draw() as u32;
            dice.among(&[0, 1, u32::MAX, any, any])
        })
        .collect()
}

/// The site of a plane, planes counted (0,0), (0,1), (1,0), (1,1).
pub fn site(shape: Shape, plane: usize, row: usize, column: usize) -> usize {
    (2 * row + plane / 2) * shape.width + 2 * column + plane % 2
}

/// A line of a plane at or beside an end of the blocks or of the centre, or any.
fn line(side: usize, block: usize, centre: usize, dice: &mut Dice) -> usize {
    let lines = side / 2;
    let begin = (lines - centre) / 2;
    let whole = lines / block * block;
    let any = dice.below(lines);
    let line = dice.among(&[
        0,
        block - 1,
        block,
        begin.saturating_sub(1),
        begin,
        begin + centre - 1,
        begin + centre,
        whole - 1,
        whole,
        lines - 1,
        any,
        any,
    ]);
    line.min(lines - 1)
}

/// At or beside an edge of a block or of the centre, for the most part.
pub fn edge(shape: Shape, dice: &mut Dice) -> usize {
    let row = line(shape.height, 12, 24, dice);
    let column = line(shape.width, 16, 32, dice);
    site(shape, dice.below(4), row, column)
}

pub fn shading_table(tally: &mut Tally, dice: &mut Dice) {
    sides(tally, dice);
    windows::common(tally, dice, LEAST, Table::of_window);
    lengths(tally, dice);
    single_sites(tally, dice);
    junk_changed(tally, dice);
    let cases: Vec<Table> = spoil::sets(dice, Table::legal, SPOILERS).collect();
    for case in cases {
        tell_refusals(tally, case);
    }
}

pub fn counts(tally: &mut Tally, dice: &mut Dice) {
    let make =
        |shape, mask, dice: &mut Dice| Table::of_window(Window::of_mask(shape, mask, dice), dice);
    counts::common(tally, dice, LEAST, make, SPOILERS);
}

const SPOILERS: &[spoil::Spoiler<Table>] = &[
    |case, dice| *case = Table::of_shape(small(dice), dice),
    |case, dice| case.window.spoil_sample(dice),
    |case, dice| case.window.spoil_code(dice),
    |case, dice| case.spoil_length(dice),
    |case, dice| case.window.spoil_full_scale(dice),
    |case, dice| case.window.spoil_sides(dice),
];

/// Asks a case, and counts it for all that it tells.
fn tell(tally: &mut Tally, case: Table) -> Asked<Table> {
    let told = blocks::told_of_table(case.window.lent(), &case.contents());
    told.iter().for_each(|kind| tally.meet(kind));
    tally.ask(case)
}

/// Asks a case, and counts it for what it tells of the refusals: the rest takes longer.
fn tell_refusals(tally: &mut Tally, case: Table) {
    let lent = case.clone();
    let number = tally.ask(case).answers.expected.number;
    let told = blocks::table_refusals(lent.window.lent(), &lent.contents(), number);
    told.iter().for_each(|kind| tally.meet(kind));
}

/// Every width with every height; and small planes, with and without a block.
fn sides(tally: &mut Tally, dice: &mut Dice) {
    for &width in WIDTHS {
        for &height in HEIGHTS {
            tell_refusals(tally, Table::of_shape(Shape { width, height }, dice));
        }
    }
    for (width, height) in [(2, 2), (30, 22), (32, 24), (34, 128), (128, 24), (128, 2)] {
        tell_refusals(tally, Table::of_shape(Shape { width, height }, dice));
    }
    for (width, height) in [(64, 48), (66, 50), (94, 70), (70, 54), (98, 74)] {
        for _ in 0..2 {
            tell(tally, Table::of_shape(Shape { width, height }, dice));
        }
    }
    // Totals above 2^16 and counts above 2^8, at all codes.
    let mask = vec![0; LEAST.sites()];
    let window = Window::of(LEAST, 4095, mask, vec![4095; LEAST.sites()]);
    tell(tally, Table::of_window(window, dice));
}

fn lengths(tally: &mut Tally, dice: &mut Dice) {
    for (width, height) in [(64, 48), (62, 48), (64, 46), (2, 2), (128, 128)] {
        let shape = Shape { width, height };
        let right = entries(shape);
        for length in spoil::wrong_lengths(right).into_iter().chain([4, 12, 20]) {
            let case = Table::of_shape(shape, dice);
            let (mut totals, mut counts, mut both) = (case.clone(), case.clone(), case);
            totals.totals.resize(length, 0);
            counts.counts.resize(length, 0);
            both.totals.resize(length, 0);
            both.counts.resize(length, 0);
            for case in [totals, counts, both] {
                tell_refusals(tally, case);
            }
        }
        for length in [shape.sites() - 1, shape.sites() + 1] {
            let case = Table::of_shape(shape, dice);
            let (mut mask, mut frame) = (case.clone(), case);
            mask.window.mask.resize(length, 0);
            frame.window.frame.resize(length, 0);
            tell_refusals(tally, mask);
            tell_refusals(tally, frame);
        }
    }
}

/// One surveyed site, mostly at an edge; junk everywhere else.
fn single_sites(tally: &mut Tally, dice: &mut Dice) {
    for turn in 0..60 {
        let shape = match turn % 6 {
            0 => Shape {
                width: 70,
                height: 54,
            },
            1 => shapes::GREAT[0],
            _ => shape(dice),
        };
        let mask = (0..shape.sites()).map(|_| dice.between(1, 3) as u8);
        let mut window = Window::of_mask(shape, mask.collect(), dice);
        let site = edge(shape, dice);
        window.mask[site] = 0;
        window.frame[site] = dice.between(1, window.full_scale) as u16;
        let case = Table::of_window(window, dice);
        match turn % 2 {
            0 => tell(tally, case).case,
            _ => tally.run(case),
        };
    }
}

/// Other samples at codes 1 to 3: the same answer and the same table.
fn junk_changed(tally: &mut Tally, dice: &mut Dice) {
    for turn in 0..20 {
        let mut case = Table::legal(dice);
        case.window.mask[0] = 1;
        if turn % 4 == 0 {
            SPOILERS[dice.below(2)](&mut case, dice);
        }
        let one = tally.ask(case.clone());
        for (code, sample) in case.window.mask.iter().zip(case.window.frame.iter_mut()) {
            if *code != 0 {
                *sample = windows::unsurveyed(dice);
            }
        }
        let other = tally.ask(case);
        let found = |asked: &Asked<Table>| (asked.answers.found.clone(), asked.case.contents());
        let (before, after) = (found(&one), found(&other));
        let law = blocks::unread((&before.0, &before.1), (&after.0, &after.1));
        let relation = match one.accepted() {
            true => "junk changed",
            false => "junk changed and refused",
        };
        tally.compare(relation, law, &one, &other);
    }
}
