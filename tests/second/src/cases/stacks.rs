//! Stacks, and what the calls on them have in common.

use reference::blinking::Buffers;
use reference::stack::Held;

use super::dice::Dice;
use super::held;
use super::shapes::{self, Shape};
use super::spoil;
use super::tally::Tally;
use super::windows;
use crate::library::{self, Lent};

const FRAME_COUNTS: &[u64] = &[
    0,
    1,
    2,
    3,
    50,
    99,
    100,
    101,
    102,
    200,
    256,
    1 << 32,
    (1 << 32) + 2,
    1 << 63,
    u64::MAX,
];

/// The smallest window.
pub const LEAST: Shape = Shape {
    width: 2,
    height: 2,
};

#[derive(Clone, Debug, PartialEq)]
pub struct Stack {
    pub width: usize,
    pub height: usize,
    pub full_scale: u64,
    pub frames: u64,
    pub mask: Lent<u8>,
    pub sums: Lent<u32>,
    pub squares: Lent<u32>,
    pub least: Lent<u16>,
    pub greatest: Lent<u16>,
}

impl Stack {
    fn holding(shape: Shape, full_scale: u64, frames: u64, mask: Vec<u8>, all: &[Held]) -> Self {
        let ends = |of: fn(&Held) -> u16| all.iter().map(of).collect();
        Stack {
            width: shape.width,
            height: shape.height,
            full_scale,
            frames,
            mask: Lent::new("mask", mask),
            sums: Lent::new("sums", all.iter().map(|held| held.s).collect()),
            squares: Lent::new("squares", all.iter().map(|held| held.q).collect()),
            least: Lent::new("least", ends(|held| held.least)),
            greatest: Lent::new("greatest", ends(|held| held.greatest)),
        }
    }

    /// Numbers that pass refusal 11 at surveyed sites, any number elsewhere.
    pub fn of(shape: Shape, full_scale: u64, frames: u64, mask: Vec<u8>, dice: &mut Dice) -> Self {
        let of_frames = dice.one_in(2);
        let all: Vec<Held> = mask
            .iter()
            .map(|&code| match (code, of_frames) {
                (0, true) => held::two_valued(frames, full_scale, dice),
                (0, false) => held::barely_legal(frames, full_scale, dice),
                _ => held::unread(dice),
            })
            .collect();
        Stack::holding(shape, full_scale, frames, mask, &all)
    }

    pub fn of_mask(shape: Shape, mask: Vec<u8>, dice: &mut Dice) -> Self {
        let any = dice.between(2, 99);
        let frames = dice.among(&[2, 3, any, any, 99]);
        Stack::of(shape, windows::full_scale(dice), frames, mask, dice)
    }

    pub fn of_shape(shape: Shape, dice: &mut Dice) -> Self {
        let mask = windows::mask(shape.sites(), dice);
        Stack::of_mask(shape, mask, dice)
    }

    pub fn legal(dice: &mut Dice) -> Self {
        Stack::of_shape(shapes::legal(dice), dice)
    }

    /// The same at every site.
    pub fn level(shape: Shape, full_scale: u64, frames: u64, held: Held) -> Self {
        let (mask, all) = (vec![0; shape.sites()], vec![held; shape.sites()]);
        Stack::holding(shape, full_scale, frames, mask, &all)
    }

    pub fn shape(&self) -> Shape {
        Shape {
            width: self.width,
            height: self.height,
        }
    }

    pub fn held(&self, site: usize) -> Held {
        self.lent().held(site)
    }

    pub fn put(&mut self, site: usize, held: Held) {
        self.sums[site] = held.s;
        self.squares[site] = held.q;
        self.least[site] = held.least;
        self.greatest[site] = held.greatest;
    }

    pub fn lent(&self) -> reference::stack::Stack<'_> {
        reference::stack::Stack {
            width: self.width,
            height: self.height,
            full_scale: self.full_scale,
            frames: self.frames,
            mask: &self.mask,
            sums: &self.sums,
            squares: &self.squares,
            least: &self.least,
            greatest: &self.greatest,
        }
    }

    pub fn lend(&mut self) -> library::stack::Stack<'_> {
        library::stack::Stack {
            width: self.width,
            height: self.height,
            full_scale: self.full_scale,
            frames: self.frames,
            mask: &mut self.mask,
            sums: &mut self.sums,
            squares: &mut self.squares,
            least: &mut self.least,
            greatest: &mut self.greatest,
        }
    }

    pub fn buffers(&self) -> Buffers {
        Buffers {
            sums: self.sums.to_vec(),
            squares: self.squares.to_vec(),
            least: self.least.to_vec(),
            greatest: self.greatest.to_vec(),
        }
    }

    /// Other junk at the sites that are not surveyed.
    pub fn with_other_junk(&self, dice: &mut Dice) -> Self {
        let mut other = self.clone();
        for site in 0..self.mask.len() {
            if self.mask[site] != 0 {
                other.put(site, held::unread(dice));
            }
        }
        other
    }

    /// A stack of 100 frames, with the window and the mask of this one.
    pub fn fill(&mut self, dice: &mut Dice) {
        *self = Stack::of(self.shape(), self.full_scale, 100, self.mask.to_vec(), dice);
    }

    /// Numbers at a surveyed site that its frame count cannot give.
    pub fn tamper(&mut self, dice: &mut Dice) {
        let site = dice.below(self.mask.len());
        self.mask[site] = 0;
        self.put(site, held::impossible(self.frames, self.full_scale, dice));
    }

    pub fn spoil_length(&mut self, dice: &mut Dice) {
        match dice.below(5) {
            0 => spoil::length(&mut self.mask, dice),
            1 => spoil::length(&mut self.sums, dice),
            2 => spoil::length(&mut self.squares, dice),
            3 => spoil::length(&mut self.least, dice),
            _ => spoil::length(&mut self.greatest, dice),
        }
    }

    pub fn spoil_full_scale(&mut self, dice: &mut Dice) {
        self.full_scale = spoil::full_scale(dice);
    }

    pub fn spoil_sides(&mut self, dice: &mut Dice) {
        spoil::side(&mut self.width, &mut self.height, dice);
    }
}

/// What every call on sums has to be tried with; `least` is the smallest shape it accepts.
pub fn common(
    tally: &mut Tally,
    dice: &mut Dice,
    least: Shape,
    ask: impl Fn(&mut Tally, Stack, &mut Dice),
) {
    let mut stacks: Vec<Stack> = vec![];
    stacks.extend(
        shapes::illegal()
            .iter()
            .map(|&shape| Stack::of_shape(shape, dice)),
    );
    stacks.extend(
        shapes::GREAT
            .iter()
            .map(|&shape| Stack::of_shape(shape, dice)),
    );
    for &full_scale in windows::FULL_SCALES {
        let (legal, mask) = (full_scale.clamp(1, 4095), vec![0; least.sites()]);
        let bare = Stack::of(least, legal, 2, mask, dice);
        stacks.push(Stack { full_scale, ..bare });
    }
    for &frames in FRAME_COUNTS {
        let full_scale = windows::full_scale(dice);
        for mask in [vec![0; least.sites()], windows::mask(least.sites(), dice)] {
            let fitting = Stack::of(least, full_scale, frames.min(100), mask, dice);
            stacks.push(Stack { frames, ..fitting });
        }
    }
    codes(least, dice, &mut stacks);
    wrong_lengths(least, dice, &mut stacks);
    sum_limits(least, dice, &mut stacks);
    for stack in stacks {
        ask(tally, stack, dice);
    }
}

/// Every kind of code at one site, alone and with a site that is impossible.
fn codes(least: Shape, dice: &mut Dice, stacks: &mut Vec<Stack>) {
    for site in [0, 1, dice.below(least.sites()), least.sites() - 1] {
        for code in [0, 1, 2, 3, 4, 5, 128, 255] {
            let mut stack = Stack::of_mask(least, vec![0; least.sites()], dice);
            stack.mask[site] = code;
            stacks.push(stack.clone());
            stack.tamper(dice);
            stacks.push(stack);
        }
    }
}

fn wrong_lengths(least: Shape, dice: &mut Dice, stacks: &mut Vec<Stack>) {
    for shape in [least, shapes::legal(dice), shapes::GREAT[0]] {
        for length in spoil::wrong_lengths(shape.sites()) {
            let stack = Stack::of_shape(shape, dice);
            let mut wrong = [(); 5].map(|_| stack.clone());
            wrong[0].mask.resize(length, 0);
            wrong[1].sums.resize(length, 0);
            wrong[2].squares.resize(length, 0);
            wrong[3].least.resize(length, 0);
            wrong[4].greatest.resize(length, 0);
            stacks.extend(wrong);
        }
    }
}

/// Both sides of each condition on sums and squares at one site, surveyed and not.
fn sum_limits(shape: Shape, dice: &mut Dice, stacks: &mut Vec<Stack>) {
    for frames in [0, 1, 2, 3, 7, 99, 100] {
        for full_scale in [1, 10, 1023, 4095] {
            for (s, q) in edges(frames, full_scale, dice) {
                let mask = vec![0; shape.sites()];
                let mut stack = Stack::of(shape, full_scale, frames, mask, dice);
                let site = dice.below(shape.sites());
                let greatest = if frames == 0 { 0 } else { full_scale as u16 };
                stack.put(
                    site,
                    Held {
                        s,
                        q,
                        least: 0,
                        greatest,
                    },
                );
                stacks.push(stack.clone());
                stack.mask[site] = dice.between(1, 3) as u8;
                stacks.push(stack);
            }
        }
    }
}

fn edges(frames: u64, full_scale: u64, dice: &mut Dice) -> Vec<(u32, u32)> {
    let most = frames * full_scale;
    let most_squared = most * full_scale;
    let s = dice.between(0, most);
    let least = if frames == 0 {
        0
    } else {
        (s * s).div_ceil(frames)
    };
    let pairs = [
        (0, 0),
        (0, 1),
        (1, 0),
        (0, most_squared),
        (most, most_squared),
        (most + 1, most_squared),
        (most, most_squared + 1),
        (most, most_squared.saturating_sub(1)),
        (s, least),
        (s, least.saturating_sub(1)),
        (s, most_squared),
        (0, u32::MAX.into()),
        (u32::MAX.into(), most_squared),
        (u32::MAX.into(), u32::MAX.into()),
        (65536, 65536),
    ];
    pairs.map(|(s, q)| (s as u32, q as u32)).to_vec()
}

/// Stacks of so many frames and more, near all conditions of 11: at the first site, the last or any
/// other, surveyed and not, the other sites being possible.
pub fn near_impossible(fewest: u64, dice: &mut Dice) -> Vec<Stack> {
    let mut stacks = vec![];
    for frames in [0, 1, 2, 3, 7, 99, 100] {
        for full_scale in [4095, windows::full_scale(dice)] {
            for held in held::limits(frames, full_scale, dice) {
                with_site(LEAST, (full_scale, frames), held, dice, &mut stacks);
            }
        }
    }
    for frames in 0..=2 {
        for held in held::every_small() {
            let mut stack = Stack::of(LEAST, 1, frames, vec![0; LEAST.sites()], dice);
            stack.put(dice.below(LEAST.sites()), held);
            stacks.push(stack);
        }
    }
    for _ in 0..60 {
        let (frames, full_scale) = (dice.between(0, 100), windows::full_scale(dice));
        let held = held::near(frames, full_scale, dice);
        with_site(
            shapes::SQUARE,
            (full_scale, frames),
            held,
            dice,
            &mut stacks,
        );
    }
    stacks.retain(|stack| stack.frames >= fewest);
    stacks
}

/// A window with one such site, surveyed; then the same with another code there.
fn with_site(
    shape: Shape,
    (full_scale, frames): (u64, u64),
    held: Held,
    dice: &mut Dice,
    stacks: &mut Vec<Stack>,
) {
    let last = shape.sites() - 1;
    let any = dice.below(shape.sites());
    let site = dice.among(&[0, any, last]);
    let mask = windows::mask(shape.sites(), dice);
    let mut stack = Stack::of(shape, full_scale, frames, mask, dice);
    stack.put(site, held);
    for code in [0, dice.between(1, 3) as u8] {
        stack.mask[site] = code;
        stacks.push(stack.clone());
    }
}
