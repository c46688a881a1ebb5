//! Cases of adding to a stack and of the stack variance.

use reference::blinking::{self, Offer};
use reference::counts::Exposure;
use reference::shared::{Answer, Window};
use reference::stack::{self, Adding, Held};

use super::counts::{self, Exposed};
use super::dice::Dice;
use super::held;
use super::shapes;
use super::spoil;
use super::stacks::{self, Stack, LEAST};
use super::tally::{Asked, Case, Tally};
use super::windows;
use crate::library::{self, Lent};

#[derive(Clone, Debug, PartialEq)]
pub struct Add {
    pub stack: Stack,
    pub frame: Lent<u16>,
}

#[derive(Clone, Debug, PartialEq)]
pub struct Variance(pub Stack);

impl Case for Add {
    fn reference(&mut self) -> Answer {
        let stack = &mut self.stack;
        stack::stack_add(Adding {
            window: Window {
                width: stack.width,
                height: stack.height,
                full_scale: stack.full_scale,
                mask: &stack.mask,
                frame: &self.frame,
            },
            frames: stack.frames,
            sums: &mut stack.sums,
            squares: &mut stack.squares,
            least: &mut stack.least,
            greatest: &mut stack.greatest,
        })
    }

    fn library(&mut self) -> Answer {
        library::stack::stack_add(self.stack.lend(), &mut self.frame)
    }
}

impl Exposed for Add {
    fn exposure(&self) -> Exposure<'_> {
        Exposure {
            width: self.stack.width,
            full_scale: self.stack.full_scale,
            mask: &self.stack.mask,
            frames: vec![&self.frame],
        }
    }

    fn lent(&mut self, _: usize) -> (&mut [u8], &mut [u16]) {
        (&mut self.stack.mask, &mut self.frame)
    }
}

impl Case for Variance {
    fn reference(&mut self) -> Answer {
        stack::stack_variance(&self.0.lent())
    }

    fn library(&mut self) -> Answer {
        library::stack::stack_variance(self.0.lend())
    }
}

/// Asks a case, and counts it for all that it tells.
fn tell_add(tally: &mut Tally, case: Add) -> Asked<Add> {
    let told = blinking::told_of_adding(Offer {
        stack: case.stack.lent(),
        frame: &case.frame,
    });
    told.iter().for_each(|kind| tally.meet(kind));
    tally.ask(case)
}

/// The same.
fn tell_variance(tally: &mut Tally, case: Variance) -> Asked<Variance> {
    let told = blinking::told_of_variance(&case.0.lent());
    told.iter().for_each(|kind| tally.meet(kind));
    tally.ask(case)
}

fn of_stack(stack: Stack, dice: &mut Dice) -> Add {
    let mut mask = stack.mask.to_vec();
    mask.resize(stack.shape().sites(), 1);
    let frame = windows::frame(&mask, stack.full_scale.min(4095), dice);
    Add {
        stack,
        frame: Lent::new("frame", frame),
    }
}

fn legal(dice: &mut Dice) -> Add {
    of_stack(Stack::legal(dice), dice)
}

pub fn stack_add(tally: &mut Tally, dice: &mut Dice) {
    let ask = |tally: &mut Tally, stack, dice: &mut Dice| {
        tell_add(tally, of_stack(stack, dice));
    };
    stacks::common(tally, dice, LEAST, ask);
    for stack in stacks::near_impossible(0, dice) {
        ask(tally, stack, dice);
    }
    bad_frames(tally, dice);
    first_frames(tally, dice);
    let cases: Vec<Add> = spoil::sets(dice, legal, ADD_SPOILERS).collect();
    for case in cases {
        tell_add(tally, case);
    }
    for _ in 0..60 {
        tell_add(tally, legal(dice));
    }
}

pub fn counts_of_adding(tally: &mut Tally, dice: &mut Dice) {
    let make = |shape, mask, dice: &mut Dice| of_stack(Stack::of_mask(shape, mask, dice), dice);
    counts::common(tally, dice, shapes::SQUARE, make, ADD_SPOILERS);
}

pub fn stack_variance(tally: &mut Tally, dice: &mut Dice) {
    greatest(tally);
    few_surveyed(tally, dice);
    let ask = |tally: &mut Tally, stack, _: &mut Dice| {
        tell_variance(tally, Variance(stack));
    };
    stacks::common(tally, dice, LEAST, ask);
    for stack in stacks::near_impossible(2, dice) {
        ask(tally, stack, dice);
    }
    let legal = |dice: &mut Dice| Variance(Stack::legal(dice));
    let cases: Vec<Variance> = spoil::sets(dice, legal, VARIANCE_SPOILERS).collect();
    for case in cases {
        tell_variance(tally, case);
    }
    for _ in 0..40 {
        other_ends(tally, dice);
    }
}

const ADD_SPOILERS: &[spoil::Spoiler<Add>] = &[
    |case, dice| case.stack.fill(dice),
    |case, dice| case.stack.tamper(dice),
    |case, dice| {
        let full_scale = case.stack.full_scale;
        spoil::sample(&mut case.stack.mask, &mut case.frame, full_scale, dice);
    },
    |case, dice| spoil::code(&mut case.stack.mask, dice),
    |case, dice| match dice.below(2) {
        0 => spoil::length(&mut case.frame, dice),
        _ => case.stack.spoil_length(dice),
    },
    |case, dice| case.stack.frames = spoil::beyond(100, dice),
    |case, dice| case.stack.spoil_full_scale(dice),
    |case, dice| case.stack.spoil_sides(dice),
];

const VARIANCE_SPOILERS: &[spoil::Spoiler<Variance>] = &[
    |case, dice| case.0.mask.fill(dice.between(1, 3) as u8),
    |case, _| case.0.frames = 1,
    |case, dice| case.0.tamper(dice),
    |case, dice| spoil::code(&mut case.0.mask, dice),
    |case, dice| case.0.spoil_length(dice),
    |case, dice| {
        let above = spoil::beyond(100, dice);
        case.0.frames = dice.among(&[0, above]);
    },
    |case, dice| case.0.spoil_full_scale(dice),
    |case, dice| case.0.spoil_sides(dice),
];

/// Empty stacks with junk at gaps, samples at both ends of the range, and stacks of one frame.
fn first_frames(tally: &mut Tally, dice: &mut Dice) {
    for frames in [0, 1] {
        for full_scale in [1, 1023, 4095] {
            for shape in [LEAST, shapes::SQUARE, shapes::legal(dice)] {
                let mask = windows::mask(shape.sites(), dice);
                let stack = Stack::of(shape, full_scale, frames, mask, dice);
                tell_add(tally, of_stack(stack, dice));
            }
        }
    }
}

/// Full scale and one above it at each site, in stacks of 99 and 100 frames, sums good and bad.
fn bad_frames(tally: &mut Tally, dice: &mut Dice) {
    for frames in [0, 99, 100] {
        for full_scale in [1, 1023, 4095] {
            for site in 0..4 {
                for code in [0, 1, 2, 3] {
                    let mut mask = vec![0; 4];
                    mask[site] = code;
                    let stack = Stack::of(LEAST, full_scale, frames, mask, dice);
                    let mut case = of_stack(stack, dice);
                    for sample in [full_scale as u16, full_scale as u16 + 1, 65535] {
                        case.frame[site] = sample;
                        tell_add(tally, case.clone());
                        let mut tampered = case.clone();
                        tampered.stack.tamper(dice);
                        tell_add(tally, tampered);
                    }
                }
            }
        }
    }
    for length in spoil::wrong_lengths(4) {
        let mut case = of_stack(Stack::of_shape(LEAST, dice), dice);
        case.frame.resize(length, 0);
        tell_add(tally, case);
    }
}

/// The greatest numerator of all stacks, 16,384 x (100 x 4,095)^2, which sums of 0 have, and the
/// greatest sums, with a numerator of 0.
fn greatest(tally: &mut Tally) {
    for s in [0, 100 * 4095] {
        let held = Held {
            s,
            q: 100 * 4095 * 4095,
            least: 0,
            greatest: 4095,
        };
        let stack = Stack::level(shapes::GREAT[0], 4095, 100, held);
        tally.run(Variance(stack));
    }
}

fn few_surveyed(tally: &mut Tally, dice: &mut Dice) {
    for count in 0..3 {
        for frames in [1, 2] {
            for shape in [LEAST, shapes::legal(dice), shapes::GREAT[0]] {
                let mask = windows::mask_surveying(count, shape.sites(), dice);
                let stack = Stack::of(shape, 1023, frames, mask.clone(), dice);
                tell_variance(tally, Variance(stack));
                let mut tampered = Stack::of(shape, 1023, frames, mask, dice);
                tampered.tamper(dice);
                tell_variance(tally, Variance(tampered));
            }
        }
    }
}

/// The same sums with other least and greatest samples, which no figure reads.
fn other_ends(tally: &mut Tally, dice: &mut Dice) {
    let mut stack = Stack::legal(dice);
    stack.mask[0] = 0;
    let held = held::barely_legal(stack.frames, stack.full_scale, dice);
    stack.put(0, held);
    let one = tell_variance(tally, Variance(stack.clone()));
    for site in 0..stack.mask.len() {
        let held = stack.held(site);
        if stack.mask[site] == 0 {
            stack.put(
                site,
                held::with_other_ends(held, stack.frames, stack.full_scale, dice),
            );
        }
    }
    let other = tell_variance(tally, Variance(stack));
    let law = blinking::same_figures(&one.answers.found, &other.answers.found);
    tally.compare("least and greatest changed", law, &one, &other);
}
