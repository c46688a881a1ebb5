//! Cases of counting a stack's blinking sites (document 02, i).

use reference::blinking::{self, Question};
use reference::shared::{surveyed, Answer};
use reference::stack::{self, Held};

use super::dice::Dice;
use super::shapes::{self, Shape};
use super::spoil;
use super::stacks::{self, Stack, LEAST};
use super::tally::{Asked, Case, Tally};
use super::windows;
use crate::library;

#[derive(Clone, Debug, PartialEq)]
pub struct Blinking {
    pub spread: u64,
    pub stack: Stack,
}

impl Case for Blinking {
    fn reference(&mut self) -> Answer {
        stack::blinking_sites(&self.stack.lent(), self.spread)
    }

    fn library(&mut self) -> Answer {
        library::stack::blinking_sites(self.stack.lend(), self.spread)
    }
}

/// Both sides of each limit, and wide numbers with legal low bits.
const SPREADS: &[u64] = &[
    0,
    1,
    2,
    1023,
    4094,
    4095,
    4096,
    4097,
    65535,
    65536,
    65536 + 1,
    1 << 32,
    (1 << 32) + 1,
    1 << 63,
    u64::MAX,
];

pub fn blinking_sites(tally: &mut Tally, dice: &mut Dice) {
    example(tally, dice);
    let ask = |tally: &mut Tally, stack: Stack, dice: &mut Dice| {
        let spread = spread_for(&stack, dice);
        tell(tally, Blinking { spread, stack });
    };
    stacks::common(tally, dice, LEAST, ask);
    for stack in stacks::near_impossible(1, dice) {
        ask(tally, stack, dice);
    }
    all_spreads(tally, dice);
    full_windows(tally);
    few_surveyed(tally, dice);
    every_place(tally, dice);
    let cases: Vec<Blinking> = spoil::sets(dice, legal, SPOILERS).collect();
    for case in cases {
        tell(tally, case);
    }
    for _ in 0..60 {
        tell(tally, legal(dice));
    }
}

const SPOILERS: &[spoil::Spoiler<Blinking>] = &[
    |case, dice| case.stack.tamper(dice),
    |case, dice| spoil::code(&mut case.stack.mask, dice),
    |case, dice| case.stack.spoil_length(dice),
    |case, dice| {
        let above = spoil::beyond(100, dice);
        case.stack.frames = dice.among(&[0, above]);
    },
    |case, dice| {
        let above = spoil::beyond(4095, dice);
        case.spread = dice.among(&[0, above]);
    },
    |case, dice| case.stack.spoil_full_scale(dice),
    |case, dice| case.stack.spoil_sides(dice),
];

/// Asks a case, and counts it for all that it tells.
fn tell(tally: &mut Tally, case: Blinking) -> Asked<Blinking> {
    let told = blinking::told_of_blinking(Question {
        stack: case.stack.lent(),
        spread: case.spread,
    });
    told.iter().for_each(|kind| tally.meet(kind));
    tally.ask(case)
}

/// Greatest less least of each surveyed site, as far as the buffers reach.
pub fn own_spreads(stack: &Stack) -> Vec<u64> {
    let both = stack.least.len().min(stack.greatest.len());
    let sites = surveyed(&stack.mask).filter(|&site| site < both);
    let own = sites.map(|site| stack.greatest[site].saturating_sub(stack.least[site]));
    own.map(u64::from).collect()
}

/// A legal one, mostly what a site has, one less or one more.
fn spread_for(stack: &Stack, dice: &mut Dice) -> u64 {
    let mut own = own_spreads(stack);
    own.push(dice.between(1, 4095));
    let one = dice.among(&own);
    let near = dice.among(&[one.saturating_sub(1), one, one, one + 1]);
    near.clamp(1, 4095)
}

fn legal(dice: &mut Dice) -> Blinking {
    let stack = Stack::legal(dice);
    let spread = spread_for(&stack, dice);
    Blinking { spread, stack }
}

/// Two frames, one site at 100 and then at 900, the others at 500 both times.
fn example(tally: &mut Tally, dice: &mut Dice) {
    let steady = Held {
        s: 1000,
        q: 500_000,
        least: 500,
        greatest: 500,
    };
    let mut stack = Stack::level(LEAST, 1023, 2, steady);
    let blinking = Held {
        q: 820_000,
        least: 100,
        greatest: 900,
        ..steady
    };
    stack.put(dice.below(4), blinking);
    for spread in [1, 799, 800, 801] {
        let stack = stack.clone();
        tell(tally, Blinking { spread, stack });
    }
    let stack = Stack::of(LEAST, 1023, 0, vec![0; 4], dice);
    tell(tally, Blinking { spread: 1, stack });
}

/// Every spread around the limits, around full scale, and around what the sites have, in turn: of the
/// legal ones a greater never counts more.
fn all_spreads(tally: &mut Tally, dice: &mut Dice) {
    for frames in [1, 2, 99, 100] {
        for full_scale in [1, 4095, windows::full_scale(dice)] {
            let shape = shapes::legal(dice);
            let mask = windows::mask(shape.sites(), dice);
            let stack = Stack::of(shape, full_scale, frames, mask, dice);
            let mut spreads = SPREADS.to_vec();
            spreads.extend([full_scale, full_scale + 1]);
            for own in own_spreads(&stack).into_iter().take(6) {
                spreads.extend([own, own + 1]);
            }
            in_turn(tally, &stack, spreads);
        }
    }
}

/// Asks a stack for each spread in ascending order.
fn in_turn(tally: &mut Tally, stack: &Stack, mut spreads: Vec<u64>) {
    spreads.sort();
    let mut before: Option<Asked<Blinking>> = None;
    for spread in spreads {
        let stack = stack.clone();
        let asked = tell(tally, Blinking { spread, stack });
        if !(1..=4095).contains(&spread) {
            continue;
        }
        if let Some(before) = &before {
            let law = blinking::never_more(&before.answers.found, &asked.answers.found);
            tally.compare("greater spread", law, before, &asked);
        }
        before = Some(asked);
    }
}

/// All sites blink: 256 of them, and as many as there can be.
fn full_windows(tally: &mut Tally) {
    let square = Shape {
        width: 16,
        height: 16,
    };
    for (shape, frames) in [(square, 1), (square, 100), (shapes::GREAT[0], 2)] {
        let held = Held {
            s: 2047 * frames as u32,
            q: 4095 * 4095 * frames as u32,
            least: 0,
            greatest: 4095,
        };
        let stack = Stack::level(shape, 4095, frames, held);
        tell(
            tally,
            Blinking {
                spread: 4095,
                stack,
            },
        );
    }
}

/// No surveyed site, one and two, with junk that would blink or be impossible.
fn few_surveyed(tally: &mut Tally, dice: &mut Dice) {
    for count in 0..3 {
        for frames in [0, 1, 2, 100, 101] {
            for shape in [LEAST, shapes::legal(dice), shapes::GREAT[1]] {
                let mask = windows::mask_surveying(count, shape.sites(), dice);
                let fitting = Stack::of(shape, 1023, frames.min(100), mask, dice);
                let stack = Stack { frames, ..fitting };
                let spread = spread_for(&stack, dice);
                tell(tally, Blinking { spread, stack });
            }
        }
    }
}

/// One blinking site at each place, under each code, among sites that do not blink.
fn every_place(tally: &mut Tally, dice: &mut Dice) {
    let steady = Held {
        s: 600,
        q: 180_000,
        least: 300,
        greatest: 300,
    };
    let shape = shapes::SQUARE;
    for site in 0..shape.sites() {
        for code in 0..4 {
            let mut stack = Stack::level(shape, 1023, 2, steady);
            let apart = dice.between(1, 300) as u16;
            let blinking = Held {
                q: 2 * (90_000 + u32::from(apart) * u32::from(apart)),
                least: 300 - apart,
                greatest: 300 + apart,
                ..steady
            };
            stack.put(site, blinking);
            stack.mask[site] = code;
            let own = 2 * u64::from(apart);
            let spread = dice.among(&[own - 1, own, own + 1]);
            tell(tally, Blinking { spread, stack });
        }
    }
}
