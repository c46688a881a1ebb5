//! What a stack holds of one site: numbers that refusal 11 lets pass, and numbers that it does not.

use reference::stack::Held;

use super::dice::Dice;

const NOTHING: Held = Held {
    s: 0,
    q: 0,
    least: 0,
    greatest: 0,
};

/// The numbers of a site, all in range.
fn of(s: u64, q: u64, least: u64, greatest: u64) -> Held {
    Held {
        s: s as u32,
        q: q as u32,
        least: least as u16,
        greatest: greatest as u16,
    }
}

/// Of frames that hold one sample first and another afterwards.
pub fn two_valued(frames: u64, full_scale: u64, dice: &mut Dice) -> Held {
    let (early, late) = (dice.between(0, full_scale), dice.between(0, full_scale));
    let turns = dice.between(0, frames);
    let rest = frames - turns;
    let samples = [(turns, early), (rest, late)];
    let met = || samples.iter().filter(|(times, _)| *times > 0);
    of(
        met().map(|(times, sample)| times * sample).sum(),
        met().map(|(times, sample)| times * sample * sample).sum(),
        met().map(|(_, sample)| *sample).min().unwrap_or(0),
        met().map(|(_, sample)| *sample).max().unwrap_or(0),
    )
}

/// Any numbers within the conditions of 11, often at the edge of one.
pub fn barely_legal(frames: u64, full_scale: u64, dice: &mut Dice) -> Held {
    if frames == 0 {
        return NOTHING;
    }
    let any = dice.between(0, full_scale);
    let greatest = dice.among(&[0, any, any, full_scale]);
    let any = dice.between(0, greatest);
    let least = dice.among(&[0, any, any, greatest]);
    let any = dice.between(frames * least, frames * greatest);
    let s = dice.among(&[frames * least, any, any, frames * greatest]);
    of(s, square_for(s, frames, full_scale, dice), least, greatest)
}

/// The least sum of squares that goes with a sum of one frame or more.
fn least_square(s: u64, frames: u64) -> u64 {
    (s * s).div_ceil(frames)
}

/// A sum of squares that goes with the sum, often at the edge.
fn square_for(s: u64, frames: u64, full_scale: u64, dice: &mut Dice) -> u64 {
    let (low, high) = (least_square(s, frames), frames * full_scale * full_scale);
    let between = dice.between(low, high);
    dice.among(&[low, between, high])
}

/// At a site that is not surveyed.
pub fn unread(dice: &mut Dice) -> Held {
    let wide = |dice: &mut Dice| {
        let any = dice.draw() as u32;
        dice.among(&[0, u32::MAX, any])
    };
    let narrow = |dice: &mut Dice| {
        let any = dice.draw() as u16;
        dice.among(&[0, u16::MAX, any])
    };
    Held {
        s: wide(dice),
        q: wide(dice),
        least: narrow(dice),
        greatest: narrow(dice),
    }
}

/// Numbers that break a condition of 11, mostly by one unit.
pub fn impossible(frames: u64, full_scale: u64, dice: &mut Dice) -> Held {
    let broken = match frames {
        0 => broken_of_none(),
        _ => broken_of_some(frames, full_scale, dice),
    };
    dice.among(&broken)
}

fn broken_of_none() -> Vec<Held> {
    vec![
        of(0, 0, 0, 1),
        of(0, 0, 1, 0),
        of(0, 0, 1, 1),
        of(0, 1, 0, 0),
        of(1, 0, 0, 0),
        of(1, 1, 1, 1),
    ]
}

/// Each condition broken by one unit, by itself where it can be; then all at once.
fn broken_of_some(frames: u64, full_scale: u64, dice: &mut Dice) -> Vec<Held> {
    let legal = barely_legal(frames, full_scale, dice);
    let most = frames * full_scale * full_scale;
    vec![
        Held {
            greatest: full_scale as u16 + 1,
            ..legal
        },
        below_least(frames, full_scale, dice),
        above_greatest(frames, full_scale, dice),
        Held {
            q: most as u32 + 1,
            ..legal
        },
        square_below(frames, full_scale, dice),
        Held {
            least: legal.greatest + 1,
            ..legal
        },
        of(frames * full_scale + 1, most, 0, full_scale),
        Held {
            s: u32::MAX,
            q: u32::MAX,
            least: u16::MAX,
            greatest: u16::MAX,
        },
    ]
}

/// The sum is one below the frame count times least.
fn below_least(frames: u64, full_scale: u64, dice: &mut Dice) -> Held {
    let any = dice.between(1, full_scale);
    let least = dice.among(&[any, full_scale]);
    let greatest = dice.between(least, full_scale);
    let s = frames * least - 1;
    of(s, square_for(s, frames, full_scale, dice), least, greatest)
}

/// The sum is one above the frame count times greatest.
fn above_greatest(frames: u64, full_scale: u64, dice: &mut Dice) -> Held {
    let any = dice.between(0, full_scale - 1);
    let greatest = dice.among(&[any, full_scale - 1]);
    let least = dice.between(0, greatest);
    let s = frames * greatest + 1;
    of(s, square_for(s, frames, full_scale, dice), least, greatest)
}

/// The sum of squares is one below the least that goes with the sum.
fn square_below(frames: u64, full_scale: u64, dice: &mut Dice) -> Held {
    let greatest = dice.between(1, full_scale);
    let least = dice.between(0, greatest);
    let s = dice.between((frames * least).max(1), frames * greatest);
    of(s, least_square(s, frames) - 1, least, greatest)
}

/// Both sides of each condition.
pub fn limits(frames: u64, full_scale: u64, dice: &mut Dice) -> Vec<Held> {
    if frames == 0 {
        let mut all = broken_of_none();
        all.push(NOTHING);
        return all;
    }
    let mut all = broken_of_some(frames, full_scale, dice);
    all.extend([
        below_least(frames, full_scale, dice),
        above_greatest(frames, full_scale, dice),
        square_below(frames, full_scale, dice),
        of(
            frames * full_scale,
            frames * full_scale * full_scale,
            full_scale,
            full_scale,
        ),
        of(0, frames * full_scale * full_scale, 0, 0),
        of(0, 0, 0, full_scale),
    ]);
    let mended: Vec<Held> = all
        .iter()
        .map(|held| mended(*held, frames, full_scale))
        .collect();
    all.extend(mended);
    all
}

/// The nearest numbers that the conditions let pass.
fn mended(held: Held, frames: u64, full_scale: u64) -> Held {
    let greatest = u64::from(held.greatest).min(full_scale);
    let least = u64::from(held.least).min(greatest);
    let s = u64::from(held.s).clamp(frames * least, frames * greatest);
    let most = frames * full_scale * full_scale;
    let q = u64::from(held.q).clamp(least_square(s, frames), most);
    of(s, q, least, greatest)
}

/// Possible numbers of one frame or more, with any other ends that their sum lets pass.
pub fn with_other_ends(held: Held, frames: u64, full_scale: u64, dice: &mut Dice) -> Held {
    let s = u64::from(held.s);
    Held {
        least: dice.between(0, s / frames) as u16,
        greatest: dice.between(s.div_ceil(frames), full_scale) as u16,
        ..held
    }
}

/// Any numbers near the conditions, possible or not.
pub fn near(frames: u64, full_scale: u64, dice: &mut Dice) -> Held {
    let mut held = barely_legal(frames, full_scale, dice);
    for _ in 0..dice.between(1, 3) {
        held = one_off(held, dice.below(8));
    }
    held
}

/// One of the four numbers, one up or one down.
pub fn one_off(held: Held, turn: usize) -> Held {
    let mut off = held;
    match turn % 8 {
        0 => off.s = held.s.wrapping_add(1),
        1 => off.s = held.s.wrapping_sub(1),
        2 => off.q = held.q.wrapping_add(1),
        3 => off.q = held.q.wrapping_sub(1),
        4 => off.least = held.least.wrapping_add(1),
        5 => off.least = held.least.wrapping_sub(1),
        6 => off.greatest = held.greatest.wrapping_add(1),
        _ => off.greatest = held.greatest.wrapping_sub(1),
    }
    off
}

/// All sums and squares up to 3, with all least and greatest up to 2: around every condition where full
/// scale is 1.
pub fn every_small() -> impl Iterator<Item = Held> {
    (0..4 * 4 * 3 * 3).map(|number| of(number % 4, number / 4 % 4, number / 16 % 3, number / 48))
}
