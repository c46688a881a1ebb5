//! Ways to spoil a case, alone and together, so that the order of refusals shows.

use super::dice::Dice;
use super::shapes;
use super::tally::{Case, Tally};
use crate::library::Lent;

pub type Spoiler<C> = fn(&mut C, &mut Dice);

/// Runs every set of spoilers.
pub fn every_set<C: Case>(
    tally: &mut Tally,
    dice: &mut Dice,
    make: impl Fn(&mut Dice) -> C,
    spoilers: &[Spoiler<C>],
) {
    for case in sets(dice, make, spoilers) {
        tally.run(case);
    }
}

/// Every set of spoilers, the empty one included, each on a new case.
/// They are applied in turn, so those that change contents come before those that change lengths.
pub fn sets<'a, C: Case>(
    dice: &'a mut Dice,
    make: impl Fn(&mut Dice) -> C + 'a,
    spoilers: &'a [Spoiler<C>],
) -> impl Iterator<Item = C> + 'a {
    (0..1u32 << spoilers.len()).map(move |set| {
        let mut case = make(dice);
        for (at, spoil) in spoilers.iter().enumerate() {
            if set >> at & 1 == 1 {
                spoil(&mut case, dice);
            }
        }
        case
    })
}

/// Turns one side into an illegal one, the buffers staying as they are.
pub fn side(width: &mut usize, height: &mut usize, dice: &mut Dice) {
    let bad = dice.among(&shapes::illegal());
    match dice.below(3) {
        0 => *width = bad.width.max(bad.height),
        1 => *height = bad.width.max(bad.height),
        _ => (*width, *height) = (bad.width, bad.height),
    }
}

/// The lengths tried where another is needed.
pub fn wrong_lengths(right: usize) -> [usize; 6] {
    [
        right.saturating_sub(1),
        right + 1,
        0,
        right / 2,
        right * 2,
        right + 4,
    ]
}

pub fn length<T: Copy + From<u8>>(buffer: &mut Lent<T>, dice: &mut Dice) {
    let right = buffer.len();
    buffer.resize(dice.among(&wrong_lengths(right)), T::from(0));
}

/// A mask code above 3.
pub fn code(mask: &mut [u8], dice: &mut Dice) {
    let site = dice.below(mask.len());
    let any = dice.between(4, 255) as u8;
    mask[site] = dice.among(&[4, 255, any]);
}

/// A surveyed sample above full scale.
pub fn sample(mask: &mut [u8], frame: &mut [u16], full_scale: u64, dice: &mut Dice) {
    let site = dice.below(mask.len());
    mask[site] = 0;
    frame[site] = above(full_scale, u16::MAX, dice);
}

/// A sample above full scale, or `most` where none up to that is.
pub fn above(full_scale: u64, most: u16, dice: &mut Dice) -> u16 {
    let most = u64::from(most);
    let least = full_scale.saturating_add(1).min(most);
    let any = dice.between(least, most);
    dice.among(&[least, any, most]) as u16
}

/// A number above its limit, at times with legal low bits.
pub fn beyond(limit: u64, dice: &mut Dice) -> u64 {
    let wide = (dice.between(1, 1 << 30) << 32) + dice.between(0, limit);
    dice.among(&[limit + 1, u64::MAX, 1 << 32, wide])
}

pub fn full_scale(dice: &mut Dice) -> u64 {
    let high = beyond(4095, dice);
    dice.among(&[0, 4096, high])
}
