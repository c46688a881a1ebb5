//! Cases of the count of samples over (document 02, d), for every call that can give 6 but recoding.

use reference::counts::{self, Exposure};
use reference::shared::{surveyed, Answer};

use super::dice::Dice;
use super::shapes::{self, Shape};
use super::spoil::{self, Spoiler};
use super::tally::{Asked, Case, Tally};
use super::windows;

/// What every call's cases have to tell, and the relations in which two of them have to stand.
pub const EVERY_CALL: &[&str] = &[
    "always 1",
    "up to the place",
    "past the place",
    "row of the place alone",
    "first site left out",
    "last site left out",
    "gaps too",
    "defects too",
    "filled too",
    "full scale too",
    "in 8 bits",
    "gaps alone",
    "defects alone",
    "filled alone",
    "full scale alone",
    "beside 1",
    "beside 2",
    "beside 5",
    "junk changed",
    "one mended",
];

/// The same of the calls that are lent windows, of up to 128 x 128.
pub const WINDOWS: &[&str] = &["65535 at any code", "in 14 bits", "beside 4"];

/// The same of the calls on two frames.
pub const TWO_FRAMES: &[&str] = &[
    "first frame alone",
    "second frame alone",
    "frame of the place alone",
    "sites for samples",
    "1 where the first has none",
    "1 where the second has none",
    "from the place on",
    "in 13 bits",
    "frames swapped",
];

/// A case of a call that can give 6.
pub trait Exposed: Case {
    const FRAMES: usize = 1;
    /// The longest side and the greatest sample that can be lent.
    const SIDE: usize = 128;
    const MOST: u16 = u16::MAX;

    fn exposure(&self) -> Exposure<'_>;

    /// The mask and one of the frames, from 0.
    fn lent(&mut self, turn: usize) -> (&mut [u8], &mut [u16]);
}

/// What every call that can give 6 but recoding has to be tried with. `accepted` is a shape that it
/// accepts, with sites to spare; `make` makes a case of a shape and a mask, with no sample over.
pub fn common<C: Exposed>(
    tally: &mut Tally,
    dice: &mut Dice,
    accepted: Shape,
    make: impl Fn(Shape, Vec<u8>, &mut Dice) -> C,
    spoilers: &[Spoiler<C>],
) {
    scattered(tally, dice, &make);
    single(tally, dice, &make);
    all_over(tally, dice, &make);
    for _ in 0..8 {
        ask(tally, with_each_code(accepted, &make, dice));
    }
    for &spoil in spoilers {
        for _ in 0..6 {
            let case = with_each_code(accepted, &make, dice);
            spoiled(tally, case, spoil, dice);
        }
    }
}

/// Asks a case, and counts it for all that it tells.
pub fn ask<C: Exposed>(tally: &mut Tally, case: C) -> Asked<C> {
    let asked = tally.ask(case);
    meet(tally, &asked.case.exposure(), &asked.answers.expected);
    asked
}

/// Counts what a case tells, `lent` having been answered so by the reference.
pub fn meet(tally: &mut Tally, lent: &Exposure, answer: &Answer) {
    for kind in counts::told(lent, answer) {
        tally.meet(&kind);
    }
}

const LEAST: Shape = Shape {
    width: 2,
    height: 2,
};

fn greatest<C: Exposed>() -> Shape {
    Shape {
        width: C::SIDE,
        height: C::SIDE,
    }
}

/// Each frame alone, and where there are two both.
fn sets_of_frames<C: Exposed>() -> &'static [&'static [usize]] {
    match C::FRAMES {
        1 => &[&[0]],
        _ => &[&[0], &[1], &[0, 1]],
    }
}

/// Surveyed samples up to full scale, half of them at it, and junk above it at all other sites.
fn fill<C: Exposed>(case: &mut C, dice: &mut Dice) {
    let full_scale = case.exposure().full_scale;
    for turn in 0..C::FRAMES {
        let (mask, frame) = case.lent(turn);
        for (code, sample) in mask.iter().zip(frame) {
            let any = dice.between(0, full_scale);
            *sample = match code {
                0 => dice.among(&[full_scale, any]) as u16,
                _ => spoil::above(full_scale, C::MOST, dice),
            };
        }
    }
}

/// Puts samples of a frame above full scale: of the surveyed ones every `turns`th, by chance, and
/// one for certain. Where no site is surveyed, one is made so.
pub fn expose<C: Exposed>(case: &mut C, turn: usize, turns: usize, dice: &mut Dice) {
    let full_scale = case.exposure().full_scale;
    let (mask, frame) = case.lent(turn);
    // One of them may be too short.
    let both = mask.len().min(frame.len());
    if both == 0 {
        return;
    }
    if surveyed(&mask[..both]).next().is_none() {
        mask[dice.below(both)] = 0;
    }
    let sites: Vec<usize> = surveyed(&mask[..both]).collect();
    let certain = dice.among(&sites);
    for site in sites {
        if site == certain || dice.one_in(turns) {
            frame[site] = spoil::above(full_scale, C::MOST, dice);
        }
    }
}

/// The case with its first `count` samples over at full scale instead.
fn mended<C: Exposed>(case: &C, count: usize) -> C {
    let mut mended = case.clone();
    let Exposure { full_scale, .. } = case.exposure();
    for cell in case.exposure().over().take(count) {
        let (_, frame) = mended.lent(cell.turn);
        frame[cell.site] = full_scale as u16;
    }
    mended
}

/// The case with other samples at the sites that are not surveyed.
fn with_other_junk<C: Exposed>(case: &C, dice: &mut Dice) -> C {
    let mut other = case.clone();
    for turn in 0..C::FRAMES {
        let (mask, frame) = other.lent(turn);
        for (_, sample) in mask.iter().zip(frame).filter(|(code, _)| **code != 0) {
            let any = dice.between(0, C::MOST.into()) as u16;
            *sample = dice.among(&[0, any, C::MOST]);
        }
    }
    other
}

/// The case with its two frames exchanged.
fn swapped<C: Exposed>(case: &C) -> C {
    let mut swapped = case.clone();
    for (turn, frame) in case.exposure().frames.iter().enumerate() {
        let (_, other) = swapped.lent(1 - turn);
        other.copy_from_slice(frame);
    }
    swapped
}

/// Few samples over, some and all, in each set of frames, beside samples at full scale and junk.
fn scattered<C: Exposed>(
    tally: &mut Tally,
    dice: &mut Dice,
    make: &impl Fn(Shape, Vec<u8>, &mut Dice) -> C,
) {
    for shape in [shapes::legal(dice), shapes::legal(dice), greatest::<C>()] {
        for turns in [30, 3, 1] {
            for &frames in sets_of_frames::<C>() {
                let mask = windows::mask(shape.sites(), dice);
                let mut case = make(shape, mask, dice);
                fill(&mut case, dice);
                for &turn in frames {
                    expose(&mut case, turn, turns, dice);
                }
                related(tally, case, dice);
            }
        }
    }
}

/// A case with samples over, and what has to do with it.
fn related<C: Exposed>(tally: &mut Tally, case: C, dice: &mut Dice) {
    let one = ask(tally, case);
    let before = &one.answers.found;
    let other = ask(tally, with_other_junk(&one.case, dice));
    let law = counts::unread(before, &other.answers.found);
    tally.compare("junk changed", law, &one, &other);
    let other = ask(tally, mended(&one.case, 1));
    let law = counts::mended(before, &other.answers.found);
    tally.compare("one mended", law, &one, &other);
    if C::FRAMES == 2 {
        let other = ask(tally, swapped(&one.case));
        let law = counts::swapped(before, &other.answers.found);
        tally.compare("frames swapped", law, &one, &other);
    }
}

/// One sample over, at the first site, at the last and at any other, in each frame.
fn single<C: Exposed>(
    tally: &mut Tally,
    dice: &mut Dice,
    make: &impl Fn(Shape, Vec<u8>, &mut Dice) -> C,
) {
    for shape in [LEAST, shapes::legal(dice), greatest::<C>()] {
        let last = shape.sites() - 1;
        for site in [0, dice.below(last), last] {
            for turn in 0..C::FRAMES {
                let mut mask = windows::mask(shape.sites(), dice);
                mask[site] = 0;
                let mut case = make(shape, mask, dice);
                fill(&mut case, dice);
                let above = spoil::above(case.exposure().full_scale, C::MOST, dice);
                let (_, frame) = case.lent(turn);
                frame[site] = above;
                ask(tally, case);
            }
        }
    }
}

/// Every sample over, from 4 to all of the greatest window, in each set of frames.
fn all_over<C: Exposed>(
    tally: &mut Tally,
    dice: &mut Dice,
    make: &impl Fn(Shape, Vec<u8>, &mut Dice) -> C,
) {
    for shape in [LEAST, shapes::legal(dice), greatest::<C>()] {
        for &frames in sets_of_frames::<C>() {
            let mut case = make(shape, vec![0; shape.sites()], dice);
            for &turn in frames {
                expose(&mut case, turn, 1, dice);
            }
            ask(tally, case);
        }
    }
}

/// No sample over, and junk at one site of each code but 0.
fn with_each_code<C: Exposed>(
    shape: Shape,
    make: &impl Fn(Shape, Vec<u8>, &mut Dice) -> C,
    dice: &mut Dice,
) -> C {
    let mut mask = vec![0; shape.sites()];
    mask[..3].copy_from_slice(&[1, 2, 3]);
    dice.shuffle(&mut mask);
    let mut case = make(shape, mask, dice);
    fill(&mut case, dice);
    case
}

/// A case with samples over that may be refused for something else first. Where it is not, what is
/// given with none over comes after 6.
fn spoiled<C: Exposed>(tally: &mut Tally, mut case: C, spoil: Spoiler<C>, dice: &mut Dice) {
    spoil(&mut case, dice);
    for turn in 0..C::FRAMES {
        expose(&mut case, turn, 3, dice);
    }
    let asked = ask(tally, case);
    if asked.answers.expected.number == 6 {
        let after = ask(tally, mended(&asked.case, usize::MAX));
        match after.answers.expected.number {
            0 => (),
            number => tally.meet(&format!("before {number}")),
        }
    }
}
