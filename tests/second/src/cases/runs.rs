//! Runs of frames into an empty stack (document 02, i), and what is asked of the stack on the way.

use reference::blinking::{self, Run};
use reference::stack::is_impossible;

use super::blinking::{own_spreads, Blinking};
use super::dice::Dice;
use super::held;
use super::shapes::{self, Shape};
use super::spoil;
use super::stack::{Add, Variance};
use super::stacks::Stack;
use super::tally::{Asked, Case, Tally};
use super::windows;
use crate::library::Lent;

pub fn runs(tally: &mut Tally, dice: &mut Dice) {
    for count in [1, 2, 100] {
        whole(&Film::any(count, dice), tally, dice);
    }
    whole(&Film::of(shapes::GREAT[0], 3, dice), tally, dice);
    for _ in 0..6 {
        let count = dice.between(1, 20) as usize;
        whole(&Film::any(count, dice), tally, dice);
    }
    for count in [1, 2, 3, 10] {
        equal_frames(count, tally, dice);
    }
    for _ in 0..4 {
        let count = dice.between(2, 10) as usize;
        junk(&Film::any(count, dice), tally, dice);
        one_unit_off(&Film::any(count, dice), tally, dice);
    }
}

/// Frames of one window, mask and full scale.
struct Film {
    shape: Shape,
    full_scale: u64,
    mask: Vec<u8>,
    frames: Vec<Vec<u16>>,
}

impl Film {
    /// In range, and at every third site of two levels alone.
    fn of(shape: Shape, count: usize, dice: &mut Dice) -> Self {
        let mut mask = windows::mask(shape.sites(), dice);
        // One of each, so that what unsurveyed sites hold can be changed.
        mask[..2].copy_from_slice(&[0, 1]);
        let full_scale = windows::full_scale(dice);
        let levels = [dice.between(0, full_scale), dice.between(0, full_scale)];
        let one_frame = |dice: &mut Dice| {
            let mut frame = windows::frame(&mask, full_scale, dice);
            for site in (0..mask.len()).filter(|site| mask[*site] == 0 && site % 3 == 0) {
                frame[site] = dice.among(&levels) as u16;
            }
            frame
        };
        let frames = (0..count).map(|_| one_frame(dice)).collect();
        Film {
            shape,
            full_scale,
            mask,
            frames,
        }
    }

    fn any(count: usize, dice: &mut Dice) -> Self {
        Film::of(shapes::legal(dice), count, dice)
    }

    fn run(&self) -> Run<'_> {
        Run {
            mask: &self.mask,
            frames: &self.frames,
        }
    }

    fn empty(&self, dice: &mut Dice) -> Stack {
        Stack::of(self.shape, self.full_scale, 0, self.mask.clone(), dice)
    }

    /// The whole run into a stack.
    fn stacked(&self, mut stack: Stack, tally: &mut Tally) -> Asked<Add> {
        let mut last = None;
        for frame in &self.frames {
            let asked = add(tally, stack, frame);
            stack = with_frame(&asked);
            last = Some(asked);
        }
        last.expect("a frame")
    }
}

/// The stack that an accepted frame left.
fn with_frame(asked: &Asked<Add>) -> Stack {
    let mut stack = asked.case.stack.clone();
    stack.frames += 1;
    stack
}

/// Adds a frame in range.
fn add(tally: &mut Tally, stack: Stack, frame: &[u16]) -> Asked<Add> {
    let frames = stack.frames;
    let frame = Lent::new("frame", frame.to_vec());
    let asked = tally.ask(Add { stack, frame });
    let law = blinking::counted_up(frames, &asked.answers.found);
    tally.demand("frame in range added", law, &asked);
    asked
}

/// In the order of the film, backwards and shuffled. On the way the stack is asked, and frames are
/// offered that it refuses.
fn whole(film: &Film, tally: &mut Tally, dice: &mut Dice) {
    let empty = film.empty(dice);
    let one = film.stacked(empty.clone(), tally);
    let left = one.case.stack.buffers();
    tally.demand(
        "least and greatest of the frames",
        blinking::ends(film.run(), &left),
        &one,
    );
    let mut frames = film.frames.clone();
    frames.reverse();
    for _ in 0..2 {
        let other = Film {
            frames: frames.clone(),
            mask: film.mask.clone(),
            ..*film
        };
        let other = other.stacked(empty.clone(), tally);
        let law = blinking::any_order(&left, &other.case.stack.buffers());
        tally.compare("frames in another order", law, &one, &other);
        dice.shuffle(&mut frames);
    }
    on_the_way(film, empty, tally, dice);
}

/// After each frame the stack is asked for its variance and its blinking sites.
fn on_the_way(film: &Film, mut stack: Stack, tally: &mut Tally, dice: &mut Dice) {
    for (before, frame) in film.frames.iter().enumerate() {
        refused(&stack, frame, tally, dice);
        stack = with_frame(&add(tally, stack, frame));
        let so_far = Run {
            frames: &film.frames[..=before],
            ..film.run()
        };
        variance(&stack, tally);
        spreads(so_far, &stack, tally, dice);
    }
    refused(&stack, &film.frames[0], tally, dice);
}

fn variance(stack: &Stack, tally: &mut Tally) {
    let asked = tally.ask(Variance(stack.clone()));
    let kind = match stack.frames {
        1 => "variance of one frame",
        _ => "variance of a run",
    };
    tally.demand(kind, blinking::possible(&asked.answers.found), &asked);
}

/// What a site has, one more, and any other: of two the greater never counts more.
fn spreads(run: Run, stack: &Stack, tally: &mut Tally, dice: &mut Dice) {
    let own = dice.among(&own_spreads(stack));
    let any = dice.between(1, 4095);
    let mut spreads = [own.max(1), own + 1, dice.among(&[1, any, 4095])].map(|one| one.min(4095));
    spreads.sort();
    let asked = spreads.map(|spread| {
        let stack = stack.clone();
        let asked = tally.ask(Blinking { spread, stack });
        let found = &asked.answers.found;
        let (possible, apart) = (
            blinking::possible(found),
            blinking::apart(run, spread, found),
        );
        tally.demand("blinking sites of a run", possible, &asked);
        tally.demand("two frames apart", apart, &asked);
        asked
    });
    for two in asked.windows(2) {
        let law = blinking::never_more(&two[0].answers.found, &two[1].answers.found);
        tally.compare("greater spread", law, &two[0], &two[1]);
    }
}

/// Frames that the stack does not take: with a sample above full scale, a wrong length or a wrong code,
/// and by a full stack any.
fn refused(stack: &Stack, frame: &[u16], tally: &mut Tally, dice: &mut Dice) {
    let good = Add {
        stack: stack.clone(),
        frame: Lent::new("frame", frame.to_vec()),
    };
    let mut spoiled = good.clone();
    let (mask, full_scale) = (&mut spoiled.stack.mask, stack.full_scale);
    match dice.below(3) {
        0 => spoil::sample(mask, &mut spoiled.frame, full_scale, dice),
        1 => spoil::length(&mut spoiled.frame, dice),
        _ => spoil::code(mask, dice),
    }
    let mut cases = vec![spoiled];
    if stack.frames == 100 {
        cases.push(good);
    }
    let before = stack.buffers();
    for case in cases {
        let asked = tally.ask(case);
        let after = asked.case.stack.buffers();
        let law = blinking::kept(&before, &asked.answers.found, &after);
        tally.demand("refused frame", law, &asked);
    }
}

/// One frame so many times, with other junk each time.
fn equal_frames(count: usize, tally: &mut Tally, dice: &mut Dice) {
    let mut film = Film::any(1, dice);
    for _ in 1..count {
        let again = film.frames[0].iter().zip(&film.mask);
        let again = again.map(|(&sample, &code)| match code {
            0 => sample,
            _ => windows::unsurveyed(dice),
        });
        film.frames.push(again.collect());
    }
    let stack = with_frame(&film.stacked(film.empty(dice), tally));
    let kind = match count {
        1 => "one frame",
        _ => "equal frames",
    };
    for spread in [1, 2, dice.between(1, 4095), 4095] {
        let stack = stack.clone();
        let asked = tally.ask(Blinking { spread, stack });
        tally.demand(kind, blinking::none(&asked.answers.found), &asked);
    }
}

/// What unsurveyed sites hold is changed, in the frame and in all four buffers.
fn junk(film: &Film, tally: &mut Tally, dice: &mut Dice) {
    let stack = with_frame(&film.stacked(film.empty(dice), tally));
    let other = stack.with_other_junk(dice);
    let frame = windows::frame(&film.mask, film.full_scale, dice);
    let mut other_frame = frame.clone();
    for (sample, &code) in other_frame.iter_mut().zip(&film.mask) {
        if code != 0 {
            *sample = windows::unsurveyed(dice);
        }
    }
    let added = [(&stack, frame), (&other, other_frame)].map(|(stack, frame)| {
        let (stack, frame) = (stack.clone(), Lent::new("frame", frame));
        tally.ask(Add { stack, frame })
    });
    unread("junk changed in adding", &added, |case| &case.stack, tally);
    let varied = [&stack, &other].map(|stack| tally.ask(Variance(stack.clone())));
    unread(
        "junk changed in the variance",
        &varied,
        |case| &case.0,
        tally,
    );
    let spread = dice.among(&own_spreads(&stack)).clamp(1, 4095);
    let counted = [&stack, &other].map(|stack| {
        let stack = stack.clone();
        tally.ask(Blinking { spread, stack })
    });
    unread(
        "junk changed in counting",
        &counted,
        |case| &case.stack,
        tally,
    );
}

/// Compares two cases that differ at unsurveyed sites.
fn unread<C: Case>(
    kind: &str,
    [one, other]: &[Asked<C>; 2],
    stack: fn(&C) -> &Stack,
    tally: &mut Tally,
) {
    let (left, left_by_other) = (stack(&one.case), stack(&other.case));
    let law = blinking::unread(
        &left.mask,
        (&one.answers.found, &left.buffers()),
        (&other.answers.found, &left_by_other.buffers()),
    );
    tally.compare(kind, law, one, other);
}

/// Each of the four numbers of a site, one up and one down, in all three calls.
fn one_unit_off(film: &Film, tally: &mut Tally, dice: &mut Dice) {
    let stack = with_frame(&film.stacked(film.empty(dice), tally));
    let frame = Lent::new("frame", film.frames[0].clone());
    for turn in 0..8 {
        for site in [0, 1, dice.below(film.mask.len())] {
            let mut off = stack.clone();
            let held = held::one_off(stack.held(site), turn);
            off.put(site, held);
            let is_surveyed = film.mask[site] == 0;
            let is_impossible = is_surveyed && is_impossible(held, stack.frames, stack.full_scale);
            let kind = match (is_surveyed, is_impossible) {
                (false, _) => "one unit off at a gap",
                (true, true) => "one unit off, refused",
                (true, false) => "one unit off, accepted",
            };
            let stack = off.clone();
            let frame = frame.clone();
            given(kind, is_impossible, Add { stack, frame }, tally);
            given(kind, is_impossible, Variance(off.clone()), tally);
            let (spread, stack) = (1, off);
            given(kind, is_impossible, Blinking { spread, stack }, tally);
        }
    }
}

/// Asks a case that 11 alone could refuse.
fn given<C: Case>(kind: &str, is_impossible: bool, case: C, tally: &mut Tally) {
    let asked = tally.ask(case);
    let law = blinking::given(is_impossible, &asked.answers.found);
    tally.demand(kind, law, &asked);
}
