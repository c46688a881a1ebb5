//! Stack: sums, sums of squares, least and greatest samples of up to 100 frames, and the sites of it
//! that blink (document 02, i).

use crate::float::rounded_quotient;
use crate::shared::{
    check_codes, check_full_scale, check_lengths, refuse_if, settle, sites_of, surveyed, Answer,
    Outcome, Refusal, Window,
};

/// What the calls that only read a stack are lent.
#[derive(Clone, Copy)]
pub struct Stack<'a> {
    pub width: usize,
    pub height: usize,
    pub full_scale: u64,
    pub frames: u64,
    pub mask: &'a [u8],
    pub sums: &'a [u32],
    pub squares: &'a [u32],
    pub least: &'a [u16],
    pub greatest: &'a [u16],
}

/// What adding a frame is lent.
pub struct Adding<'a> {
    pub window: Window<'a>,
    pub frames: u64,
    pub sums: &'a mut [u32],
    pub squares: &'a mut [u32],
    pub least: &'a mut [u16],
    pub greatest: &'a mut [u16],
}

/// What a stack holds of one site.
#[derive(Clone, Copy, Debug, PartialEq, Eq)]
pub struct Held {
    pub s: u32,
    pub q: u32,
    pub least: u16,
    pub greatest: u16,
}

/// The new frame count.
pub fn stack_add(lent: Adding) -> Answer {
    settle(add(lent), 1)
}

/// Numerator, denominator and the bits of their quotient.
pub fn stack_variance(stack: &Stack) -> Answer {
    settle(variance(stack), 3)
}

/// The count of blinking sites.
pub fn blinking_sites(stack: &Stack, spread: u64) -> Answer {
    settle(blinking(stack, spread), 1)
}

fn add(lent: Adding) -> Outcome {
    let Window { mask, frame, .. } = lent.window;
    let sites = lent.window.check_scale()?;
    refuse_if(lent.frames > 100, 3)?;
    lent.window.check_contents(&[
        (lent.sums.len(), sites),
        (lent.squares.len(), sites),
        (lent.least.len(), sites),
        (lent.greatest.len(), sites),
    ])?;
    lent.stack().check_possible()?;
    refuse_if(lent.frames == 100, 12)?;
    for site in surveyed(mask) {
        let sample = frame[site];
        lent.sums[site] += u32::from(sample);
        lent.squares[site] += u32::from(sample) * u32::from(sample);
        // The zeros of an empty stack are no samples.
        let is_first = lent.frames == 0;
        if is_first || sample < lent.least[site] {
            lent.least[site] = sample;
        }
        if is_first || sample > lent.greatest[site] {
            lent.greatest[site] = sample;
        }
    }
    Ok(vec![i128::from(lent.frames) + 1])
}

fn variance(stack: &Stack) -> Outcome {
    stack.check_scale()?;
    refuse_if(stack.frames == 0 || stack.frames > 100, 3)?;
    stack.check_contents()?;
    let n = surveyed(stack.mask).count() as i128;
    refuse_if(n == 0 || stack.frames < 2, 7)?;
    stack.check_possible()?;
    let k = i128::from(stack.frames);
    let mut numerator = 0;
    for site in surveyed(stack.mask) {
        let Held { s, q, .. } = stack.held(site);
        let (s, q) = (i128::from(s), i128::from(q));
        numerator += k * q - s * s;
    }
    let denominator = n * k * k;
    let quotient = rounded_quotient(numerator as u128, denominator as u128);
    Ok(vec![numerator, denominator, quotient.into()])
}

fn blinking(stack: &Stack, spread: u64) -> Outcome {
    stack.check_scale()?;
    refuse_if(spread == 0 || spread > 4095, 3)?;
    refuse_if(stack.frames == 0 || stack.frames > 100, 3)?;
    stack.check_contents()?;
    stack.check_possible()?;
    let mut count = 0;
    for site in surveyed(stack.mask) {
        let Held {
            least, greatest, ..
        } = stack.held(site);
        if i128::from(greatest) - i128::from(least) >= i128::from(spread) {
            count += 1;
        }
    }
    Ok(vec![count])
}

impl Adding<'_> {
    /// The stack as lent.
    pub fn stack(&self) -> Stack<'_> {
        Stack {
            width: self.window.width,
            height: self.window.height,
            full_scale: self.window.full_scale,
            frames: self.frames,
            mask: self.window.mask,
            sums: self.sums,
            squares: self.squares,
            least: self.least,
            greatest: self.greatest,
        }
    }
}

impl Stack<'_> {
    pub fn held(&self, site: usize) -> Held {
        Held {
            s: self.sums[site],
            q: self.squares[site],
            least: self.least[site],
            greatest: self.greatest[site],
        }
    }

    /// Refusals 1 and 2.
    pub(crate) fn check_scale(&self) -> Result<(), Refusal> {
        sites_of(self.width, self.height)?;
        check_full_scale(self.full_scale)
    }

    /// Refusals 4 and 5.
    pub(crate) fn check_contents(&self) -> Result<(), Refusal> {
        let sites = self.width * self.height;
        check_lengths(&[
            (self.mask.len(), sites),
            (self.sums.len(), sites),
            (self.squares.len(), sites),
            (self.least.len(), sites),
            (self.greatest.len(), sites),
        ])?;
        check_codes(self.mask)
    }

    /// Refusal 11, at surveyed sites alone.
    pub(crate) fn check_possible(&self) -> Result<(), Refusal> {
        for site in surveyed(self.mask) {
            refuse_if(
                is_impossible(self.held(site), self.frames, self.full_scale),
                11,
            )?;
        }
        Ok(())
    }
}

/// The conditions of refusal 11 as documents 01 and 02 write them, whether or not one follows from others.
pub fn is_impossible(held: Held, frames: u64, full_scale: u64) -> bool {
    let (k, scale) = (i128::from(frames), i128::from(full_scale));
    let (s, q) = (i128::from(held.s), i128::from(held.q));
    let (least, greatest) = (i128::from(held.least), i128::from(held.greatest));
    let conditions = [
        s > k * scale,
        q > k * scale * scale,
        k * q < s * s,
        least > greatest,
        greatest > scale,
        s < k * least,
        s > k * greatest,
        k == 0 && least > 0,
        k == 0 && greatest > 0,
    ];
    conditions.contains(&true)
}

#[cfg(test)]
mod tests {
    use super::*;

    /// Four sites of full scale 10 and what they hold.
    #[derive(Clone)]
    struct Four {
        mask: [u8; 4],
        frames: u64,
        sums: [u32; 4],
        squares: [u32; 4],
        least: [u16; 4],
        greatest: [u16; 4],
    }

    impl Four {
        fn empty(mask: [u8; 4]) -> Self {
            Four {
                mask,
                frames: 0,
                sums: [0; 4],
                squares: [0; 4],
                least: [0; 4],
                greatest: [0; 4],
            }
        }

        /// The same at every site.
        fn filled(mask: [u8; 4], frames: u64, held: Held) -> Self {
            Four {
                mask,
                frames,
                sums: [held.s; 4],
                squares: [held.q; 4],
                least: [held.least; 4],
                greatest: [held.greatest; 4],
            }
        }

        fn add(&mut self, frame: [u16; 4]) -> Answer {
            let answer = stack_add(Adding {
                window: Window {
                    width: 2,
                    height: 2,
                    full_scale: 10,
                    mask: &self.mask,
                    frame: &frame,
                },
                frames: self.frames,
                sums: &mut self.sums,
                squares: &mut self.squares,
                least: &mut self.least,
                greatest: &mut self.greatest,
            });
            self.frames += u64::from(answer.number == 0);
            answer
        }

        fn stack(&self) -> Stack<'_> {
            Stack {
                width: 2,
                height: 2,
                full_scale: 10,
                frames: self.frames,
                mask: &self.mask,
                sums: &self.sums,
                squares: &self.squares,
                least: &self.least,
                greatest: &self.greatest,
            }
        }

        fn variance(&self) -> Answer {
            stack_variance(&self.stack())
        }

        fn blinking(&self, spread: u64) -> Answer {
            blinking_sites(&self.stack(), spread)
        }
    }

    fn held(s: u32, q: u32, least: u16, greatest: u16) -> Held {
        Held {
            s,
            q,
            least,
            greatest,
        }
    }

    fn bits(numerator: f64, denominator: f64) -> i128 {
        (numerator / denominator).to_bits().into()
    }

    #[test]
    fn adding_touches_surveyed_sites_only() {
        let mut stack = Four {
            sums: [0, 0, u32::MAX, 7],
            squares: [0, 0, u32::MAX, 9],
            least: [0, 0, 65535, 5],
            greatest: [0, 0, 3, 5],
            ..Four::empty([0, 0, 1, 2])
        };
        assert_eq!(stack.add([3, 10, 65535, 4]).figures, [1]);
        assert_eq!(stack.add([4, 0, 65535, 4]).figures, [2]);
        assert_eq!(stack.sums, [7, 10, u32::MAX, 7]);
        assert_eq!(stack.squares, [25, 100, u32::MAX, 9]);
        assert_eq!(stack.least, [3, 0, 65535, 5]);
        assert_eq!(stack.greatest, [4, 10, 3, 5]);
        assert_eq!(stack.variance().figures, [101, 8, bits(101.0, 8.0)]);
        assert_eq!(stack.blinking(1).figures, [2]);
        assert_eq!(stack.blinking(2).figures, [1]);
        assert_eq!(stack.blinking(10).figures, [1]);
        assert_eq!(stack.blinking(11).figures, [0]);
    }

    #[test]
    fn the_first_frame_is_least_and_greatest() {
        let mut stack = Four::empty([0; 4]);
        stack.add([3, 0, 10, 5]);
        assert_eq!(stack.least, [3, 0, 10, 5]);
        assert_eq!(stack.greatest, [3, 0, 10, 5]);
        stack.add([2, 1, 10, 6]);
        assert_eq!(stack.least, [2, 0, 10, 5]);
        assert_eq!(stack.greatest, [3, 1, 10, 6]);
    }

    #[test]
    fn a_refused_frame_leaves_the_stack() {
        let mut stack = Four::empty([0, 0, 0, 1]);
        stack.add([3, 4, 5, 6]);
        let before = stack.clone();
        assert_eq!(stack.add([9, 9, 11, 9]).number, 6);
        stack.frames = 101;
        assert_eq!(stack.add([9; 4]).number, 3);
        stack.frames = 100;
        assert_eq!(stack.add([9; 4]).number, 11);
        assert_eq!(stack.sums, before.sums);
        assert_eq!(stack.squares, before.squares);
        assert_eq!(stack.least, before.least);
        assert_eq!(stack.greatest, before.greatest);
    }

    /// Site 0 at 100, then at 900, the others at 500 both times, full scale 1023.
    #[test]
    fn one_site_blinks() {
        let empty = Four::empty([0; 4]);
        let empty = Stack {
            full_scale: 1023,
            ..empty.stack()
        };
        let twice = Stack {
            frames: 2,
            sums: &[1000; 4],
            squares: &[820_000, 500_000, 500_000, 500_000],
            least: &[100, 500, 500, 500],
            greatest: &[900, 500, 500, 500],
            ..empty
        };
        assert_eq!(blinking_sites(&twice, 800).figures, [1]);
        assert_eq!(blinking_sites(&twice, 801).figures, [0]);
        assert_eq!(blinking_sites(&twice, 1).figures, [1]);
        assert_eq!(blinking_sites(&empty, 1).number, 3);
    }

    /// R8: the conditions decide, though no frames give these sums.
    #[test]
    fn sums_within_the_conditions_are_accepted() {
        let of = |q| Four::filled([0; 4], 2, held(0, q, 0, 0));
        assert_eq!(of(200).variance().figures, [1600, 16, bits(1600.0, 16.0)]);
        assert_eq!(of(200).blinking(1).figures, [0]);
        assert_eq!(of(201).variance().number, 11);
        assert_eq!(of(201).blinking(1).number, 11);
    }

    /// Both sides of each condition, in all three calls.
    #[test]
    fn each_condition_of_11() {
        let judged = |frames, held| {
            let mut stack = Four::filled([0, 1, 1, 1], frames, held);
            let number = stack.variance().number;
            assert_eq!(stack.blinking(1).number, number);
            assert_eq!(stack.add([0; 4]).number, number);
            number
        };
        assert_eq!(judged(3, held(30, 300, 10, 10)), 0);
        assert_eq!(judged(3, held(30, 301, 10, 10)), 11);
        assert_eq!(judged(3, held(31, 320, 10, 11)), 11);
        assert_eq!(judged(3, held(4, 6, 1, 2)), 0);
        assert_eq!(judged(3, held(4, 5, 1, 2)), 11);
        assert_eq!(judged(3, held(4, 6, 1, 10)), 0);
        assert_eq!(judged(3, held(4, 6, 1, 11)), 11);
        assert_eq!(judged(3, held(6, 12, 2, 2)), 0);
        assert_eq!(judged(3, held(5, 12, 2, 2)), 11);
        assert_eq!(judged(3, held(7, 17, 2, 2)), 11);
        assert_eq!(judged(3, held(6, 12, 3, 2)), 11);
        assert_eq!(judged(3, held(0, 0, 0, 0)), 0);
    }

    #[test]
    fn an_empty_stack_holds_zeros() {
        let added = |held| Four::filled([0, 1, 2, 3], 0, held).add([5; 4]).number;
        assert_eq!(added(held(0, 0, 0, 0)), 0);
        for held in [
            held(1, 0, 0, 0),
            held(0, 1, 0, 0),
            held(0, 0, 1, 0),
            held(0, 0, 0, 1),
            held(0, 0, 1, 1),
        ] {
            assert_eq!(added(held), 11);
        }
    }

    /// R10.
    #[test]
    fn frame_counts() {
        let of =
            |frames, s: u32, greatest| Four::filled([0, 1, 1, 1], frames, held(s, s, 0, greatest));
        let added = |frames, sample, s, greatest| of(frames, s, greatest).add([sample; 4]);
        assert_eq!(added(0, 10, 0, 0).figures, [1]);
        assert_eq!(added(0, 10, 1, 0).number, 11);
        assert_eq!(added(99, 10, 0, 10).figures, [100]);
        assert_eq!(added(100, 10, 0, 10), settle(Err(Refusal::new(12, 0)), 1));
        assert_eq!(added(100, 11, 0, 10).number, 6);
        assert_eq!(added(100, 10, 0, 11).number, 11);
        assert_eq!(added(101, 11, 0, 11).number, 3);
        let varied = |frames, greatest| of(frames, 0, greatest).variance().number;
        assert_eq!(varied(0, 0), 3);
        assert_eq!(varied(1, 11), 7);
        assert_eq!(varied(2, 0), 0);
        assert_eq!(varied(100, 0), 0);
        assert_eq!(varied(101, 0), 3);
        let blinking = |frames, greatest| of(frames, 0, greatest).blinking(1).number;
        assert_eq!(blinking(0, 0), 3);
        assert_eq!(blinking(0, 1), 3);
        assert_eq!(blinking(1, 0), 0);
        assert_eq!(blinking(1, 11), 11);
        assert_eq!(blinking(100, 10), 0);
        assert_eq!(blinking(101, 10), 3);
    }

    /// No surveyed site: 7 in the variance, the count 0 in the new call, and nothing is read.
    #[test]
    fn no_surveyed_site() {
        let stack = Four::filled([1, 2, 3, 1], 2, held(u32::MAX, 0, 65535, 0));
        assert_eq!(stack.variance().number, 7);
        assert_eq!(stack.blinking(1), settle(Ok(vec![0]), 1));
    }

    #[test]
    fn spreads_on_both_sides_of_each_limit() {
        let stack = Four::filled([0; 4], 2, held(10, 100, 0, 10));
        for (spread, count) in [(1, 4), (10, 4), (11, 0), (4095, 0)] {
            assert_eq!(stack.blinking(spread), settle(Ok(vec![count]), 1));
        }
        for spread in [0, 4096, (1 << 32) + 1, u64::MAX] {
            assert_eq!(stack.blinking(spread), settle(Err(Refusal::new(3, 0)), 1));
        }
    }

    /// The numerator is at most n x (k x full scale)^2, and these sums, which refusal 11 lets pass,
    /// meet that bound. It is below 2^53, so every numerator is an exact float.
    #[test]
    fn the_greatest_numerator() {
        let (mask, sums, ends) = (vec![0; 16384], vec![0; 16384], vec![0; 16384]);
        let squares = vec![100 * 4095 * 4095; 16384];
        let greatest = Stack {
            width: 128,
            height: 128,
            full_scale: 4095,
            frames: 100,
            mask: &mask,
            sums: &sums,
            squares: &squares,
            least: &ends,
            greatest: &ends,
        };
        let bound = 16384 * (100 * 4095i128).pow(2);
        assert_eq!(bound, 2_747_437_056_000_000);
        assert!(bound < 1 << 53);
        let figures = stack_variance(&greatest).figures;
        assert_eq!(figures, [bound, 163_840_000, bits(16_769_025.0, 1.0)]);
    }
}
