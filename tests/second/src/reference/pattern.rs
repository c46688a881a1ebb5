//! Pattern noise: how the totals of neighbouring lines differ.

use crate::shared::{
    check_codes, check_full_scale, check_lengths, refuse_if, settle, sites_of, Answer, Outcome,
    Refusal,
};

/// What both calls are lent.
pub struct Sums<'a> {
    pub width: usize,
    pub height: usize,
    pub full_scale: u64,
    pub frames: u64,
    pub mask: &'a [u8],
    pub sums: &'a [u32],
}

/// Level numerator and denominator, Max numerator and denominator.
pub fn pattern_vertical(sums: &Sums) -> Answer {
    settle(vertical(sums), 4)
}

/// The same with rows.
pub fn pattern_horizontal(sums: &Sums) -> Answer {
    settle(horizontal(sums), 4)
}

fn vertical(lent: &Sums) -> Outcome {
    check(lent, lent.width)?;
    let mut totals = vec![0; lent.width];
    for (site, &s) in lent.sums.iter().enumerate() {
        totals[site % lent.width] += i128::from(s);
    }
    Ok(figures(&totals, lent.height, lent))
}

fn horizontal(lent: &Sums) -> Outcome {
    check(lent, lent.height)?;
    let mut totals = vec![0; lent.height];
    for (site, &s) in lent.sums.iter().enumerate() {
        totals[site / lent.width] += i128::from(s);
    }
    Ok(figures(&totals, lent.width, lent))
}

/// All refusals; `lines` is the side that needs 12.
fn check(lent: &Sums, lines: usize) -> Result<(), Refusal> {
    let sites = sites_of(lent.width, lent.height)?;
    check_full_scale(lent.full_scale)?;
    refuse_if(lent.frames == 0 || lent.frames > 100, 3)?;
    check_lengths(&[(lent.mask.len(), sites), (lent.sums.len(), sites)])?;
    check_codes(lent.mask)?;
    refuse_if(lent.mask.iter().any(|&code| code != 0), 8)?;
    refuse_if(lines < 12, 9)?;
    let most = lent.frames * lent.full_scale;
    refuse_if(lent.sums.iter().any(|&s| u64::from(s) > most), 11)
}

/// `along` is the count of sites in a line.
fn figures(totals: &[i128], along: usize, lent: &Sums) -> Vec<i128> {
    let lines = totals.len();
    let greatest_total = along as i128 * i128::from(lent.frames) * i128::from(lent.full_scale);
    let mut level = 0;
    for i in 0..=lines - 2 {
        let step = totals[i] - totals[i + 1];
        level += step * step;
    }
    let max = (5..=lines - 6).map(|i| deviation(totals, i).abs()).max();
    vec![
        level,
        (lines as i128 - 1) * greatest_total * greatest_total,
        max.expect("twelve lines have a sixth"),
        10 * greatest_total,
    ]
}

/// Ten times a total, less the five totals on each side.
fn deviation(totals: &[i128], i: usize) -> i128 {
    let mut deviation = 10 * totals[i];
    for away in 1..=5 {
        deviation -= totals[i - away] + totals[i + away];
    }
    deviation
}

#[cfg(test)]
mod tests {
    use super::*;

    /// Column (or row) `i` of `count` holds `line(i)` at each of its `along` sites.
    fn of_lines(
        (count, along): (usize, usize),
        (full_scale, frames): (u64, u64),
        line: impl Fn(usize) -> u32,
    ) -> (Answer, Answer) {
        let sites = count * along;
        let mask = vec![0; sites];
        let upright: Vec<u32> = (0..sites).map(|site| line(site % count)).collect();
        let lying: Vec<u32> = (0..sites).map(|site| line(site / along)).collect();
        let lent = |width, height, sums| Sums {
            width,
            height,
            full_scale,
            frames,
            mask: &mask,
            sums,
        };
        (
            pattern_vertical(&lent(count, along, &upright)),
            pattern_horizontal(&lent(along, count, &lying)),
        )
    }

    /// Twelve lines of two sites, as K8 has them; columns and rows give the same.
    fn figures_of_twelve(line: impl Fn(usize) -> u32) -> Vec<i128> {
        let (vertical, horizontal) = of_lines((12, 2), (1023, 1), line);
        assert_eq!(vertical, horizontal);
        assert_eq!(vertical.number, 0);
        vertical.figures
    }

    #[test]
    fn k8() {
        let figures = figures_of_twelve(|i| if i == 6 { 110 } else { 100 });
        assert_eq!(figures, [800, 46047276, 200, 20460]);
    }

    /// Request c.
    #[test]
    fn k8_with_the_line_dark() {
        let figures = figures_of_twelve(|i| if i == 6 { 90 } else { 100 });
        assert_eq!(figures, [800, 46047276, 200, 20460]);
    }

    /// R14's lines: neither line that counts is above the ten around it.
    #[test]
    fn two_dark_lines() {
        let figures = figures_of_twelve(|i| if i == 5 || i == 6 { 0 } else { 100 });
        assert_eq!(figures, [80000, 46047276, 1800, 20460]);
    }

    /// Of twelve lines the sixth and the seventh count; the others only show in the ten around these.
    #[test]
    fn each_line_dark_or_bright() {
        for line in 0..12 {
            for level in [90, 110] {
                let figures = figures_of_twelve(|i| if i == line { level } else { 100 });
                let max = if line == 5 || line == 6 { 200 } else { 20 };
                assert_eq!(figures[2..], [max, 20460]);
            }
        }
    }

    /// 10 x 20 of the greater one's own, and the 18 of the other in its ten.
    #[test]
    fn a_dark_line_beside_a_bright_one() {
        for (dark, bright) in [(90, 109), (91, 110)] {
            for (first, second) in [(dark, bright), (bright, dark)] {
                let figures = figures_of_twelve(|i| match i {
                    5 => first,
                    6 => second,
                    _ => 100,
                });
                assert_eq!(figures[2..], [218, 20460]);
            }
        }
    }

    #[test]
    fn a_stack_and_its_negative_have_the_same_figures() {
        let line = |i| (i * i * 89 % 1024) as u32;
        assert_eq!(
            figures_of_twelve(line),
            figures_of_twelve(|i| 1023 - line(i))
        );
    }

    #[test]
    fn max_is_0_for_equal_lines_and_a_straight_slope() {
        assert_eq!(figures_of_twelve(|_| 100), [0, 46047276, 0, 20460]);
        let (up, down) = (|i| 3 * i as u32, |i| 1023 - 3 * i as u32);
        assert_eq!(figures_of_twelve(up), [396, 46047276, 0, 20460]);
        assert_eq!(figures_of_twelve(down), [396, 46047276, 0, 20460]);
    }

    /// One line apart from all others by all there is: Max is 1.
    #[test]
    fn the_greatest_max() {
        for (one, others) in [(409_500, 0), (0, 409_500)] {
            let line = |i| if i == 64 { one } else { others };
            let (vertical, horizontal) = of_lines((128, 128), (4095, 100), line);
            assert_eq!(vertical.figures[2..], [524_160_000, 524_160_000]);
            assert_eq!(horizontal, vertical);
        }
    }

    /// R6: 2 x 2 with a gap and sums too great is 8, without the gap 9; 12 x 2 is 11.
    #[test]
    fn the_order_of_8_9_and_11() {
        let number = |width, mask: &[u8]| {
            let sums = vec![1024; mask.len()];
            let lent = Sums {
                width,
                height: 2,
                full_scale: 1023,
                frames: 1,
                mask,
                sums: &sums,
            };
            pattern_vertical(&lent).number
        };
        assert_eq!(number(2, &[0, 4, 1, 0]), 5);
        assert_eq!(number(2, &[0, 0, 1, 0]), 8);
        assert_eq!(number(2, &[0; 4]), 9);
        assert_eq!(number(10, &[0; 20]), 9);
        assert_eq!(number(12, &[0; 24]), 11);
    }

    #[test]
    fn only_the_side_across_the_lines_needs_twelve() {
        let lent = Sums {
            width: 12,
            height: 2,
            full_scale: 1023,
            frames: 1,
            mask: &[0; 24],
            sums: &[1023; 24],
        };
        assert_eq!(pattern_vertical(&lent).number, 0);
        assert_eq!(pattern_horizontal(&lent).number, 9);
    }
}
