//! Photon transfer (document 02, e): the slope of variance against mean, and where a list saturates.

use std::fmt::{Debug, Formatter, Result};

use crate::float::rounded_signed_quotient;
use crate::shared::{refuse_if, settle, Answer, Outcome};

/// Laid out as in C, so that a list is lent as it stands.
#[repr(C)]
#[derive(Clone, Copy, PartialEq, Eq)]
pub struct Point {
    pub exposure: u64,
    pub mean: u64,
    pub variance: u64,
}

impl Debug for Point {
    fn fmt(&self, to: &mut Formatter) -> Result {
        write!(to, "({}, {}, {})", self.exposure, self.mean, self.variance)
    }
}

/// A guard cell.
impl From<u8> for Point {
    fn from(byte: u8) -> Self {
        let any = u64::from_ne_bytes([byte; 8]);
        Point {
            exposure: any,
            mean: any,
            variance: any,
        }
    }
}

/// What the call is lent.
#[derive(Clone, Copy)]
pub struct Transfer<'a> {
    pub points: &'a [Point],
    pub first: usize,
    pub last: usize,
}

/// Numerator, denominator, the bits of their quotient, and the place of the greatest variance.
pub fn photon_transfer(lent: Transfer) -> Answer {
    settle(slope(lent), 4)
}

fn slope(lent: Transfer) -> Outcome {
    let points = lent.points;
    refuse_if(points.is_empty() || points.len() > 64, 3)?;
    refuse_if(points.iter().any(is_out_of_limits), 3)?;
    refuse_if(lent.first > lent.last || lent.last >= points.len(), 3)?;
    let chosen = &points[lent.first..=lent.last];
    refuse_if(chosen.len() < 2, 7)?;
    refuse_if(chosen.iter().all(|point| point.mean == chosen[0].mean), 13)?;
    let m = chosen.len() as i128;
    let (mut sum_x, mut sum_y, mut sum_xy, mut sum_xx) = (0, 0, 0, 0);
    for point in chosen {
        let (x, y) = (i128::from(point.mean), i128::from(point.variance));
        sum_x += x;
        sum_y += y;
        sum_xy += x * y;
        sum_xx += x * x;
    }
    let numerator = m * sum_xy - sum_x * sum_y;
    let denominator = m * sum_xx - sum_x * sum_x;
    refuse_if(numerator.abs() >= 1 << 53 || denominator >= 1 << 53, 14)?;
    let quotient = rounded_signed_quotient(numerator, denominator as u128);
    Ok(vec![
        numerator,
        denominator,
        quotient.into(),
        saturation(points) as i128,
    ])
}

pub fn is_out_of_limits(point: &Point) -> bool {
    point.mean > 65_520 || point.variance > 1 << 28
}

/// The first place of the greatest variance.
pub fn saturation(points: &[Point]) -> usize {
    let greatest = points.iter().map(|point| point.variance).max();
    points
        .iter()
        .position(|point| Some(point.variance) == greatest)
        .expect("a point")
}

#[cfg(test)]
mod tests {
    use super::*;
    use crate::shared::Refusal;

    const TOP: (u64, u64) = (65_520, 1 << 28);

    /// Points of these means and variances, with exposures that must not matter.
    fn of(points: &[(u64, u64)]) -> Vec<Point> {
        let numbered = points.iter().zip(0..);
        numbered
            .map(|(&(mean, variance), place)| Point {
                exposure: u64::MAX - 7 * place,
                mean,
                variance,
            })
            .collect()
    }

    fn asked(points: &[(u64, u64)], first: usize, last: usize) -> Answer {
        photon_transfer(Transfer {
            points: &of(points),
            first,
            last,
        })
    }

    /// All points chosen.
    fn all(points: &[(u64, u64)]) -> Answer {
        asked(points, 0, points.len() - 1)
    }

    fn accepted(numerator: i128, denominator: i128, slope: f64, saturation: i128) -> Answer {
        let figures = vec![numerator, denominator, slope.to_bits().into(), saturation];
        settle(Ok(figures), 4)
    }

    fn refused(number: u64) -> Answer {
        settle(Err(Refusal::new(number, 0)), 4)
    }

    /// So many points at the origin, and so many at another place.
    fn two_heaps(low: usize, high: usize, at: (u64, u64)) -> Vec<(u64, u64)> {
        [vec![(0, 0); low], vec![at; high]].concat()
    }

    #[test]
    fn straight_lines() {
        let rising = [(10, 20), (11, 22), (15, 30), (7, 14)];
        assert_eq!(all(&rising), accepted(262, 131, 2.0, 2));
        let falling = [(0, 4), (1, 2), (2, 0)];
        assert_eq!(all(&falling), accepted(-12, 6, -2.0, 0));
        // Neither the slope nor its parts see a variance that all have.
        let above = [(0, 104), (1, 102), (2, 100)];
        assert_eq!(all(&above), accepted(-12, 6, -2.0, 0));
    }

    #[test]
    fn the_fraction_is_unreduced_and_the_slope_rounded() {
        assert_eq!(all(&[(0, 0), (3, 1)]), accepted(3, 9, 1.0 / 3.0, 1));
        assert_eq!(all(&[(0, 1), (3, 0)]), accepted(-3, 9, -1.0 / 3.0, 0));
        let scattered = [(1, 5), (2, 3), (4, 9), (9, 6)];
        assert_eq!(all(&scattered), accepted(36, 152, 36.0 / 152.0, 2));
    }

    /// Tells a slope of -0.
    #[test]
    fn a_level_list_has_slope_0() {
        let level = all(&[(5, 8), (9, 8), (1, 8)]);
        assert_eq!(level, accepted(0, 96, 0.0, 0));
        assert_eq!(level.figures[2], 0);
        assert_eq!(all(&[(0, 0), (1, 9), (2, 0)]), accepted(0, 6, 0.0, 1));
    }

    #[test]
    fn both_ends_are_chosen_and_no_more() {
        let points = [(9, 900), (10, 20), (11, 22), (12, 26), (3, 900)];
        assert_eq!(asked(&points, 1, 2), accepted(2, 1, 2.0, 0));
        assert_eq!(asked(&points, 2, 3), accepted(4, 1, 4.0, 0));
        assert_eq!(asked(&points, 1, 3), accepted(18, 6, 3.0, 0));
    }

    #[test]
    fn saturation_is_the_first_of_the_whole_list() {
        let points = [(0, 1), (1, 7), (2, 3), (3, 9), (4, 9), (5, 2)];
        for (first, last) in [(0, 1), (0, 2), (1, 5), (4, 5), (0, 5)] {
            assert_eq!(asked(&points, first, last).figures[3], 3);
        }
        assert_eq!(all(&[(0, 0), (1, 0)]).figures[3], 0);
        assert_eq!(all(&[(0, 0), (1, 1)]).figures[3], 1);
    }

    #[test]
    fn lengths_of_the_list() {
        assert_eq!(asked(&[], 0, 0), refused(3));
        assert_eq!(asked(&[(1, 1)], 0, 0), refused(7));
        for (length, number) in [(2, 0), (63, 0), (64, 0), (65, 3), (70, 3)] {
            let points: Vec<(u64, u64)> = (0..length).map(|x| (x, x)).collect();
            assert_eq!(asked(&points, 0, 1).number, number);
            assert_eq!(all(&points).number, number);
        }
    }

    /// Chosen or not, at both limits and one past each.
    #[test]
    fn limits_of_every_point() {
        for place in 0..4 {
            for (point, number) in [
                (TOP, 0),
                ((65_521, 0), 3),
                ((0, (1 << 28) + 1), 3),
                ((u64::MAX, 0), 3),
                ((0, u64::MAX), 3),
            ] {
                let mut points = [(0, 0), (1, 2), (2, 4), (3, 6)];
                points[place] = point;
                assert_eq!(asked(&points, 1, 2).number, number);
            }
        }
    }

    #[test]
    fn ends_outside_or_reversed() {
        let points = [(1, 1), (2, 2), (3, 3)];
        for (first, last) in [
            (1, 0),
            (2, 1),
            (0, 3),
            (3, 3),
            (0, usize::MAX),
            (usize::MAX, usize::MAX),
            (usize::MAX, 0),
        ] {
            assert_eq!(asked(&points, first, last), refused(3));
        }
    }

    #[test]
    fn one_point_or_one_mean() {
        let points = [(4, 1), (4, 9), (4, 3), (5, 3)];
        for place in 0..4 {
            assert_eq!(asked(&points, place, place), refused(7));
        }
        assert_eq!(asked(&points, 0, 1), refused(13));
        assert_eq!(asked(&points, 0, 2), refused(13));
        assert_eq!(asked(&points, 0, 3), accepted(-4, 3, -4.0 / 3.0, 1));
    }

    /// The first that applies is given: a bad point elsewhere before 7 and 13.
    #[test]
    fn refusals_in_order() {
        let points = [(4, 1), (4, 9), (65_521, 3)];
        assert_eq!(asked(&points, 0, 0), refused(3));
        assert_eq!(asked(&points, 0, 1), refused(3));
        assert_eq!(asked(&points[..2], 0, 0), refused(7));
        assert_eq!(asked(&points[..2], 2, 2), refused(3));
    }

    /// Document 02's own example of 14: its numerator is 18,010,000,462,970,880.
    #[test]
    fn the_greatest_numerator_is_refused() {
        assert_eq!(1024 * 65_520 << 28, 18_010_000_462_970_880i128);
        let mut points = two_heaps(32, 32, TOP);
        assert_eq!(all(&points), refused(14));
        points.reverse();
        assert_eq!(all(&points), refused(14));
        for point in &mut points {
            point.1 = (1 << 28) - point.1;
        }
        assert_eq!(all(&points), refused(14));
    }

    /// 32 and 32 points give 1024 x mean x variance.
    #[test]
    fn numerators_around_2_to_the_53() {
        let exact = two_heaps(32, 32, (1 << 15, 1 << 28));
        assert_eq!(all(&exact), refused(14));
        let mut below = exact.clone();
        below[63].1 -= 1;
        let (numerator, denominator) = ((1 << 53) - (1 << 20), 1 << 40);
        let slope = numerator as f64 / denominator as f64;
        assert_eq!(all(&below), accepted(numerator, denominator, slope, 32));
        let turned: Vec<_> = below.iter().map(|&(x, y)| (x, (1 << 28) - y)).collect();
        assert_eq!(all(&turned), accepted(-numerator, denominator, -slope, 0));
        let turned: Vec<_> = exact.iter().map(|&(x, y)| (x, (1 << 28) - y)).collect();
        assert_eq!(all(&turned), refused(14));
    }

    /// One point has 63 x 32,761 - 2,063,942 = 1 as its variance's factor, so that it adds any number.
    #[test]
    fn the_last_numerator_below_2_to_the_53() {
        let mut points = two_heaps(30, 31, (65_520, 140_785_095));
        points.extend([(61, 0), (32_761, 0)]);
        let base = numerator_of(&points);
        let missing = (1 << 53) - 1 - base;
        assert!((0..1 << 28).contains(&missing));
        points[62].1 = missing as u64;
        assert_eq!(numerator_of(&points), (1 << 53) - 1);
        assert_eq!(all(&points).figures[0], (1 << 53) - 1);
        points[62].1 += 1;
        assert_eq!(numerator_of(&points), 1 << 53);
        assert_eq!(all(&points), refused(14));
    }

    /// By the pairs of points: the sum of (x - x') (y - y').
    fn numerator_of(points: &[(u64, u64)]) -> i128 {
        let wide = |point: (u64, u64)| (i128::from(point.0), i128::from(point.1));
        let mut numerator = 0;
        for (at, &one) in points.iter().enumerate() {
            for &other in &points[..at] {
                let ((x, y), (other_x, other_y)) = (wide(one), wide(other));
                numerator += (x - other_x) * (y - other_y);
            }
        }
        numerator
    }

    /// 1024 x 65,520^2, so 14 never comes from the denominator.
    #[test]
    fn the_greatest_denominator() {
        let points = two_heaps(32, 32, (65_520, 0));
        let denominator = 1024 * 65_520i128.pow(2);
        assert_eq!(denominator, 4_395_899_289_600);
        assert!(denominator < 1 << 53);
        assert_eq!(all(&points), accepted(0, denominator, 0.0, 0));
    }
}
