//! Lists of points, of which some are chosen.

use reference::gain::{Point, Transfer};

use super::dice::Dice;
use crate::library::Lent;

pub const MOST: usize = 64;
pub const TOP_MEAN: u64 = 65_520;
pub const TOP_VARIANCE: u64 = 1 << 28;

/// A list, with the places of the first and the last chosen point.
#[derive(Clone, Debug, PartialEq)]
pub struct List {
    pub points: Lent<Point>,
    pub first: usize,
    pub last: usize,
}

impl List {
    pub fn new(points: Vec<Point>, first: usize, last: usize) -> Self {
        let points = Lent::new("points", points);
        List {
            points,
            first,
            last,
        }
    }

    /// All chosen.
    pub fn whole(points: Vec<Point>) -> Self {
        let last = points.len().saturating_sub(1);
        List::new(points, 0, last)
    }

    /// Any two ends.
    pub fn part(points: Vec<Point>, dice: &mut Dice) -> Self {
        let ends = [dice.below(points.len()), dice.below(points.len())];
        List::new(points, ends[0].min(ends[1]), ends[0].max(ends[1]))
    }

    /// These chosen, among others, as far as there is room.
    pub fn among_others(chosen: Vec<Point>, dice: &mut Dice) -> Self {
        let room = MOST - chosen.len();
        let before = dice.below(room + 1);
        let after = dice.below(room - before + 1);
        let last = before + chosen.len() - 1;
        let points = [any(before, dice), chosen, any(after, dice)].concat();
        List::new(points, before, last)
    }

    /// With nothing that gives 3 or 7.
    pub fn legal(dice: &mut Dice) -> Self {
        let most = dice.among(&[2, 5, 20, MOST as u64]);
        let chosen = dice.between(2, most) as usize;
        let chosen = match dice.one_in(3) {
            true => camera(chosen, dice),
            false => any(chosen, dice),
        };
        List::among_others(chosen, dice)
    }

    pub fn lent(&self) -> Transfer<'_> {
        Transfer {
            points: &self.points,
            first: self.first,
            last: self.last,
        }
    }

    /// The ends are in the list.
    pub fn chosen(&mut self) -> &mut [Point] {
        &mut self.points[self.first..=self.last]
    }
}

/// In a band or at its ends alone, in any order or rising.
fn numbers(length: usize, most: u64, dice: &mut Dice) -> Vec<u64> {
    let ends = [dice.between(0, most), dice.between(0, most)];
    let near = dice.between(0, 100);
    let (least, greatest) = dice.among(&[
        (0, most),
        (ends[0].min(ends[1]), ends[0].max(ends[1])),
        (0, near),
        (most - near, most),
    ]);
    let (ends_alone, rising) = (dice.one_in(4), dice.one_in(4));
    let mut numbers: Vec<u64> = (0..length)
        .map(|_| match ends_alone {
            true => dice.among(&[least, greatest]),
            false => dice.between(least, greatest),
        })
        .collect();
    if rising {
        numbers.sort();
    }
    numbers
}

/// Anywhere, at the ends, as small as a mean, or rising.
pub fn exposures(length: usize, dice: &mut Dice) -> Vec<u64> {
    let way = dice.below(4);
    (0..length as u64)
        .map(|place| match way {
            0 => dice.draw(),
            1 => dice.among(&[0, 1, u64::MAX - 1, u64::MAX]),
            2 => dice.between(0, TOP_MEAN),
            _ => 1000 * (place + 1),
        })
        .collect()
}

fn of(means: Vec<u64>, variances: Vec<u64>, dice: &mut Dice) -> Vec<Point> {
    let exposures = exposures(means.len(), dice);
    let points = exposures.into_iter().zip(means).zip(variances);
    points
        .map(|((exposure, mean), variance)| Point {
            exposure,
            mean,
            variance,
        })
        .collect()
}

/// Within the limits.
pub fn any(length: usize, dice: &mut Dice) -> Vec<Point> {
    let means = numbers(length, TOP_MEAN, dice);
    let variances = numbers(length, TOP_VARIANCE, dice);
    of(means, variances, dice)
}

/// The variance rises with the mean, and falls once the camera is full.
pub fn camera(length: usize, dice: &mut Dice) -> Vec<Point> {
    let step = dice.between(1, TOP_MEAN / length as u64);
    let means: Vec<u64> = (0..length as u64).map(|place| place * step).collect();
    let gain = dice.between(1, TOP_VARIANCE / TOP_MEAN);
    let full = dice.below(length + 1);
    let variances = means.iter().enumerate().map(|(place, mean)| match place {
        _ if place < full => gain * mean,
        _ => gain * mean / (2 + place - full) as u64,
    });
    of(means.clone(), variances.collect(), dice)
}

/// All means at 0 or this one, half of them each, and the variances at 0 or that one with them.
pub fn two_heaps(length: usize, mean: u64, variance: u64, dice: &mut Dice) -> Vec<Point> {
    let mut points: Vec<(u64, u64)> = [(0, 0), (mean, variance)].repeat(length / 2);
    dice.shuffle(&mut points);
    let (means, variances) = points.into_iter().unzip();
    of(means, variances, dice)
}

/// Variances from the other end, which turns the sign of the slope.
pub fn turn(points: &mut [Point]) {
    for point in points {
        point.variance = TOP_VARIANCE - point.variance;
    }
}

/// So many points can come to any numerator a little above 2^53.
pub const FEWEST_AIMED: u64 = 50;

/// Points with this numerator, which is the sum of variance x (m x mean - sum of means): in one
/// of them that factor is 1, so it makes up for what the others leave.
pub fn aimed(numerator: u64, length: usize, dice: &mut Dice) -> Vec<Point> {
    let low = length / 2;
    let means = means_around_one(low, length, dice);
    let sum = means.iter().sum::<u64>() as i64;
    let factor = |mean: &u64| length as i64 * *mean as i64 - sum;
    let factors: Vec<i64> = means.iter().map(factor).collect();
    let mut variances: Vec<u64> = (0..low).map(|_| dice.between(0, 500)).collect();
    let so_far = variances.iter().zip(&factors).map(|(y, f)| *y as i64 * f);
    let missing = (numerator as i64 - so_far.sum::<i64>()) as u64;
    let of_high = factors[low..length - 1].iter().sum::<i64>() as u64;
    variances.resize(length - 1, missing / of_high);
    variances.push(missing % of_high);
    let mut points = of(means, variances, dice);
    dice.shuffle(&mut points);
    points
}

/// Low ones, high ones, and one last for which length x mean is 1 above the sum of all.
fn means_around_one(low: usize, length: usize, dice: &mut Dice) -> Vec<u64> {
    let others = length as u64 - 1;
    let mut means: Vec<u64> = (0..length - 1)
        .map(|place| match place {
            _ if place < low => dice.between(0, 500),
            _ => dice.between(TOP_MEAN - 500, TOP_MEAN),
        })
        .collect();
    let over = (means.iter().sum::<u64>() + 1) % others;
    means[0] += (others - over) % others;
    means.push((means.iter().sum::<u64>() + 1) / others);
    means
}
