//! Photon transfer (document 02, e): slips that it could make, which cases tell them, and what the
//! answers to two lists have to do with each other.
//!
//! Some slips are left out, since they give no other answer. 14 before 7 or 13: with one mean both
//! numerator and denominator are 0. 14 by the numerator alone: no denominator is above 1024 x
//! 65,520^2, which is below 2^53. The three arms of 3 in another order: all have place 0. No test
//! for the empty list, or for the first end: a last end in the list, and not before the first, is
//! enough. A slope made of the reduced fraction: one rounded division gives the same.

use std::mem::swap;

use crate::float::rounded_signed_quotient;
use crate::gain::{is_out_of_limits, photon_transfer, saturation, Point, Transfer};
use crate::shared::{keep, names, refuse_if, settle, Answer, Law, Outcome};

/// Numerator and denominator.
type Fraction = (i128, i128);

/// A refusal's number, and when it is given.
type Test = (u64, fn(&Program, Transfer) -> bool);

/// The call in parts: a slip has another one.
struct Program {
    read: fn(&mut Point),
    ends: fn(usize, usize) -> (usize, usize),
    most_points: usize,
    greatest_mean: u64,
    greatest_variance: u64,
    /// The points whose limits are asked.
    limited: fn(Transfer<'_>) -> &[Point],
    /// In the order in which they are made.
    tests: [Test; 6],
    summed: fn(Transfer) -> Vec<Point>,
    spoil: fn(&mut Sums, Transfer),
    fraction: fn(Sums) -> Fraction,
    is_too_great: fn(Sums, Fraction) -> bool,
    /// The bits of the float.
    slope: fn(Sums, Fraction) -> u64,
    saturation: fn(Transfer) -> usize,
}

const RIGHT: Program = Program {
    read: |_| (),
    ends: |first, last| (first, last),
    most_points: 64,
    greatest_mean: 65_520,
    greatest_variance: 1 << 28,
    limited: |lent| lent.points,
    tests: [LENGTH, LIMITS, ENDS, FEW, EQUAL, GREAT],
    summed: |lent| chosen(lent).to_vec(),
    spoil: |_, _| (),
    fraction,
    is_too_great: |_, (numerator, denominator)| {
        numerator.abs() >= TWO_TO_53 || denominator.abs() >= TWO_TO_53
    },
    slope: |_, fraction| quotient(fraction),
    saturation: |lent| saturation(lent.points),
};

const TWO_TO_53: i128 = 1 << 53;

const LENGTH: Test = (3, |program, lent| {
    lent.points.is_empty() || lent.points.len() > program.most_points
});
const LIMITS: Test = (3, |program, lent| {
    (program.limited)(lent).iter().any(|point| {
        point.mean > program.greatest_mean || point.variance > program.greatest_variance
    })
});
const ENDS: Test = (3, |_, lent| {
    lent.first > lent.last || lent.last >= lent.points.len()
});
const FEW: Test = (7, |_, lent| lent.first == lent.last);
const EQUAL: Test = (13, |program, lent| {
    all_equal(&(program.summed)(lent), |point| point.mean)
});
const GREAT: Test = (14, |program, lent| {
    let sums = program.sums_of(lent);
    (program.is_too_great)(sums, (program.fraction)(sums))
});

// Wrong tests.
const LIMITS_OF_EXPOSURES: Test = (3, |program, lent| {
    let is_high = |point: &Point| point.exposure > program.greatest_mean;
    LIMITS.1(program, lent) || lent.points.iter().any(is_high)
});
const EXPOSURES_IN_ORDER: Test = (3, |program, lent| {
    let in_order = lent.points.is_sorted_by_key(|point| point.exposure);
    LIMITS.1(program, lent) || !in_order
});
const ENDS_TO_THE_LENGTH: Test = (3, |_, lent| {
    lent.first > lent.last || lent.last > lent.points.len()
});
const ENDS_THAT_WRAP: Test = (3, |_, lent| {
    lent.first > lent.last || lent.last.wrapping_add(1) > lent.points.len()
});
const FEW_OR_NONE: Test = (7, |_, lent| {
    lent.last <= lent.first && lent.first < lent.points.len()
});
const EQUAL_OF_MORE: Test = (13, |_, lent| {
    lent.first < lent.last && all_equal(chosen(lent), |point| point.mean)
});
const EQUAL_IN_ALL: Test = (13, |_, lent| all_equal(lent.points, |point| point.mean));
const EQUAL_AT_ENDS: Test = (13, |_, lent| {
    lent.points[lent.first].mean == lent.points[lent.last].mean
});
const EQUAL_NEIGHBOURS: Test = (13, |_, lent| {
    let is_equal = |two: &[Point]| two[0].mean == two[1].mean;
    chosen(lent).windows(2).any(is_equal)
});
const EQUAL_VARIANCES: Test = (13, |program, lent| {
    EQUAL.1(program, lent) || all_equal(chosen(lent), |point| point.variance)
});

impl Program {
    fn answer(&self, lent: Transfer) -> Answer {
        let mut points = lent.points.to_vec();
        points.iter_mut().for_each(self.read);
        let (first, last) = (self.ends)(lent.first, lent.last);
        let lent = Transfer {
            points: &points,
            first,
            last,
        };
        settle(self.outcome(lent), 4)
    }

    fn outcome(&self, lent: Transfer) -> Outcome {
        for (number, applies) in self.tests {
            refuse_if(applies(self, lent), number)?;
        }
        let sums = self.sums_of(lent);
        let fraction = (self.fraction)(sums);
        let slope = (self.slope)(sums, fraction).into();
        let saturation = (self.saturation)(lent) as i128;
        Ok(vec![fraction.0, fraction.1, slope, saturation])
    }

    fn sums_of(&self, lent: Transfer) -> Sums {
        let mut sums = Sums::of(&(self.summed)(lent));
        (self.spoil)(&mut sums, lent);
        sums
    }
}

/// Of x and y over the points, and of their products.
#[derive(Clone, Copy)]
struct Sums {
    m: i128,
    x: i128,
    y: i128,
    xx: i128,
    xy: i128,
    yy: i128,
}

impl Sums {
    fn of(points: &[Point]) -> Self {
        let mut sums = Sums {
            m: points.len() as i128,
            x: 0,
            y: 0,
            xx: 0,
            xy: 0,
            yy: 0,
        };
        for point in points {
            let (x, y) = (wide(point.mean), wide(point.variance));
            sums.x += x;
            sums.y += y;
            sums.xx += x * x;
            sums.xy += x * y;
            sums.yy += y * y;
        }
        sums
    }
}

/// Far beyond the limits, and yet no product of sums overflows.
fn wide(number: u64) -> i128 {
    number.min(1 << 56).into()
}

fn fraction(sums: Sums) -> Fraction {
    let Sums {
        m, x, y, xx, xy, ..
    } = sums;
    (m * xy - x * y, m * xx - x * x)
}

/// What is no number where a slip made the denominator 0.
fn quotient((numerator, denominator): Fraction) -> u64 {
    match denominator {
        0 => f64::NAN.to_bits(),
        _ => rounded_signed_quotient(numerator * denominator.signum(), denominator.unsigned_abs()),
    }
}

fn reduced(sums: Sums) -> Fraction {
    let (numerator, denominator) = fraction(sums);
    let common = divisor(numerator.abs(), denominator).max(1);
    (numerator / common, denominator / common)
}

fn divisor(one: i128, other: i128) -> i128 {
    match other {
        0 => one,
        _ => divisor(other, one % other),
    }
}

/// None where the ends are outside or reversed.
fn chosen(lent: Transfer<'_>) -> &[Point] {
    lent.points.get(lent.first..=lent.last).unwrap_or_default()
}

fn all_equal(points: &[Point], of: fn(&Point) -> u64) -> bool {
    points.iter().all(|point| of(point) == of(&points[0]))
}

fn first_greatest(points: &[Point], of: fn(&Point) -> u64) -> usize {
    let greatest = points.iter().map(of).max();
    let is_greatest = |point: &Point| Some(of(point)) == greatest;
    points.iter().position(is_greatest).expect("a point")
}

fn last_greatest(lent: Transfer) -> usize {
    let greatest = lent.points[saturation(lent.points)].variance;
    let is_greatest = |point: &Point| point.variance == greatest;
    lent.points.iter().rposition(is_greatest).expect("a point")
}

/// The last place where it never falls.
fn first_fall(lent: Transfer) -> usize {
    let falls = |two: &[Point]| two[1].variance < two[0].variance;
    let fall = lent.points.windows(2).position(falls);
    fall.unwrap_or(lent.points.len() - 1)
}

/// Makes a part another one.
type Slip = fn(&mut Program);

const SLIPS: &[(&str, Slip)] = &[
    // The length, and the limits of the points.
    ("64 points refused", |wrong| wrong.most_points = 63),
    ("65 points accepted", |wrong| wrong.most_points = 65),
    ("mean of 65520 refused", |wrong| {
        wrong.greatest_mean = 65_519
    }),
    ("mean of 65521 accepted", |wrong| {
        wrong.greatest_mean = 65_521
    }),
    ("variance of 2^28 refused", |wrong| {
        wrong.greatest_variance = (1 << 28) - 1
    }),
    ("variance of 2^28 + 1 accepted", |wrong| {
        wrong.greatest_variance = (1 << 28) + 1
    }),
    ("limits exchanged", |wrong| {
        (wrong.greatest_mean, wrong.greatest_variance) = (1 << 28, 65_520)
    }),
    ("limits of the chosen alone", |wrong| wrong.limited = chosen),
    ("no limits of the first point", |wrong| {
        wrong.limited = |lent| lent.points.get(1..).unwrap_or_default()
    }),
    ("no limits of the last point", |wrong| {
        wrong.limited = |lent| match lent.points {
            [others @ .., _] => others,
            [] => &[],
        }
    }),
    ("exposures limited", |wrong| {
        wrong.tests = [LENGTH, LIMITS_OF_EXPOSURES, ENDS, FEW, EQUAL, GREAT]
    }),
    ("exposures in order", |wrong| {
        wrong.tests = [LENGTH, EXPOSURES_IN_ORDER, ENDS, FEW, EQUAL, GREAT]
    }),
    // One field for another, or fewer of its bits.
    ("means in 16 bits", |wrong| {
        wrong.read = |point| point.mean %= 1 << 16
    }),
    ("means in 32 bits", |wrong| {
        wrong.read = |point| point.mean %= 1 << 32
    }),
    ("variances in 32 bits", |wrong| {
        wrong.read = |point| point.variance %= 1 << 32
    }),
    ("mean and variance exchanged", |wrong| {
        wrong.read = |point| swap(&mut point.mean, &mut point.variance)
    }),
    ("exposure read for mean", |wrong| {
        wrong.read = |point| point.mean = point.exposure
    }),
    ("exposure read for variance", |wrong| {
        wrong.read = |point| point.variance = point.exposure
    }),
    ("exposure summed for mean", |wrong| {
        wrong.summed = |lent| {
            let mut points = chosen(lent).to_vec();
            for point in &mut points {
                point.mean = point.exposure;
            }
            points
        }
    }),
    // The ends.
    ("reversed ends exchanged", |wrong| {
        wrong.ends = |first, last| (first.min(last), first.max(last))
    }),
    ("ends in 32 bits", |wrong| {
        wrong.ends = |first, last| (first % (1 << 32), last % (1 << 32))
    }),
    ("ends counted from 1", |wrong| {
        wrong.ends = |first, last| (first.wrapping_sub(1), last.wrapping_sub(1))
    }),
    ("last end at the length accepted", |wrong| {
        wrong.tests = [LENGTH, LIMITS, ENDS_TO_THE_LENGTH, FEW, EQUAL, GREAT]
    }),
    ("last end of 2^64 - 1 accepted", |wrong| {
        wrong.tests = [LENGTH, LIMITS, ENDS_THAT_WRAP, FEW, EQUAL, GREAT]
    }),
    ("7 for reversed ends", |wrong| {
        wrong.tests = [LENGTH, LIMITS, FEW_OR_NONE, ENDS, EQUAL, GREAT]
    }),
    // The order of the refusals.
    ("7 before 3", |wrong| {
        wrong.tests = [FEW, LENGTH, LIMITS, ENDS, EQUAL, GREAT]
    }),
    ("7 before limits", |wrong| {
        wrong.tests = [LENGTH, ENDS, FEW, LIMITS, EQUAL, GREAT]
    }),
    ("7 before ends", |wrong| {
        wrong.tests = [LENGTH, LIMITS, FEW, ENDS, EQUAL, GREAT]
    }),
    ("13 before 7", |wrong| {
        wrong.tests = [LENGTH, LIMITS, ENDS, EQUAL, FEW, GREAT]
    }),
    ("13 before limits", |wrong| {
        wrong.tests = [LENGTH, ENDS, EQUAL_OF_MORE, LIMITS, FEW, GREAT]
    }),
    ("14 before limits", |wrong| {
        wrong.tests = [LENGTH, ENDS, GREAT, LIMITS, FEW, EQUAL]
    }),
    // When 13 and 14 are given.
    ("13 of the whole list", |wrong| {
        wrong.tests = [LENGTH, LIMITS, ENDS, FEW, EQUAL_IN_ALL, GREAT]
    }),
    ("13 where the ends have one mean", |wrong| {
        wrong.tests = [LENGTH, LIMITS, ENDS, FEW, EQUAL_AT_ENDS, GREAT]
    }),
    ("13 where two neighbours have one mean", |wrong| {
        wrong.tests = [LENGTH, LIMITS, ENDS, FEW, EQUAL_NEIGHBOURS, GREAT]
    }),
    ("13 of equal variances", |wrong| {
        wrong.tests = [LENGTH, LIMITS, ENDS, FEW, EQUAL_VARIANCES, GREAT]
    }),
    ("14 above 2^53 only", |wrong| {
        wrong.is_too_great = |_, (numerator, _)| numerator.abs() > TWO_TO_53
    }),
    ("14 at 2^53 - 1", |wrong| {
        wrong.is_too_great = |_, (numerator, _)| numerator.abs() >= TWO_TO_53 - 1
    }),
    ("14 of rising lines only", |wrong| {
        wrong.is_too_great = |_, (numerator, _)| numerator >= TWO_TO_53
    }),
    ("14 below -2^53 only", |wrong| {
        wrong.is_too_great = |_, (numerator, _)| !(-TWO_TO_53..TWO_TO_53).contains(&numerator)
    }),
    ("14 of the products", |wrong| {
        wrong.is_too_great = |sums, _| sums.m * sums.xy >= TWO_TO_53
    }),
    ("14 never", |wrong| wrong.is_too_great = |_, _| false),
    // The points that are summed.
    ("first left out", |wrong| {
        wrong.summed = |lent| chosen(lent)[1..].to_vec()
    }),
    ("last left out", |wrong| {
        wrong.summed = |lent| chosen(lent)[..lent.last - lent.first].to_vec()
    }),
    ("whole list summed", |wrong| {
        wrong.summed = |lent| lent.points.to_vec()
    }),
    // The sums.
    ("m one short", |wrong| wrong.spoil = |sums, _| sums.m -= 1),
    ("m of the whole list", |wrong| {
        wrong.spoil = |sums, lent| sums.m = lent.points.len() as i128
    }),
    ("sum of y^2 for x^2", |wrong| {
        wrong.spoil = |sums, _| sums.xx = sums.yy
    }),
    ("sum of xy for x^2", |wrong| {
        wrong.spoil = |sums, _| sums.xx = sums.xy
    }),
    ("sum of x^2 for xy", |wrong| {
        wrong.spoil = |sums, _| sums.xy = sums.xx
    }),
    ("sum of y in 32 bits", |wrong| {
        wrong.spoil = |sums, _| sums.y %= 1 << 32
    }),
    ("sum of x^2 in 32 bits", |wrong| {
        wrong.spoil = |sums, _| sums.xx %= 1 << 32
    }),
    ("sum of xy in 32 bits", |wrong| {
        wrong.spoil = |sums, _| sums.xy %= 1 << 32
    }),
    // The fraction.
    ("squared sum in 32 bits", |wrong| {
        wrong.fraction = |sums| {
            (
                fraction(sums).0,
                sums.m * sums.xx - sums.x.pow(2) % (1 << 32),
            )
        }
    }),
    ("y below", |wrong| {
        wrong.fraction = |sums| (fraction(sums).0, sums.m * sums.yy - sums.y.pow(2))
    }),
    ("line through the origin", |wrong| {
        wrong.fraction = |sums| (sums.xy, sums.xx)
    }),
    ("products the other way", |wrong| {
        wrong.fraction = |sums| (-fraction(sums).0, fraction(sums).1)
    }),
    ("sign lost", |wrong| {
        wrong.fraction = |sums| (fraction(sums).0.abs(), fraction(sums).1)
    }),
    ("0 for a falling line", |wrong| {
        wrong.fraction = |sums| (fraction(sums).0.max(0), fraction(sums).1)
    }),
    ("fraction reduced", |wrong| wrong.fraction = reduced),
    // The slope.
    ("sign lost in the slope", |wrong| {
        wrong.slope = |_, fraction| quotient(fraction) & !(1 << 63)
    }),
    ("slope of -0", |wrong| {
        wrong.slope = |_, fraction| quotient(fraction) | u64::from(fraction.0 <= 0) << 63
    }),
    ("slope turned over", |wrong| {
        wrong.slope = |_, (numerator, denominator)| quotient((denominator, numerator))
    }),
    ("slope in 32 bits", |wrong| {
        wrong.slope = |_, fraction| f64::from(f64::from_bits(quotient(fraction)) as f32).to_bits()
    }),
    ("slope of float products", |wrong| {
        wrong.slope = |sums, _| {
            let [m, x, y, xx, xy] = floats(sums);
            ((m * xy - x * y) / (m * xx - x * x)).to_bits()
        }
    }),
    ("slope of float means", |wrong| {
        wrong.slope = |sums, _| {
            let [m, x, y, xx, xy] = floats(sums);
            ((xy / m - x / m * (y / m)) / (xx / m - x / m * (x / m))).to_bits()
        }
    }),
    ("slope by a reciprocal", |wrong| {
        wrong.slope =
            |_, (numerator, denominator)| (numerator as f64 * (1.0 / denominator as f64)).to_bits()
    }),
    // The saturation.
    ("saturation of the chosen", |wrong| {
        wrong.saturation = |lent| lent.first + saturation(chosen(lent))
    }),
    ("saturation counted from the first chosen", |wrong| {
        wrong.saturation = |lent| saturation(chosen(lent))
    }),
    ("saturation counted from 1", |wrong| {
        wrong.saturation = |lent| saturation(lent.points) + 1
    }),
    ("last of equal variances", |wrong| {
        wrong.saturation = last_greatest
    }),
    ("first point never saturates", |wrong| {
        wrong.saturation = |lent| 1 + saturation(&lent.points[1..])
    }),
    ("last point never saturates", |wrong| {
        wrong.saturation = |lent| saturation(&lent.points[..lent.points.len() - 1])
    }),
    ("saturation where the variance first falls", |wrong| {
        wrong.saturation = first_fall
    }),
    ("saturation by mean", |wrong| {
        wrong.saturation = |lent| first_greatest(lent.points, |point| point.mean)
    }),
    ("saturation by exposure", |wrong| {
        wrong.saturation = |lent| first_greatest(lent.points, |point| point.exposure)
    }),
];

fn floats(sums: Sums) -> [f64; 5] {
    [sums.m, sums.x, sums.y, sums.xx, sums.xy].map(|sum| sum as f64)
}

/// Whether a number that should be 0 in a refusal, and is not, would show.
type Sign = fn(Transfer, u64) -> bool;

const SIGNS: &[(&str, Sign)] = &[
    ("place of a bad point at 3", |lent, number| {
        let bad = lent.points.iter().position(is_out_of_limits);
        number == 3 && bad > Some(0)
    }),
    ("saturation at 3", |lent, number| {
        number == 3 && !lent.points.is_empty() && saturation(lent.points) > 0
    }),
    ("saturation at 7", |lent, number| {
        number == 7 && saturation(lent.points) > 0
    }),
    ("saturation at 13", |lent, number| {
        number == 13 && saturation(lent.points) > 0
    }),
    ("saturation at 14", |lent, number| {
        number == 14 && saturation(lent.points) > 0
    }),
];

const NUMERATORS: &[(&str, i128)] = &[
    ("greatest numerator", 18_010_000_462_970_880),
    ("numerator 2^53 + 1", TWO_TO_53 + 1),
    ("numerator 2^53", TWO_TO_53),
    ("numerator 2^53 - 1", TWO_TO_53 - 1),
    ("numerator 0", 0),
    ("numerator 1 - 2^53", 1 - TWO_TO_53),
    ("numerator -2^53", -TWO_TO_53),
    ("numerator -2^53 - 1", -TWO_TO_53 - 1),
    ("least numerator", -18_010_000_462_970_880),
];

/// All that cases can tell, and the relations of two cases; a run has to meet each.
pub const KINDS: &[&[&str]] = &[
    &names::<{ SLIPS.len() }, _>(SLIPS),
    &names::<{ SIGNS.len() }, _>(SIGNS),
    &names::<{ NUMERATORS.len() }, _>(NUMERATORS),
    &[
        "exposures changed",
        "exposures changed and refused",
        "others changed",
        "others changed and refused",
        "means shifted up",
        "means shifted up and refused",
        "means shifted down",
        "means shifted down and refused",
        "chosen in another order",
        "chosen in another order and refused",
        "variances turned",
        "variances turned and refused",
    ],
];

/// What a case tells, by a slip the answer being another one, and the numerators that it meets.
pub fn told(lent: Transfer) -> Vec<&'static str> {
    let right = photon_transfer(lent);
    assert_eq!(RIGHT.answer(lent), right, "the parts make up the call");
    let slips = SLIPS.iter().filter(|(_, slip)| {
        let mut wrong = RIGHT;
        slip(&mut wrong);
        wrong.answer(lent) != right
    });
    let mut told: Vec<&str> = slips.map(|(name, _)| *name).collect();
    let signs = SIGNS.iter().filter(|(_, sign)| sign(lent, right.number));
    told.extend(signs.map(|(name, _)| *name));
    if matches!(right.number, 0 | 14) {
        let (numerator, _) = fraction(Sums::of(chosen(lent)));
        let met = NUMERATORS.iter().filter(|(_, met)| *met == numerator);
        told.extend(met.map(|(name, _)| *name));
    }
    told
}

const SAME: &str = "the answers are not the same";
const SAME_BUT_PLACE: &str = "the answers are not the same but for the saturation";
const TURNED: &str = "the slopes are not the same with the other sign";

/// What enters no figure was changed: exposures, or the mean of all chosen points by a constant.
pub fn same(one: &Answer, other: &Answer) -> Law {
    keep(one == other, SAME)
}

/// Points that are not chosen were changed within the limits, or chosen points exchanged.
pub fn same_but_saturation(one: &Answer, other: &Answer) -> Law {
    let slope = |answer: &Answer| (answer.number, answer.place, answer.figures[..3].to_vec());
    keep(slope(one) == slope(other), SAME_BUT_PLACE)
}

/// Each variance was taken off the greatest that is allowed.
pub fn turned(one: &Answer, other: &Answer) -> Law {
    let mut back = other.clone();
    back.figures[0] *= -1;
    if back.figures[0] != 0 {
        back.figures[2] ^= 1 << 63;
    }
    same_but_saturation(one, &back).map_err(|_| TURNED)
}

#[cfg(test)]
mod tests {
    use super::*;
    use crate::shared::Refusal;

    const LINE: [(u64, u64); 3] = [(1, 2), (2, 4), (3, 6)];

    /// Mean and variance; the exposure is the mean.
    fn of(points: &[(u64, u64)]) -> Vec<Point> {
        let of_one = |&(mean, variance): &(u64, u64)| Point {
            exposure: mean,
            mean,
            variance,
        };
        points.iter().map(of_one).collect()
    }

    fn told_by(points: &[(u64, u64)], first: usize, last: usize) -> Vec<&'static str> {
        told(Transfer {
            points: &of(points),
            first,
            last,
        })
    }

    /// Those of the slips that are told.
    fn told_of<'a>(slips: &[&'a str], points: &[Point], first: usize, last: usize) -> Vec<&'a str> {
        let told = told(Transfer {
            points,
            first,
            last,
        });
        let slips = slips.iter().filter(|slip| told.contains(slip));
        slips.copied().collect()
    }

    fn tells(points: &[(u64, u64)], first: usize, last: usize, slips: &[&str]) {
        let told = told_by(points, first, last);
        for slip in slips {
            assert!(told.contains(slip), "{slip}");
        }
    }

    fn hides(points: &[(u64, u64)], first: usize, last: usize, slips: &[&str]) {
        let told = told_by(points, first, last);
        for slip in slips {
            assert!(!told.contains(slip), "{slip}");
        }
    }

    /// 32 points at the origin and 32 elsewhere: the numerator is 1024 x mean x variance.
    fn heaps(mean: u64, variance: u64) -> Vec<(u64, u64)> {
        [[(0, 0); 32], [(mean, variance); 32]].concat()
    }

    fn turned_over(points: &[(u64, u64)]) -> Vec<(u64, u64)> {
        let turn = |&(mean, variance): &(u64, u64)| (mean, (1 << 28) - variance);
        points.iter().map(turn).collect()
    }

    #[test]
    fn no_two_kinds_have_one_name() {
        let mut names: Vec<&str> = KINDS.concat();
        names.sort();
        let all = names.len();
        names.dedup();
        assert_eq!(names.len(), all);
    }

    #[test]
    fn a_plain_line_tells_little() {
        let told = [
            "mean and variance exchanged",
            "exposure read for variance",
            "ends counted from 1",
            "first left out",
            "last left out",
            "m one short",
            "sum of y^2 for x^2",
            "sum of xy for x^2",
            "sum of x^2 for xy",
            "y below",
            "line through the origin",
            "products the other way",
            "fraction reduced",
            "slope turned over",
            "saturation counted from 1",
            "last point never saturates",
        ];
        assert_eq!(told_by(&LINE, 0, 2), told);
    }

    #[test]
    fn lengths_tell_their_limit() {
        let points: Vec<(u64, u64)> = (0..66).map(|x| (x, x)).collect();
        let slips = ["64 points refused", "65 points accepted"];
        hides(&points[..63], 0, 62, &slips);
        tells(&points[..64], 0, 1, &slips[..1]);
        hides(&points[..64], 0, 1, &slips[1..]);
        tells(&points[..65], 0, 64, &slips[1..]);
        hides(&points[..66], 0, 1, &slips);
    }

    /// One point of four, of which the two in the middle are chosen.
    #[test]
    fn numbers_around_a_limit_tell_it() {
        let slips = [
            "mean of 65520 refused",
            "mean of 65521 accepted",
            "variance of 2^28 refused",
            "variance of 2^28 + 1 accepted",
            "means in 16 bits",
            "means in 32 bits",
            "variances in 32 bits",
            "limits exchanged",
        ];
        for (point, told) in [
            ((65_520, 1), &slips[..1]),
            ((65_521, 1), &[slips[1], slips[7]]),
            ((5, 1 << 28), &[slips[2], slips[7]]),
            ((5, (1 << 28) + 1), &slips[3..4]),
            ((65_541, 1), &[slips[4], slips[7]]),
            (((1 << 32) + 5, 1), &slips[4..6]),
            ((5, (1 << 32) + 5), &slips[6..7]),
            ((5, 65_521), &slips[7..]),
        ] {
            for place in 0..4 {
                let mut points = of(&[(1, 2), (2, 4), (3, 6), (4, 8)]);
                (points[place].mean, points[place].variance) = point;
                assert_eq!(told_of(&slips, &points, 1, 2), told);
            }
        }
    }

    #[test]
    fn places_of_a_bad_point_tell_whose_limits_are_asked() {
        let slips = [
            "no limits of the first point",
            "limits of the chosen alone",
            "no limits of the last point",
        ];
        for (place, told) in [(0, &slips[..2]), (1, &[]), (3, &slips[1..])] {
            let mut points = [(1, 2), (2, 4), (3, 6), (4, 8)];
            points[place] = (65_521, 8);
            assert_eq!(told_of(&slips, &of(&points), 1, 2), told);
            let at_3 = "place of a bad point at 3";
            assert_eq!(told_by(&points, 1, 2).contains(&at_3), place > 0);
        }
    }

    #[test]
    fn exposures_tell_where_they_are_read() {
        let slips = [
            "exposures limited",
            "exposures in order",
            "exposure read for mean",
            "exposure summed for mean",
            "saturation by exposure",
        ];
        for (exposures, told) in [
            ([1, 2, 3], &[][..]),
            ([1, 2, 65_521], &[slips[0], slips[2], slips[3]]),
            ([3, 2, 1], &[slips[1], slips[2], slips[3], slips[4]]),
            ([2, 4, 6], &slips[2..4]),
        ] {
            let mut points = of(&LINE);
            for (point, exposure) in points.iter_mut().zip(exposures) {
                point.exposure = exposure;
            }
            assert_eq!(told_of(&slips, &points, 0, 2), told);
        }
    }

    #[test]
    fn ends_tell_how_they_are_asked() {
        let slips = [
            "reversed ends exchanged",
            "7 for reversed ends",
            "ends in 32 bits",
            "last end at the length accepted",
            "last end of 2^64 - 1 accepted",
            "7 before ends",
        ];
        for (first, last, told) in [
            (0, 2, &[][..]),
            (1, 0, &slips[..2]),
            (3, 0, &[]),
            (0, 3, &slips[3..4]),
            (3, 3, &[slips[3], slips[5]]),
            (0, 4, &[]),
            (0, (1 << 32) + 1, &slips[2..3]),
            (0, usize::MAX, &slips[4..5]),
            (usize::MAX, usize::MAX, &slips[4..]),
        ] {
            assert_eq!(told_of(&slips, &of(&LINE), first, last), told);
        }
    }

    #[test]
    fn two_refusals_tell_their_order() {
        let bad = [(1, 2), (1, 4), (65_521, 6)];
        tells(&bad, 0, 0, &["7 before 3", "7 before limits"]);
        tells(&bad, 0, 1, &["13 before limits"]);
        hides(&bad, 0, 1, &["7 before limits", "13 before 7"]);
        tells(&bad[..2], 0, 0, &["13 before 7", "saturation at 7"]);
        tells(&[], 0, 0, &["7 before 3"]);
        let mut great = heaps(65_520, 1 << 28);
        great[0].0 = 65_521;
        tells(&great, 0, 63, &["14 before limits", "saturation at 3"]);
        hides(&great, 0, 63, &["7 before 3", "13 before limits"]);
    }

    #[test]
    fn equal_means_tell_which_are_compared() {
        let slips = [
            "13 of the whole list",
            "13 where the ends have one mean",
            "13 where two neighbours have one mean",
            "13 of equal variances",
            "saturation at 13",
        ];
        let points = of(&[(2, 4), (2, 6), (3, 5), (2, 6), (1, 6)]);
        for (first, last, told) in [
            (0, 1, &[slips[0], slips[4]][..]),
            (0, 2, &slips[2..3]),
            (1, 2, &[]),
            (1, 3, &slips[1..2]),
            (3, 4, &slips[3..4]),
        ] {
            assert_eq!(told_of(&slips, &points, first, last), told);
        }
    }

    #[test]
    fn great_numerators_tell_the_limit_of_14() {
        let slips = [
            "14 above 2^53 only",
            "14 at 2^53 - 1",
            "14 of rising lines only",
            "14 below -2^53 only",
            "14 never",
            "saturation at 14",
            "greatest numerator",
            "numerator 2^53",
            "numerator -2^53",
            "least numerator",
        ];
        let (exact, greatest) = (heaps(1 << 15, 1 << 28), heaps(65_520, 1 << 28));
        let falling = [&exact, &greatest].map(|points| turned_over(points));
        for (points, told) in [
            (exact, &[0, 4, 5, 7][..]),
            (greatest, &[4, 5, 6]),
            (falling[0].clone(), &[0, 2, 3, 4, 8]),
            (falling[1].clone(), &[2, 4, 9]),
            (heaps(1 << 15, (1 << 28) - 1), &[]),
        ] {
            let told: Vec<&str> = told.iter().map(|at| slips[*at]).collect();
            assert_eq!(told_of(&slips, &of(&points), 0, 63), told);
        }
    }

    /// 62 points at one place near both limits and one a step away.
    #[test]
    fn great_products_tell_how_they_are_kept() {
        let mut points = vec![(65_519, (1 << 28) - 1); 62];
        points.push((65_520, 1 << 28));
        let slips = [
            "14 of the products",
            "sum of y in 32 bits",
            "sum of x^2 in 32 bits",
            "sum of xy in 32 bits",
            "squared sum in 32 bits",
            "slope of float products",
            "slope of float means",
        ];
        tells(&points, 0, 62, &slips);
        hides(&LINE, 0, 2, &slips);
    }

    #[test]
    fn lines_tell_how_their_slope_is_made() {
        let slips = [
            "sign lost",
            "sign lost in the slope",
            "0 for a falling line",
        ];
        tells(&[(1, 6), (2, 4), (3, 2)], 0, 2, &slips);
        hides(&LINE, 0, 2, &slips);
        tells(&[(1, 5), (2, 5)], 0, 1, &["slope of -0", "numerator 0"]);
        tells(&[(0, 0), (3, 1)], 0, 1, &["slope in 32 bits"]);
        tells(&[(0, 0), (7, 5)], 0, 1, &["slope by a reciprocal"]);
    }

    #[test]
    fn other_points_tell_what_is_summed() {
        let points = [(9, 1), (1, 2), (2, 4), (3, 6)];
        let slips = ["whole list summed", "m of the whole list"];
        tells(&points, 1, 3, &slips);
        tells(&points, 1, 3, &["saturation by mean"]);
        hides(&points, 0, 3, &slips);
    }

    #[test]
    fn places_of_the_greatest_variance_tell_where_it_is_sought() {
        let slips = [
            "saturation of the chosen",
            "saturation counted from the first chosen",
            "last of equal variances",
            "first point never saturates",
            "last point never saturates",
            "saturation where the variance first falls",
        ];
        for (variances, told) in [
            ([1, 2, 8, 3], &slips[1..2]),
            ([8, 1, 2, 3], &[slips[0], slips[1], slips[3]]),
            ([1, 2, 3, 8], &[slips[0], slips[1], slips[4]]),
            ([1, 2, 8, 8], &[slips[1], slips[2], slips[5]]),
            ([1, 8, 2, 8], &[slips[1], slips[2]]),
            ([3, 1, 8, 2], &[slips[1], slips[5]]),
        ] {
            let points = [1, 2, 3, 4].map(|mean| (mean, variances[mean as usize - 1]));
            assert_eq!(told_of(&slips, &of(&points), 1, 2), told);
        }
    }

    fn accepted(figures: [i128; 4]) -> Answer {
        settle(Ok(figures.to_vec()), 4)
    }

    /// Numerator, denominator and saturation, with the right slope.
    fn answer(numerator: i128, denominator: i128, saturation: i128) -> Answer {
        let slope = quotient((numerator, denominator)).into();
        accepted([numerator, denominator, slope, saturation])
    }

    #[test]
    fn laws_that_are_kept_and_broken() {
        let (one, seven) = (answer(12, 6, 2), settle(Err(Refusal::new(7, 0)), 4));
        assert_eq!(same(&one, &one), Ok(()));
        assert_eq!(same(&one, &answer(12, 6, 1)), Err(SAME));
        assert_eq!(same_but_saturation(&one, &answer(12, 6, 1)), Ok(()));
        for other in [answer(12, 7, 2), answer(11, 6, 2), seven.clone()] {
            assert_eq!(same_but_saturation(&one, &other), Err(SAME_BUT_PLACE));
        }
        assert_eq!(turned(&one, &answer(-12, 6, 0)), Ok(()));
        assert_eq!(turned(&answer(0, 6, 1), &answer(0, 6, 0)), Ok(()));
        assert_eq!(turned(&seven, &seven), Ok(()));
        for other in [one.clone(), seven.clone(), accepted([-12, 6, 2 << 61, 0])] {
            assert_eq!(turned(&one, &other), Err(TURNED));
        }
        let negative_0 = accepted([0, 6, 1 << 63, 0]);
        assert_eq!(turned(&answer(0, 6, 0), &negative_0), Err(TURNED));
    }
}
