//! Cases of the photon transfer (document 02, e).

use reference::gain::{photon_transfer as right, Point};
use reference::shared::{Answer, Law};
use reference::transfers;

use super::dice::Dice;
use super::points::{self, List, MOST, TOP_MEAN, TOP_VARIANCE};
use super::spoil;
use super::tally::{Asked, Case, Tally};
use crate::library;

impl Case for List {
    fn reference(&mut self) -> Answer {
        right(self.lent())
    }

    fn library(&mut self) -> Answer {
        library::gain::photon_transfer(&mut self.points, self.first, self.last)
    }
}

pub fn photon_transfer(tally: &mut Tally, dice: &mut Dice) {
    lengths(tally, dice);
    ends(tally, dice);
    limits(tally, dice);
    one_mean(tally, dice);
    one_variance(tally, dice);
    saturations(tally, dice);
    numerators(tally, dice);
    for _ in 0..4 {
        for case in spoil::sets(dice, List::legal, SPOILERS) {
            tell(tally, case);
        }
    }
    for _ in 0..200 {
        tell(tally, List::legal(dice));
    }
    relations(tally, dice);
}

/// Asks a case, and counts it for all that it tells.
fn tell(tally: &mut Tally, case: List) -> Asked<List> {
    for kind in transfers::told(case.lent()) {
        tally.meet(kind);
    }
    tally.ask(case)
}

fn lengths(tally: &mut Tally, dice: &mut Dice) {
    for length in 0..=70 {
        let points = points::any(length, dice);
        tell(tally, List::whole(points.clone()));
        for _ in 0..2 {
            if length > 0 {
                tell(tally, List::part(points.clone(), dice));
            }
        }
    }
}

/// In the list and beyond it, in both orders, at times with legal low bits.
fn ends(tally: &mut Tally, dice: &mut Dice) {
    for length in [1, 2, 5, 63, 64] {
        let ends = [
            0,
            1,
            length / 2,
            length - 1,
            length,
            length + 1,
            64,
            1 << 32,
            (1 << 32) + length - 1,
            usize::MAX - 1,
            usize::MAX,
        ];
        let points = points::any(length, dice);
        for first in ends {
            for last in ends {
                tell(tally, List::new(points.clone(), first, last));
            }
        }
    }
}

/// On both sides of the limit, with legal low bits, and the greatest of all.
fn around(limit: u64, dice: &mut Dice) -> [u64; 8] {
    let low = dice.between(0, limit);
    let wide = (dice.between(1, 1 << 30) << 32) + low;
    let of_16_bits = (1 << 16) + low % (1 << 15);
    [
        limit - 1,
        limit,
        limit + 1,
        limit + 2,
        of_16_bits,
        wide,
        1 << 63,
        u64::MAX,
    ]
}

/// At each place, chosen or not, one number of a list that is legal without it.
fn limits(tally: &mut Tally, dice: &mut Dice) {
    for length in [2, 6, 64] {
        for turn in 0..6 {
            let place = turn * (length - 1) / 5;
            let list = List::part(points::any(length, dice), dice);
            for mean in around(TOP_MEAN, dice) {
                let mut case = list.clone();
                case.points[place].mean = mean;
                tell(tally, case);
            }
            for variance in around(TOP_VARIANCE, dice) {
                let mut case = list.clone();
                case.points[place].variance = variance;
                tell(tally, case);
            }
        }
    }
}

fn level_means(case: &mut List, dice: &mut Dice) {
    let any = dice.between(0, TOP_MEAN);
    let mean = dice.among(&[0, any, TOP_MEAN]);
    for point in case.chosen() {
        point.mean = mean;
    }
}

/// All chosen means, or all but one.
fn one_mean(tally: &mut Tally, dice: &mut Dice) {
    for _ in 0..20 {
        let mut case = List::legal(dice);
        level_means(&mut case, dice);
        tell(tally, case.clone());
        let chosen = case.last - case.first + 1;
        for place in [0, chosen - 1, dice.below(chosen)] {
            let mut case = case.clone();
            let mean = &mut case.chosen()[place].mean;
            *mean = dice.among(&[mean.saturating_sub(1), TOP_MEAN.min(*mean + 1)]);
            tell(tally, case);
        }
    }
}

/// All variances, or the chosen ones.
fn one_variance(tally: &mut Tally, dice: &mut Dice) {
    for turn in 0..40 {
        let mut case = List::legal(dice);
        let any = dice.between(0, TOP_VARIANCE);
        let variance = dice.among(&[0, any, TOP_VARIANCE]);
        let points = match turn % 2 {
            0 => &mut case.points[..],
            _ => case.chosen(),
        };
        for point in points {
            point.variance = variance;
        }
        tell(tally, case);
    }
}

/// The greatest variance at each place, and at some places more than once.
fn saturations(tally: &mut Tally, dice: &mut Dice) {
    for place in 0..MOST {
        let length = dice.between(2.max(place as u64 + 1), MOST as u64) as usize;
        let mut case = List::part(points::any(length, dice), dice);
        let greatest = case.points.iter().map(|point| point.variance).max();
        let greatest = TOP_VARIANCE.min(greatest.expect("a point") + 1);
        case.points[place].variance = greatest;
        tell(tally, case.clone());
        for _ in 0..2 {
            case.points[dice.below(length)].variance = greatest;
            tell(tally, case.clone());
        }
    }
}

/// Around the limit of 14 and at the greatest of all, each with both signs.
fn numerators(tally: &mut Tally, dice: &mut Dice) {
    for _ in 0..4 {
        for numerator in (1 << 53) - 3..=(1 << 53) + 3 {
            let length = dice.between(points::FEWEST_AIMED, MOST as u64) as usize;
            tell_both(tally, points::aimed(numerator, length, dice), dice);
        }
        let any = dice.between(0, 1 << 53);
        tell_both(tally, points::aimed(any, MOST, dice), dice);
        tell_both(tally, points::two_heaps(MOST, 1 << 15, 1 << 28, dice), dice);
        for length in [2, 44, 46, 62, 64] {
            for variance in [0, TOP_VARIANCE] {
                let chosen = points::two_heaps(length, TOP_MEAN, variance, dice);
                tell_both(tally, chosen, dice);
            }
        }
    }
}

fn tell_both(tally: &mut Tally, mut chosen: Vec<Point>, dice: &mut Dice) {
    tell(tally, List::among_others(chosen.clone(), dice));
    points::turn(&mut chosen);
    tell(tally, List::among_others(chosen, dice));
}

const SPOILERS: &[spoil::Spoiler<List>] = &[
    |case, dice| {
        let chosen = points::two_heaps(58, TOP_MEAN, TOP_VARIANCE, dice);
        *case = List::among_others(chosen, dice);
    },
    level_means,
    |case, dice| {
        case.first = dice.between(case.first as u64, case.last as u64) as usize;
        case.last = case.first;
    },
    spoil_point,
    |case, dice| {
        let length = dice.between(65, 70) as usize;
        let fill = dice.among(&case.points);
        case.points.resize(length, fill);
    },
    |case, dice| match dice.below(3) {
        0 => (case.first, case.last) = (case.last + 1, case.first),
        1 => case.last = dice.among(&[case.points.len(), 1 << 32, usize::MAX]),
        _ => {
            let end = case.points.len();
            case.first = dice.among(&[end, end + 1, usize::MAX]);
            case.last = case.first;
        }
    },
];

fn spoil_point(case: &mut List, dice: &mut Dice) {
    let place = dice.below(case.points.len());
    let point = &mut case.points[place];
    match dice.one_in(2) {
        true => point.mean = spoil::beyond(TOP_MEAN, dice),
        false => point.variance = spoil::beyond(TOP_VARIANCE, dice),
    }
}

/// Lists, accepted or refused, beside others that have to get the same slope.
fn relations(tally: &mut Tally, dice: &mut Dice) {
    for _ in 0..6 {
        let mut bad = List::legal(dice);
        spoil_point(&mut bad, dice);
        let bad = tell(tally, bad);
        exposures_changed(tally, &bad, dice);
        for case in within_limits(dice) {
            let one = tell(tally, case);
            exposures_changed(tally, &one, dice);
            others_changed(tally, &one, dice);
            means_shifted(tally, &one, dice);
            another_order(tally, &one, dice);
            variances_turned(tally, &one);
        }
    }
}

/// Those that get 13, 7, and at times 14, and five others.
fn within_limits(dice: &mut Dice) -> Vec<List> {
    let mut cases: Vec<List> = (0..7).map(|_| List::legal(dice)).collect();
    level_means(&mut cases[0], dice);
    cases[1].last = cases[1].first;
    let numerator = dice.between((1 << 53) - 1, (1 << 53) + 1);
    let chosen = points::aimed(numerator, 60, dice);
    cases.push(List::among_others(chosen, dice));
    cases
}

type LawOfTwo = fn(&Answer, &Answer) -> Law;

fn relate(tally: &mut Tally, relation: &str, law: LawOfTwo, one: &Asked<List>, other: List) {
    let other = tell(tally, other);
    let law = law(&one.answers.found, &other.answers.found);
    match one.accepted() {
        true => tally.compare(relation, law, one, &other),
        false => tally.compare(&format!("{relation} and refused"), law, one, &other),
    }
}

fn exposures_changed(tally: &mut Tally, one: &Asked<List>, dice: &mut Dice) {
    let mut other = one.case.clone();
    let exposures = points::exposures(other.points.len(), dice);
    for (point, exposure) in other.points.iter_mut().zip(exposures) {
        point.exposure = exposure;
    }
    relate(tally, "exposures changed", transfers::same, one, other);
}

/// Others are drawn before the chosen points and after them, and there may be more or fewer.
fn others_changed(tally: &mut Tally, one: &Asked<List>, dice: &mut Dice) {
    let chosen = one.case.clone().chosen().to_vec();
    let other = List::among_others(chosen, dice);
    let law = transfers::same_but_saturation;
    relate(tally, "others changed", law, one, other);
}

fn means_shifted(tally: &mut Tally, one: &Asked<List>, dice: &mut Dice) {
    for constant in constants(one.case.clone().chosen(), dice) {
        let mut other = one.case.clone();
        for point in other.chosen() {
            point.mean = point.mean.wrapping_add_signed(constant);
        }
        let relation = match constant {
            1.. => "means shifted up",
            _ => "means shifted down",
        };
        relate(tally, relation, transfers::same, one, other);
    }
}

/// Those that keep all means in limits: the least and the greatest both ways, and any.
fn constants(chosen: &[Point], dice: &mut Dice) -> Vec<i64> {
    let means = || chosen.iter().map(|point| point.mean as i64);
    let down = -means().min().expect("a point");
    let up = TOP_MEAN as i64 - means().max().expect("a point");
    let any = down + dice.between(0, (up - down) as u64) as i64;
    let mut constants = vec![down, -1, any, 1, up];
    constants.retain(|constant| *constant != 0 && (down..=up).contains(constant));
    constants
}

fn another_order(tally: &mut Tally, one: &Asked<List>, dice: &mut Dice) {
    let mut other = one.case.clone();
    dice.shuffle(other.chosen());
    let law = transfers::same_but_saturation;
    relate(tally, "chosen in another order", law, one, other);
}

fn variances_turned(tally: &mut Tally, one: &Asked<List>) {
    let mut other = one.case.clone();
    points::turn(&mut other.points);
    relate(tally, "variances turned", transfers::turned, one, other);
}
