//! Cases of the pair taken in twos: ranked by their exact variances, with the frames swapped, and
//! with a constant added to a frame.

use reference::ranking;
use reference::shared::surveyed;

use super::dice::Dice;
use super::pair::{self, Pair};
use super::shapes::{self, Shape};
use super::tally::{Asked, Tally};
use super::windows;
use crate::library::Lent;

pub fn ranking_of_pairs(tally: &mut Tally, dice: &mut Dice) {
    neighbours(tally, dice);
    other_counts(tally, dice);
    sorted_lists(tally, dice);
    swaps(tally, dice);
    shifts(tally, dice);
}

/// Counts of surveyed sites, even and odd ones, from the least to the greatest.
const COUNTS: &[usize] = &[
    2, 3, 4, 5, 6, 7, 30, 31, 256, 257, 1022, 1023, 16_382, 16_383, 16_384,
];

/// Differences from -reach to reach, or at these two ends alone.
fn differences(n: usize, reach: i64, dice: &mut Dice) -> Vec<i64> {
    match dice.one_in(2) {
        true => ends_alone(n, reach, dice),
        false => (0..n).map(|_| around_0(reach, dice)).collect(),
    }
}

fn ends_alone(n: usize, reach: i64, dice: &mut Dice) -> Vec<i64> {
    (0..n).map(|_| dice.among(&[-reach, reach])).collect()
}

fn around_0(reach: i64, dice: &mut Dice) -> i64 {
    dice.between(0, 2 * reach as u64) as i64 - reach
}

/// The least legal side with which a window of side `other` has `count` sites.
fn least_side(count: usize, other: usize) -> usize {
    count.div_ceil(other).next_multiple_of(2)
}

/// A window of any width with room for `count` surveyed sites, and mostly for unsurveyed ones too.
fn with_room(count: usize, dice: &mut Dice) -> Shape {
    let width = shapes::even(dice, least_side(count, 128), 128);
    let least = least_side(count, width);
    let height = shapes::even(dice, least, 128.min(least + 6));
    Shape { width, height }
}

fn of_count(n: usize, dice: &mut Dice) -> Pair {
    let shape = with_room(n, dice);
    let mask = windows::mask_surveying(n, shape.sites(), dice);
    pair::of_mask(shape, mask, dice)
}

/// The surveyed sites have these differences, second minus first, in row order. All else is drawn.
fn of_differences(differences: &[i64], dice: &mut Dice) -> Pair {
    let mut case = of_count(differences.len(), dice);
    let greatest = differences.iter().map(|d| d.unsigned_abs()).max();
    let least_scale = greatest.expect("a difference").max(1);
    let any = dice.between(least_scale, 4095);
    case.full_scale = dice.among(&[least_scale, any, 4095]);
    let sites: Vec<usize> = surveyed(&case.mask).collect();
    for (site, &difference) in sites.into_iter().zip(differences) {
        let (fall, rise) = ((-difference).max(0) as u64, difference.max(0) as u64);
        let first = dice.between(fall, case.full_scale - rise);
        case.first[site] = first as u16;
        case.second()[site] = (first + rise - fall) as u16;
    }
    case
}

/// Two accepted pairs: of others the law asks nothing.
fn rank(tally: &mut Tally, one: &Asked<Pair>, other: &Asked<Pair>) {
    assert!(one.accepted() && other.accepted());
    let relation = ranking::relation(&one.answers.expected, &other.answers.expected);
    let law = ranking::ranked(&one.answers, &other.answers);
    tally.compare(relation, law, one, other);
}

/// The nearest two exact variances at one n, from P 0 up to P near (16,384 x 4,095)^2, in windows
/// that have nothing else in common.
fn neighbours(tally: &mut Tally, dice: &mut Dice) {
    let any = [dice.between(2, 300), dice.between(301, 16_384)];
    for n in COUNTS.iter().copied().chain(any.map(|n| n as usize)) {
        for reach in [1, 2, 100, 4095] {
            let drawn = differences(n, reach, dice);
            rank_neighbours(tally, drawn, reach, dice);
        }
    }
    let greatest = ends_alone(16_384, 4095, dice);
    rank_neighbours(tally, greatest, 4095, dice);
}

fn rank_neighbours(tally: &mut Tally, drawn: Vec<i64>, reach: i64, dice: &mut Dice) {
    let [lesser, greater] = neighbouring(drawn, reach, dice)
        .map(|differences| tally.ask(of_differences(&differences, dice)));
    assert!(ranking::neighbours(
        &lesser.answers.expected,
        &greater.answers.expected
    ));
    rank(tally, &lesser, &greater);
}

/// Differences, and the same with one of them raised from d to d + 1. That raises P by
/// n (2 d + 1) - (2 s + 1), where s is their sum: by 1 at even n and by 2 at odd n, since s is made
/// n d + n / 2 - 1, n / 2 rounded down. They are drawn around 0, one is made d = 0, and a drift
/// comes last. Where the ends alone were drawn, all but two stay at the ends.
fn neighbouring(mut lesser: Vec<i64>, reach: i64, dice: &mut Dice) -> [Vec<i64>; 2] {
    lesser[0] = 0;
    let mut missing = lesser.len() as i64 / 2 - 1 - lesser.iter().sum::<i64>();
    for difference in &mut lesser[1..] {
        let step = missing.clamp(-reach - *difference, reach - *difference);
        *difference += step;
        missing -= step;
    }
    let mut greater = lesser.clone();
    greater[0] += 1;
    let drift = around_0(4095 - reach, dice);
    [lesser, greater].map(|mut differences| {
        dice.shuffle(&mut differences);
        differences.iter().map(|d| d + drift).collect()
    })
}

/// Windows of other n with neighbouring exact variances, and with equal ones. 0 and 1, and both four
/// times over, have other noise, 45/128 and 181/512: the noise is ranked at equal n only.
fn other_counts(tally: &mut Tally, dice: &mut Dice) {
    repeated(tally, [vec![0, 0], vec![0, 1]], 4, dice);
    for reach in [1, 2, 100, 4095] {
        for most in [5, 50, 3276] {
            let n = dice.between(2, most) as usize;
            let times = dice.between(2, 5) as usize;
            let drawn = differences(n, reach, dice);
            repeated(tally, neighbouring(drawn, reach, dice), times, dice);
        }
    }
}

/// With each difference so many times, P and Q are both so many times as great, squared, and the
/// exact variance stays.
fn repeated(tally: &mut Tally, neighbours: [Vec<i64>; 2], times: usize, dice: &mut Dice) {
    let often = neighbours[1].repeat(times);
    let often = tally.ask(of_differences(&often, dice));
    for differences in neighbours {
        let once = tally.ask(of_differences(&differences, dice));
        rank(tally, &once, &often);
    }
}

/// Pairs of equal n, then those of every n in one list. Each is compared with the next greater one,
/// so that any two of a list are in order.
fn sorted_lists(tally: &mut Tally, dice: &mut Dice) {
    let mut all = vec![];
    for &n in COUNTS {
        let mut list = vec![];
        for case in of_equal_count(n, dice) {
            list.push(tally.ask(case));
        }
        rank_list(tally, &mut list);
        all.append(&mut list);
    }
    rank_list(tally, &mut all);
}

fn rank_list(tally: &mut Tally, list: &mut [Asked<Pair>]) {
    list.sort_by(|one, other| ranking::exact_order(&one.answers.expected, &other.answers.expected));
    for two in list.windows(2) {
        rank(tally, &two[0], &two[1]);
    }
}

/// Windows of any kind; small differences, of which many sets have one P or neighbouring P; the
/// same differences at other sites, and the other way round; the least P and the greatest.
fn of_equal_count(n: usize, dice: &mut Dice) -> Vec<Pair> {
    let mut cases = vec![];
    let turns = if n < 100 { 20 } else { 3 };
    for _ in 0..turns {
        cases.push(of_count(n, dice));
        let reach = dice.among(&[1, 2, 3, 100, 4095]);
        let mut drawn = differences(n, reach, dice);
        cases.push(of_differences(&drawn, dice));
        dice.shuffle(&mut drawn);
        cases.push(of_differences(&drawn, dice).swapped());
    }
    let mut swing: Vec<i64> = (0..n as i64)
        .map(|site| (site % 2 * 2 - 1) * 4095)
        .collect();
    dice.shuffle(&mut swing);
    cases.push(of_differences(&swing, dice));
    cases.push(of_differences(&vec![around_0(4095, dice); n], dice));
    cases
}

/// Pairs that are mostly accepted; one buffer given twice, beside its frame in two buffers; pairs
/// spoiled in one way or in two.
fn swaps(tally: &mut Tally, dice: &mut Dice) {
    for &shape in shapes::GREAT {
        swap(tally, pair::of_shape(shape, dice));
    }
    for _ in 0..60 {
        let mut case = pair::legal(dice);
        swap(tally, case.clone());
        case.second = None;
        swap(tally, case);
    }
    for (at, spoil) in pair::SPOILERS.iter().enumerate() {
        for spoil_too in &pair::SPOILERS[at..] {
            for _ in 0..3 {
                let mut case = pair::legal(dice);
                spoil(&mut case, dice);
                spoil_too(&mut case, dice);
                swap(tally, case);
            }
        }
    }
}

fn swap(tally: &mut Tally, case: Pair) {
    let other = tally.ask(case.swapped());
    let one = tally.ask(case);
    let relation = match one.case.second {
        _ if !one.accepted() => "swapped and refused",
        None => "swapped from one buffer",
        Some(_) => "swapped",
    };
    let law = ranking::swapped(&one.answers.found, &other.answers.found);
    tally.compare(relation, law, &one, &other);
}

/// Accepted pairs, whose frames mostly have room below or above.
fn shifts(tally: &mut Tally, dice: &mut Dice) {
    for full_scale in [1, 1, 2, 1023, 4095, dice.between(3, 4094)] {
        for _ in 0..3 {
            let case = of_bands(shapes::legal(dice), full_scale, dice);
            shift_both_ways(tally, case, dice);
        }
        let mut case = of_bands(shapes::legal(dice), full_scale, dice);
        case.second = None;
        shift_both_ways(tally, case, dice);
    }
    for &shape in &shapes::GREAT[..3] {
        let full_scale = windows::full_scale(dice);
        let case = of_bands(shape, full_scale, dice);
        shift_both_ways(tally, case, dice);
    }
}

fn of_bands(shape: Shape, full_scale: u64, dice: &mut Dice) -> Pair {
    let count = dice.between(2, shape.sites() as u64) as usize;
    let mask = windows::mask_surveying(count, shape.sites(), dice);
    let (first, second) = (band(&mask, full_scale, dice), band(&mask, full_scale, dice));
    Pair {
        width: shape.width,
        height: shape.height,
        full_scale,
        mask: Lent::new("mask", mask),
        first: Lent::new("first", first),
        second: Some(Lent::new("second", second)),
    }
}

/// Surveyed samples between two levels. At unsurveyed sites junk, or in half of the frames none, so
/// that a shift brings the first.
fn band(mask: &[u8], full_scale: u64, dice: &mut Dice) -> Vec<u16> {
    let (one, other) = (dice.between(0, full_scale), dice.between(0, full_scale));
    let (least, most) = (one.min(other), one.max(other));
    let junk = dice.one_in(2);
    mask.iter()
        .map(|&code| match code {
            1..=3 if junk => windows::unsurveyed(dice),
            _ => dice.between(least, most) as u16,
        })
        .collect()
}

/// Either frame by each constant, then the other frame by one of its own.
fn shift_both_ways(tally: &mut Tally, case: Pair, dice: &mut Dice) {
    let before = tally.ask(case);
    for in_first in [true, false] {
        for constant in constants(&before.case, in_first, dice) {
            let after = shift(tally, &before, in_first, constant, dice);
            let others = constants(&after.case, !in_first, dice);
            shift(tally, &after, !in_first, dice.among(&others), dice);
        }
    }
}

/// Constants that keep a frame in range: the greatest both ways, which lead to 0 and to full scale,
/// the least both ways, none and any.
fn constants(case: &Pair, in_first: bool, dice: &mut Dice) -> Vec<i64> {
    let frame = match &case.second {
        Some(second) if !in_first => second,
        _ => &case.first,
    };
    let samples = || surveyed(&case.mask).map(|site| i64::from(frame[site]));
    let down = -samples().min().expect("a surveyed site");
    let up = case.full_scale as i64 - samples().max().expect("a surveyed site");
    let any = down + dice.between(0, (up - down) as u64) as i64;
    let mut constants = vec![down, -1, 0, any, 1, up];
    constants.retain(|constant| (down..=up).contains(constant));
    constants.sort();
    constants.dedup();
    constants
}

/// An accepted pair, by a constant that keeps it accepted: of others the law asks nothing.
fn shift(
    tally: &mut Tally,
    before: &Asked<Pair>,
    in_first: bool,
    constant: i64,
    dice: &mut Dice,
) -> Asked<Pair> {
    let after = tally.ask(shifted(&before.case, in_first, constant, dice));
    assert!(before.accepted() && after.accepted());
    let relation = match constant.signum() {
        1 => "shifted up",
        0 => "shifted by 0",
        _ => "shifted down",
    };
    let law = ranking::shifted(&before.answers.found, &after.answers.found);
    tally.compare(relation, law, before, &after);
    after
}

/// Adds the constant to each surveyed sample of one frame; at its other sites new junk is drawn.
fn shifted(case: &Pair, in_first: bool, constant: i64, dice: &mut Dice) -> Pair {
    let mut after = case.clone();
    let second = after
        .second
        .get_or_insert_with(|| Lent::new("second", case.first.to_vec()));
    let frame = if in_first { &mut after.first } else { second };
    for (sample, &code) in frame.iter_mut().zip(case.mask.iter()) {
        *sample = match code {
            0 => (i64::from(*sample) + constant) as u16,
            _ => windows::unsurveyed(dice),
        };
    }
    after
}
