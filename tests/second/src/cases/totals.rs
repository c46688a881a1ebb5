//! Cases of finding defects by running totals (document 02, b).

use reference::totals::{self, Search};

use super::dice::Dice;
use super::shapes::{self, Shape};
use super::sites::{self, finding, Find};
use super::tally::Tally;
use super::windows::Window;

pub fn totals_of_finding(tally: &mut Tally, dice: &mut Dice) {
    example(tally, dice);
    long_windows(tally, dice);
    every_shape(tally, dice);
    every_place(tally, dice);
    one_grey_level(tally, dice);
    one_surveyed(tally, dice);
    two_surveyed(tally, dice);
    full_windows(tally, dice);
    one_after_another(tally, dice);
    any_windows(tally, dice);
}

/// Planes of 1 and 2 lines; of 14 to 17, around the 16 of a box at an edge; of 30 to 33, around
/// its 31 in the middle; the longest.
const SIDES: &[usize] = &[2, 4, 28, 30, 32, 34, 60, 62, 64, 66, 126, 128];

/// Lines of a plane: the edge, the last that a box there has, the first that it has not, and one
/// near the middle of the longest.
const LINES: &[usize] = &[0, 15, 16, 32];

/// A row and a column of a plane.
type Place = (usize, usize);

/// Every two of these, in both orders.
fn pairs(numbers: &[usize]) -> Vec<(usize, usize)> {
    let with = |one: usize| numbers.iter().map(move |other| (one, *other));
    numbers.iter().flat_map(|one| with(*one)).collect()
}

fn shape_of((width, height): (usize, usize)) -> Shape {
    Shape { width, height }
}

/// So long, and as narrow as can be, lying and upright.
fn long(side: usize) -> [Shape; 2] {
    [(side, 2), (2, side)].map(shape_of)
}

/// 0 to 3.
fn plane_of(shape: Shape, site: usize) -> usize {
    2 * (site / shape.width % 2) + site % 2
}

/// The site of a plane at a place, each plane counting from another corner of the window: so a
/// window has the place in four turns. Beyond the last line it is the last.
fn site_at(shape: Shape, plane: usize, (row, column): Place) -> usize {
    let last = (shape.height / 2 - 1, shape.width / 2 - 1);
    let (row, column) = (row.min(last.0), column.min(last.1));
    let row = [row, last.0 - row][plane / 2];
    let column = [column, last.1 - column][plane % 2];
    (2 * row + plane / 2) * shape.width + 2 * column + plane % 2
}

fn level(shape: Shape, level: u16) -> Window {
    let sites = shape.sites();
    Window::of(shape, 4095, vec![0; sites], vec![level; sites])
}

fn put(window: &mut Window, site: usize, sample: u16) {
    window.mask[site] = 0;
    window.frame[site] = sample;
}

fn put_in_each_plane(window: &mut Window, shape: Shape, place: Place, sample: u16) {
    for plane in 0..4 {
        put(window, site_at(shape, plane, place), sample);
    }
}

/// With the most that a total can take up by mistake.
fn leave_out(window: &mut Window, site: usize, code: u8) {
    window.mask[site] = code;
    window.frame[site] = 65535;
}

fn none_surveyed(shape: Shape, dice: &mut Dice) -> Window {
    let mut window = level(shape, 0);
    for site in 0..shape.sites() {
        leave_out(&mut window, site, dice.between(1, 3) as u8);
    }
    window
}

/// The direct sum is slow on large windows: of all planes but one, few sites stay surveyed.
fn thin_out_others(window: &mut Window, shape: Shape, plane: usize, dice: &mut Dice) {
    let others = (0..shape.sites()).filter(|&site| plane_of(shape, site) != plane);
    for site in others.filter(|site| site % 11 != 0) {
        leave_out(window, site, dice.between(1, 3) as u8);
    }
}

/// Runs a case, and counts it for all that it tells.
fn tell(tally: &mut Tally, case: Find) {
    tell_after(tally, None, case);
}

/// The same, where this window was searched before.
fn tell_after(tally: &mut Tally, before: Option<&Window>, case: Find) {
    let before = before.map(Window::lent);
    let search = Search::new(case.window.lent(), case.threshold, before);
    for kind in totals::told(&search) {
        tally.meet(kind);
    }
    tally.run(case);
}

/// Each plane has a level of its own, so bright that it shows where one site is counted too much or
/// too little. Each has sites of each code, and longer ones a dead row and a dead column.
fn levels(shape: Shape, dice: &mut Dice) -> Window {
    let mut levels = [1000, 1500, 2000, 2500];
    dice.shuffle(&mut levels);
    let mut window = level(shape, 0);
    for site in 0..shape.sites() {
        let (row, column) = (site / shape.width, site % shape.width);
        put(&mut window, site, levels[plane_of(shape, site)]);
        if shape.height > 4 && row / 2 == 1 || shape.width > 4 && column / 2 == 1 {
            leave_out(&mut window, site, 2);
        }
    }
    // Nine is odd, so that each code comes in each plane.
    for (turn, site) in (4..shape.sites()).step_by(9).enumerate() {
        leave_out(&mut window, site, 1 + turn as u8 % 3);
    }
    window
}

/// The same, with a site in each plane at full scale, which makes all sites found that see it.
fn beacons(shape: Shape, place: Place, dice: &mut Dice) -> Find {
    let mut window = levels(shape, dice);
    put_in_each_plane(&mut window, shape, place, 4095);
    finding(1, window, dice)
}

/// One site of row 0 in a level window of 64 x 2, 15 or 16 brighter: 16 are seen from either end.
fn example(tally: &mut Tally, dice: &mut Dice) {
    let any = dice.between(0, 4000) as u16;
    for column in [30, 31, 32, 33] {
        for above in [15, 16] {
            let mut window = level(shape_of((64, 2)), any);
            put(&mut window, column, any + above);
            tell(tally, finding(1, window, dice));
        }
    }
}

/// Windows that cut the box in one direction only. The example carried over: of the m sites that
/// are seen from an end, one is m - 1 or m brighter than the others.
fn long_windows(tally: &mut Tally, dice: &mut Dice) {
    for &side in SIDES {
        let m = (side / 2).min(16) as u16;
        for shape in long(side) {
            for &line in LINES {
                let place = (line, line);
                tell(tally, beacons(shape, place, dice));
                let any = dice.between(0, 4000) as u16;
                for above in [m - 1, m] {
                    let mut window = level(shape, any);
                    put_in_each_plane(&mut window, shape, place, any + above);
                    tally.run(finding(1, window, dice));
                }
                for plane in [0, 3] {
                    lone_site(tally, shape, place, plane, dice);
                }
            }
        }
    }
}

/// Every width with every height.
fn every_shape(tally: &mut Tally, dice: &mut Dice) {
    let places = pairs(LINES);
    let start = dice.below(places.len());
    for (turn, shape) in pairs(SIDES).into_iter().map(shape_of).enumerate() {
        let (place, plane) = (places[(start + turn) % places.len()], dice.below(4));
        let mut case = beacons(shape, place, dice);
        if shape.sites() > 34 * 34 {
            thin_out_others(&mut case.window, shape, plane, dice);
        } else {
            // Where every site sees the beacon, it hides much.
            tally.run(finding(1, levels(shape, dice), dice));
            lone_site(tally, shape, place, plane, dice);
        }
        tally.run(case);
    }
}

/// Every place, where planes are just longer than a box at the edge and than one in the middle.
fn every_place(tally: &mut Tally, dice: &mut Dice) {
    let (small, large) = (shape_of((34, 34)), shape_of((66, 66)));
    for (turn, place) in pairs(LINES).into_iter().enumerate() {
        tally.run(beacons(small, place, dice));
        let mut case = beacons(large, place, dice);
        thin_out_others(&mut case.window, large, turn % 4, dice);
        tally.run(case);
        lone_site(tally, small, place, turn % 4, dice);
        lone_site(tally, large, place, turn % 4, dice);
    }
    tell(tally, beacons(shape_of((36, 34)), (0, 0), dice));
}

/// A site of one plane that sees c sites, itself included, all others at one level: c from the
/// level it is just found at threshold c - 1, and c + 1 from it just not at threshold c. So it
/// shows where it sees one less or one more.
fn lone_site(tally: &mut Tally, shape: Shape, place: Place, plane: usize, dice: &mut Dice) {
    let site = site_at(shape, plane, place);
    let neighbours = sites::neighbours(shape, site).len() as u16;
    if neighbours == 0 {
        return;
    }
    let any = dice.between(1000, 3000) as u16;
    for threshold in [neighbours, neighbours + 1] {
        let mut window = level(shape, any);
        thin_out_others(&mut window, shape, plane, dice);
        let away = threshold + 1;
        put(&mut window, site, dice.among(&[any - away, any + away]));
        tally.run(finding(threshold.into(), window, dice));
    }
}

/// Two neighbours, as far below the level as above it, are just found. With one site that is one
/// grey level off the first of them is not, but only where it sees that site.
fn one_grey_level(tally: &mut Tally, dice: &mut Dice) {
    let shape = shape_of((66, 66));
    for (rows, columns) in pairs(&[0, 15, 16]).into_iter().skip(1) {
        let threshold = dice.among(&[1, 24, 28, 1000]);
        let any = dice.between(1001, 3000) as u16;
        let (mut first, mut other, mut off) = (any + threshold, any - threshold, any + 1);
        if dice.one_in(2) {
            (first, other, off) = (other, first, any - 1);
        }
        let mut window = none_surveyed(shape, dice);
        for site in 0..shape.sites() {
            if dice.one_in(3) {
                put(&mut window, site, any);
            }
        }
        for (place, sample) in [
            ((16, 16), first),
            ((17, 17), other),
            ((16 + rows, 16 + columns), off),
        ] {
            put_in_each_plane(&mut window, shape, place, sample);
        }
        tally.run(finding(threshold.into(), window, dice));
    }
}

/// Never found, at corners, on edges and within.
fn one_surveyed(tally: &mut Tally, dice: &mut Dice) {
    for shape in [(2, 2), (4, 4), (34, 66), (66, 34), (128, 128)].map(shape_of) {
        let window = none_surveyed(shape, dice);
        for place in pairs(&[0, shape.height.min(shape.width) / 4]) {
            for plane in 0..4 {
                let mut window = window.clone();
                let any = dice.between(0, 4095) as u16;
                let sample = dice.among(&[0, any, 4095]);
                put(&mut window, site_at(shape, plane, place), sample);
                tally.run(finding(1, window, dice));
            }
        }
    }
}

/// Two sites that just see each other, or just do not: 15 or 16 lines apart, along both diagonals
/// too. Twice the threshold apart they are just found, one less and they are not.
fn two_surveyed(tally: &mut Tally, dice: &mut Dice) {
    let any = (shapes::even(dice, 66, 128), shapes::even(dice, 66, 128));
    for shape in [(66, 66), any].map(shape_of) {
        let window = none_surveyed(shape, dice);
        for (row, column) in pairs(&[0, 16]) {
            for (rows, columns) in pairs(&[0, 15, 16]).into_iter().skip(1) {
                let (below, right) = (row + rows, column + columns);
                for places in [
                    [(row, column), (below, right)],
                    [(row, right), (below, column)],
                ] {
                    two_sites(tally, &window, shape, places, dice);
                }
            }
        }
    }
}

fn two_sites(
    tally: &mut Tally,
    none_surveyed: &Window,
    shape: Shape,
    places: [Place; 2],
    dice: &mut Dice,
) {
    let threshold = dice.between(1, 1000) as u16;
    let low = dice.between(0, 2000) as u16;
    for high in [low + 2 * threshold - 1, low + 2 * threshold] {
        let mut window = none_surveyed.clone();
        let mut samples = [low, high];
        dice.shuffle(&mut samples);
        for (place, sample) in places.into_iter().zip(samples) {
            put_in_each_plane(&mut window, shape, place, sample);
        }
        tally.run(finding(threshold.into(), window, dice));
    }
}

/// Everything surveyed, and sums near the greatest.
fn full_windows(tally: &mut Tally, dice: &mut Dice) {
    let mut window = level(shape_of((62, 34)), 4095);
    put(&mut window, 0, 0);
    tell(tally, finding(1, window, dice));
    for side in [62, 64, 128] {
        let shape = shape_of((side, side));
        tally.run(dark_sites(shape, dice));
        tally.run(just_found(shape, dice));
    }
    tally.run(black_and_white(shape_of((64, 64)), dice));
}

/// Where t is the threshold, a dark site is found that sees at least 4095 / (4095 - t) sites.
fn dark_sites(shape: Shape, dice: &mut Dice) -> Find {
    let mut window = level(shape, 4095);
    for plane in 0..4 {
        let place = (dice.below(64), dice.below(64));
        put(&mut window, site_at(shape, plane, place), 0);
    }
    let any = dice.between(4060, 4095);
    finding(dice.among(&[1, any, 4095]), window, dice)
}

fn black_and_white(shape: Shape, dice: &mut Dice) -> Find {
    let mut window = level(shape, 0);
    for sample in window.frame.iter_mut() {
        *sample = dice.among(&[0, 4095]);
    }
    let threshold = dice.between(2000, 2100);
    finding(threshold, window, dice)
}

/// In each plane two neighbours, on both sides of the mean.
fn just_found(shape: Shape, dice: &mut Dice) -> Find {
    let mut window = level(shape, 4094);
    for plane in 0..4 {
        let (row, column) = (dice.below(30), dice.below(30));
        put(&mut window, site_at(shape, plane, (row, column)), 4095);
        put(&mut window, site_at(shape, plane, (row + 1, column)), 4093);
    }
    finding(1, window, dice)
}

/// A window, accepted or refused, and then one that is smaller, or longer the other way.
fn one_after_another(tally: &mut Tally, dice: &mut Dice) {
    for (first, then) in [
        ((128, 128), (2, 2)),
        ((128, 128), (66, 2)),
        ((66, 66), (34, 32)),
        ((128, 2), (2, 128)),
        ((2, 128), (128, 2)),
    ] {
        let (first, then) = (shape_of(first), shape_of(then));
        let mut window = none_surveyed(first, dice);
        for site in (0..first.sites()).step_by(9) {
            put(&mut window, site, 4095);
        }
        tally.run(finding(1, window.clone(), dice));
        let case = beacons(then, (0, 0), dice);
        tell_after(tally, Some(&window), case.clone());
        for spoil in sites::FIND_SPOILERS {
            let mut spoiled = finding(1, window.clone(), dice);
            spoil(&mut spoiled, dice);
            tally.run(spoiled);
            tally.run(case.clone());
        }
    }
}

fn any_windows(tally: &mut Tally, dice: &mut Dice) {
    for _ in 0..8 {
        let shape = shape_of((dice.among(SIDES), dice.among(SIDES)));
        tally.run(sites::find_in(Window::of_shape(shape, dice), dice));
    }
}
