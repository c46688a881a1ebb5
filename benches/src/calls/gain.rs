use crate::contest::Contest;

/// C's tip_point.
#[repr(C)]
#[derive(Clone, Copy)]
pub struct Point {
    exposure: u64,
    mean: u64,
    variance: u64,
}

extern "C" {
    fn tip_photon_transfer(
        points: *const Point,
        points_len: usize,
        first: usize,
        last: usize,
        place: *mut u64,
        numerator: *mut i64,
        denominator: *mut u64,
        slope: *mut f64,
        saturation: *mut u64,
    ) -> u64;
}

pub struct Input {
    points: Vec<Point>,
    first: usize,
    last: usize,
}

#[derive(Debug, PartialEq, Default)]
pub struct Output {
    number: u64,
    place: u64,
    numerator: i64,
    denominator: u64,
    slope: f64,
    saturation: u64,
}

pub fn contest() -> Contest<Input, Output> {
    Contest {
        call: "tip_photon_transfer",
        timed: &[64],
        inputs: vec![
            ("64 points", input(64, 0, 63, |_| {})),
            ("8 of 64", input(64, 20, 27, |_| {})),
            ("2 points", input(2, 0, 1, |_| {})),
            ("level", input(64, 0, 63, level)),
            ("refused 3, none", input(0, 0, 0, |_| {})),
            ("refused 3, 65 points", input(65, 0, 63, |_| {})),
            (
                "refused 3, a mean",
                input(64, 0, 1, |points| points[9].mean = 65_521),
            ),
            (
                "refused 3, a variance",
                input(64, 0, 1, |points| points[63].variance = (1 << 28) + 1),
            ),
            ("refused 3, reversed", input(64, 1, 0, |_| {})),
            ("refused 3, outside", input(64, 0, 64, |_| {})),
            ("refused 7", input(64, 63, 63, |_| {})),
            ("refused 13", input(64, 0, 63, upright)),
            ("refused 14", input(64, 0, 63, halves)),
        ],
        lent: |_| Output {
            number: 77,
            place: 77,
            numerator: 77,
            denominator: 77,
            slope: 77.0,
            saturation: 77,
        },
        library,
        plain: vec![("indexed", indexed), ("one walk", one_walk)],
    }
}

/// All variances equal.
fn level(points: &mut [Point]) {
    points.iter_mut().for_each(|point| point.variance = 7);
}

/// All means equal.
fn upright(points: &mut [Point]) {
    points.iter_mut().for_each(|point| point.mean = 7);
}

/// Half the points at 0 and 0, half at both limits.
fn halves(points: &mut [Point]) {
    for (i, point) in points.iter_mut().enumerate() {
        (point.mean, point.variance) = if i < 32 { (0, 0) } else { (MEAN, VARIANCE) };
    }
}

/// Variance grows with the mean, unevenly, and falls at the end, as where a camera saturates.
fn input(count: usize, first: usize, last: usize, spoil: fn(&mut [Point])) -> Input {
    let mut points: Vec<Point> = (0..count as u64)
        .map(|i| Point {
            exposure: i,
            mean: 1000 + 900 * i + i * 37 % 64,
            variance: (500 + 450 * i + i * 29 % 64) / if i < 60 { 1 } else { 16 },
        })
        .collect();
    spoil(&mut points);
    Input {
        points,
        first,
        last,
    }
}

fn library(input: &Input, output: &mut Output) {
    // SAFETY: the pointers come from borrows, so they are aligned and nothing that is written overlaps.
    output.number = unsafe {
        tip_photon_transfer(
            input.points.as_ptr(),
            input.points.len(),
            input.first,
            input.last,
            &mut output.place,
            &mut output.numerator,
            &mut output.denominator,
            &mut output.slope,
            &mut output.saturation,
        )
    };
}

const MEAN: u64 = 65_520;
const VARIANCE: u64 = 1 << 28;
const EXACT: u64 = 1 << 53;

fn out_of_limits(point: &Point) -> bool {
    (point.mean > MEAN) | (point.variance > VARIANCE)
}

#[derive(Default)]
struct Sums {
    x: u64,
    y: u64,
    xx: u64,
    xy: u64,
}

impl Sums {
    /// Wraps at points out of limits alone, whose sums are not used.
    fn add(&mut self, point: &Point) {
        let (x, y) = (point.mean, point.variance);
        self.x = self.x.wrapping_add(x);
        self.y = self.y.wrapping_add(y);
        self.xx = self.xx.wrapping_add(x.wrapping_mul(x));
        self.xy = self.xy.wrapping_add(x.wrapping_mul(y));
    }
}

/// Refusals 7, 13 and 14, or the answer.
fn figures(chosen: u64, sums: &Sums, saturation: usize) -> Result<Output, u64> {
    if chosen < 2 {
        return Err(7);
    }
    let numerator = (chosen * sums.xy) as i64 - (sums.x * sums.y) as i64;
    let denominator = chosen * sums.xx - sums.x * sums.x;
    if denominator == 0 {
        return Err(13);
    }
    if numerator.unsigned_abs() >= EXACT || denominator >= EXACT {
        return Err(14);
    }
    Ok(Output {
        number: 0,
        place: 0,
        numerator,
        denominator,
        slope: numerator as f64 / denominator as f64,
        saturation: saturation as u64,
    })
}

fn answer(figures: Result<Output, u64>) -> Output {
    figures.unwrap_or_else(|number| Output {
        number,
        ..Output::default()
    })
}

#[inline(never)]
fn indexed(input: &Input, output: &mut Output) {
    *output = answer(by_index(input));
}

fn by_index(input: &Input) -> Result<Output, u64> {
    let (points, first, last) = (&input.points[..], input.first, input.last);
    if points.is_empty() || points.len() > 64 || points.iter().any(out_of_limits) {
        return Err(3);
    }
    if first > last || last >= points.len() {
        return Err(3);
    }
    let mut sums = Sums::default();
    for point in &points[first..=last] {
        sums.add(point);
    }
    let mut saturation = 0;
    for i in 1..points.len() {
        if points[i].variance > points[saturation].variance {
            saturation = i;
        }
    }
    figures((last - first + 1) as u64, &sums, saturation)
}

#[inline(never)]
fn one_walk(input: &Input, output: &mut Output) {
    *output = answer(at_once(input));
}

/// Limits, sums and the greatest variance in one walk with no way out.
fn at_once(input: &Input) -> Result<Output, u64> {
    let (points, first, last) = (&input.points[..], input.first, input.last);
    if points.is_empty() || points.len() > 64 || first > last || last >= points.len() {
        return Err(3);
    }
    let (mut out, mut sums) = (false, Sums::default());
    let (mut top, mut saturation) = (points[0].variance, 0);
    for (i, point) in points.iter().enumerate() {
        out |= out_of_limits(point);
        if (first..=last).contains(&i) {
            sums.add(point);
        }
        if point.variance > top {
            (top, saturation) = (point.variance, i);
        }
    }
    if out {
        return Err(3);
    }
    figures((last - first + 1) as u64, &sums, saturation)
}
