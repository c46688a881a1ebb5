//! From frames to a gain: a pair of frames at each of ten exposures, a point of each pair, and the slope of variance
//! against mean. The camera is simulated in whole numbers, so the text is the same on every machine: `gain.txt`.

use std::process::ExitCode;
use tippovrain::{dark_level, pair_figures, photon_transfer, Point, Refusal, Window, SURVEYED};

/// Samples of 10 bits, every site surveyed.
const WINDOW: Window = Window {
    width: 64,
    height: 64,
    full_scale: 1023,
};
const SITES: usize = WINDOW.width * WINDOW.height;
const MASK: [u8; SITES] = [SURVEYED; SITES];

/// Milliseconds. At the last three, samples are cut off at full scale.
const EXPOSURES: [u64; 10] = [1, 2, 4, 6, 8, 10, 12, 15, 18, 20];
/// The first and the last of the chosen points, which end before saturation.
const CHOSEN: (usize, usize) = (0, 5);

fn main() -> ExitCode {
    match gain() {
        Ok(()) => ExitCode::SUCCESS,
        Err(refusal) => {
            eprintln!("{refusal}");
            ExitCode::FAILURE
        }
    }
}

fn gain() -> Result<(), Refusal> {
    let mut camera = Camera { state: 1288 };
    let mut points = [Point::default(); EXPOSURES.len()];
    for (point, exposure) in points.iter_mut().zip(EXPOSURES) {
        *point = point_of(exposure, &camera.frame(exposure), &camera.frame(exposure))?;
    }
    let (first, last) = CHOSEN;
    let transfer = photon_transfer(&points, first, last)?;

    println!("point  exposure, ms  mean, 1/16  variance, 1/16");
    for (place, point) in points.iter().enumerate() {
        println!(
            "{:>5}  {:>12}  {:>10}  {:>14}",
            place, point.exposure, point.mean, point.variance
        );
    }
    println!(
        "gain of points {first} to {last}: {} = {:.4} grey levels per electron",
        transfer.gain.exact, transfer.gain.figure
    );
    println!(
        "saturation: point {}, {} ms",
        transfer.saturation, points[transfer.saturation].exposure
    );
    Ok(())
}

/// A point of two frames. The mean is above black level 0, so not below 0; what black is in it changes no gain.
fn point_of(exposure: u64, first: &[u16], second: &[u16]) -> Result<Point, Refusal> {
    let mean = dark_level(WINDOW, 0, &MASK, first)?;
    let variance = pair_figures(WINDOW, &MASK, first, second)?.variance.exact;
    Ok(Point {
        exposure,
        mean: sixteenths(mean.numerator.unsigned_abs(), mean.denominator),
        variance: sixteenths(variance.numerator, variance.denominator),
    })
}

/// A fraction in sixteenths, half rounded up.
fn sixteenths(numerator: u64, denominator: u64) -> u64 {
    (32 * numerator + denominator) / (2 * denominator)
}

/// A camera with a gain of half a grey level per electron, a black level of 64, and no noise but that of the light and of
/// rounding.
struct Camera {
    state: u64,
}

impl Camera {
    /// 128 electrons a millisecond on the average, and no sample above full scale.
    fn frame(&mut self, exposure: u64) -> Vec<u16> {
        let sample = |_| 64 + self.electrons(128 * exposure) / 2;
        (0..SITES)
            .map(sample)
            .map(|sample| sample.min(WINDOW.full_scale) as u16)
            .collect()
    }

    /// Of 4 * mean coins, mean a multiple of 16, the heads have the mean 2 * mean and the variance mean. Less mean,
    /// they have a variance that is their mean, as electrons have.
    fn electrons(&mut self, mean: u64) -> u64 {
        let heads: u64 = (0..mean / 16)
            .map(|_| self.coins().count_ones() as u64)
            .sum();
        heads.saturating_sub(mean)
    }

    /// 64 coins (xorshift).
    fn coins(&mut self) -> u64 {
        self.state ^= self.state << 13;
        self.state ^= self.state >> 7;
        self.state ^= self.state << 17;
        self.state
    }
}
