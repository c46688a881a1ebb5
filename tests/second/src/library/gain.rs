use reference::gain::Point;
use reference::shared::Answer;

use super::{Lent, GARBAGE, NO_COUNT};

extern "C" {
    fn tip_photon_transfer(
        points: *const Point,
        points_len: usize,
        first: usize,
        last: usize,
        place: *mut u64,
        numerator: *mut i64,
        denominator: *mut u64,
        slope: *mut f64,
        saturation: *mut u64,
    ) -> u64;
}

pub fn photon_transfer(points: &mut Lent<Point>, first: usize, last: usize) -> Answer {
    let (mut place, mut saturation) = (GARBAGE, GARBAGE);
    let (mut numerator, mut denominator) = (GARBAGE as i64, GARBAGE);
    let mut slope = f64::from_bits(GARBAGE);
    // SAFETY: the list is lent with its own length, and only the cells are written.
    let number = unsafe {
        tip_photon_transfer(
            points.address(),
            points.len(),
            first,
            last,
            &mut place,
            &mut numerator,
            &mut denominator,
            &mut slope,
            &mut saturation,
        )
    };
    let figures = vec![
        numerator.into(),
        denominator.into(),
        slope.to_bits().into(),
        saturation.into(),
    ];
    Answer {
        number,
        place,
        over: NO_COUNT,
        figures,
    }
}
