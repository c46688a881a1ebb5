//! Pair noise: the variance of the difference of two frames, and its root.

use crate::float::rounded_quotient;
use crate::shared::{
    check_codes, check_full_scale, check_lengths, check_samples, refuse_if, settle, sites_of,
    surveyed, Answer, Outcome, Refusal,
};

/// What the call is lent.
pub struct Pair<'a> {
    pub width: usize,
    pub height: usize,
    pub full_scale: u64,
    pub mask: &'a [u8],
    pub first: &'a [u16],
    pub second: &'a [u16],
}

/// n, P, Q, r, and the bits of P/Q and of r / (64 n).
pub fn pair_figures(pair: &Pair) -> Answer {
    settle(figures(pair), 6)
}

fn figures(pair: &Pair) -> Outcome {
    let (n, p) = survey(pair)?;
    let q = 2 * n * n;
    let r = root(2048 * p);
    let variance = rounded_quotient(p as u128, q as u128);
    let noise = rounded_quotient(r as u128, 64 * n as u128);
    Ok(vec![n, p, q, r, variance.into(), noise.into()])
}

/// The count of surveyed sites and P, after all refusals.
fn survey(pair: &Pair) -> Result<(i128, i128), Refusal> {
    let sites = sites_of(pair.width, pair.height)?;
    check_full_scale(pair.full_scale)?;
    check_lengths(&[
        (pair.mask.len(), sites),
        (pair.first.len(), sites),
        (pair.second.len(), sites),
    ])?;
    check_codes(pair.mask)?;
    check_samples(pair.mask, &[pair.first, pair.second], pair.full_scale)?;
    let (mut n, mut sum, mut squares) = (0, 0, 0);
    for site in surveyed(pair.mask) {
        let difference = i128::from(pair.second[site]) - i128::from(pair.first[site]);
        n += 1;
        sum += difference;
        squares += difference * difference;
    }
    refuse_if(n < 2, 7)?;
    Ok((n, n * squares - sum * sum))
}

/// The greatest whole number whose square is at most `square`, found by halving.
pub fn root(square: i128) -> i128 {
    let (mut low, mut high) = (0, 1 << 62);
    while low + 1 < high {
        let middle = (low + high) / 2;
        if middle * middle <= square {
            low = middle;
        } else {
            high = middle;
        }
    }
    low
}

#[cfg(test)]
mod tests {
    use super::*;

    /// A fully surveyed 2 x 2 window.
    fn of_frames<'a>(first: &'a [u16], second: &'a [u16]) -> Pair<'a> {
        Pair {
            width: 2,
            height: 2,
            full_scale: 1023,
            mask: &[0; 4],
            first,
            second,
        }
    }

    /// The greatest window, at the greatest full scale.
    fn of_greatest<'a>(mask: &'a [u8], first: &'a [u16], second: &'a [u16]) -> Pair<'a> {
        Pair {
            width: 128,
            height: 128,
            full_scale: 4095,
            mask,
            first,
            second,
        }
    }

    fn accepted(whole: [i128; 4], floats: [f64; 2]) -> Answer {
        let mut figures = whole.to_vec();
        figures.extend(floats.map(|float| i128::from(float.to_bits())));
        settle(Ok(figures), 6)
    }

    fn refused(number: u64, place: u64, over: u64) -> Answer {
        let refusal = Refusal {
            number,
            place,
            over,
        };
        settle(Err(refusal), 6)
    }

    /// Tells variance and noise exchanged, and n in r's place.
    #[test]
    fn k1() {
        let pair = of_frames(&[100, 101, 102, 103], &[101, 101, 102, 104]);
        assert_eq!(
            pair_figures(&pair),
            accepted([4, 4, 32, 90], [0.125, 90.0 / 256.0])
        );
    }

    /// Tells the plain sum of d^2, by which the drift would be noise: P 784.
    #[test]
    fn k2_a_lamp_drift_is_no_noise() {
        let pair = of_frames(&[100, 101, 102, 103], &[107, 108, 109, 110]);
        assert_eq!(pair_figures(&pair), accepted([4, 0, 32, 0], [0.0, 0.0]));
    }

    /// Tells Q = n x n, which is 49, and a gap that counts, which makes n 8.
    #[test]
    fn seven_sites_and_a_gap() {
        let pair = Pair {
            width: 4,
            height: 2,
            full_scale: 1023,
            mask: &[0, 0, 0, 0, 0, 1, 0, 0],
            first: &[100, 101, 102, 103, 100, 0, 102, 103],
            second: &[101, 101, 102, 104, 100, 1023, 103, 103],
        };
        assert_eq!(
            pair_figures(&pair),
            accepted([7, 12, 98, 156], [12.0 / 98.0, 156.0 / 448.0])
        );
    }

    /// Tells r of 2047 x P, which is 63, as is a root whose square stays below 2048 x P.
    #[test]
    fn a_whole_root() {
        let mut pair = of_frames(&[5, 5, 5, 5], &[6, 5, 5, 5]);
        pair.mask = &[0, 0, 0, 1];
        assert_eq!(
            pair_figures(&pair),
            accepted([3, 2, 18, 64], [1.0 / 9.0, 1.0 / 3.0])
        );
        assert_eq!(root(2047 * 2), 63);
    }

    /// Tells the second frame judged before the first, and both judged site by site: place 0. And in
    /// both frames a count of the sites up to the place, or from it on: 2.
    #[test]
    fn the_first_frame_is_judged_before_the_second() {
        let mut pair = of_frames(&[0, 0, 11, 0], &[11, 0, 0, 11]);
        pair.full_scale = 10;
        assert_eq!(pair_figures(&pair), refused(6, 2, 3));
    }

    /// Tells a refusal that leaves figures, here K1's.
    #[test]
    fn a_refusal_has_six_zeros() {
        let mut pair = of_frames(&[100, 101, 102, 103], &[101, 101, 102, 104]);
        pair.full_scale = 103;
        assert_eq!(pair_figures(&pair), refused(6, 3, 1));
    }

    /// Request d. Tells a count of the first frame alone (1), of the second alone (2), with the gap
    /// (5), and with full scale itself (4).
    #[test]
    fn samples_over_in_both_frames() {
        let mut pair = of_frames(&[1024, 65535, 100, 1023], &[100, 65535, 2000, 65535]);
        pair.mask = &[0, 1, 0, 0];
        assert_eq!(pair_figures(&pair), refused(6, 0, 3));
        (pair.first, pair.second) = (pair.second, pair.first);
        assert_eq!(pair_figures(&pair), refused(6, 2, 3));
    }

    /// Tells a count of sites (2), and of buffers looked at once.
    #[test]
    fn one_buffer_given_twice_is_two_frames() {
        let mut pair = of_frames(&[11, 0, 10, 11], &[]);
        (pair.full_scale, pair.second) = (10, pair.first);
        assert_eq!(pair_figures(&pair), refused(6, 0, 4));
    }

    /// Tells one surveyed site measured (n 1, P 0, Q 2, r 0), and two refused.
    #[test]
    fn two_surveyed_sites_are_enough_and_one_is_not() {
        let mut pair = of_frames(&[0, 3, 65535, 65535], &[1, 2, 65535, 0]);
        pair.mask = &[0, 0, 1, 2];
        assert_eq!(
            pair_figures(&pair),
            accepted([2, 4, 8, 90], [0.5, 90.0 / 128.0])
        );
        pair.mask = &[0, 3, 1, 2];
        assert_eq!(pair_figures(&pair), refused(7, 0, 0));
    }

    /// Tells refusals in another order: all apply at first, and each turn mends the one given.
    #[test]
    fn refusals_in_their_order() {
        let mut pair = Pair {
            width: 3,
            height: 2,
            full_scale: 0,
            mask: &[1, 0, 4],
            first: &[11; 3],
            second: &[11; 5],
        };
        assert_eq!(pair_figures(&pair), refused(1, 0, 0));
        pair.width = 2;
        assert_eq!(pair_figures(&pair), refused(2, 0, 0));
        pair.full_scale = 10;
        assert_eq!(pair_figures(&pair), refused(4, 0, 0));
        pair.mask = &[1, 0, 4, 1];
        assert_eq!(pair_figures(&pair), refused(4, 0, 0));
        pair.first = &[11; 4];
        assert_eq!(pair_figures(&pair), refused(4, 0, 0));
        pair.second = &[11; 4];
        assert_eq!(pair_figures(&pair), refused(5, 2, 0));
        pair.mask = &[1, 0, 3, 1];
        assert_eq!(pair_figures(&pair), refused(6, 1, 2));
        pair.first = &[10; 4];
        assert_eq!(pair_figures(&pair), refused(6, 1, 1));
        pair.second = &[10; 4];
        assert_eq!(pair_figures(&pair), refused(7, 0, 0));
        pair.mask = &[1, 0, 0, 1];
        assert_eq!(pair_figures(&pair), accepted([2, 0, 8, 0], [0.0, 0.0]));
    }

    #[test]
    fn roots() {
        for r in [0, 1, 2, 90, 3_036_259_044] {
            assert_eq!(root(r * r), r);
            assert_eq!(root(r * r + 2 * r), r);
        }
    }

    /// Tells the root of a float, which is one more: 2048 x P is 1 short of its square.
    #[test]
    fn one_short_of_a_whole_root() {
        let mut mask = [1; 16384];
        mask[..8805].fill(0);
        let mut first = [0; 16384];
        first[..4747].fill(4095);
        let second = first.map(|sample| 4095 - sample);
        let pair = of_greatest(&mask, &first, &second);
        let (p, r) = (4747 * 4058 * 8190i128.pow(2), 1_626_726_400);
        assert_eq!(2048 * p, (r + 1) * (r + 1) - 1);
        assert_eq!((2048.0 * p as f64).sqrt(), (r + 1) as f64);
        assert_eq!(
            pair_figures(&pair),
            accepted(
                [8805, p, 155_056_050, r],
                [p as f64 / 155_056_050.0, r as f64 / 563_520.0]
            )
        );
    }

    /// P is at most (n x full scale)^2, and this window meets that bound. It is below 2^53, so
    /// every P is an exact float.
    #[test]
    fn the_greatest_p() {
        let first: Vec<u16> = (0..16384).map(|site| site % 2 * 4095).collect();
        let second: Vec<u16> = first.iter().map(|sample| 4095 - sample).collect();
        let pair = of_greatest(&[0; 16384], &first, &second);
        let bound = (16384 * 4095i128).pow(2);
        assert_eq!(bound, 4_501_400_872_550_400);
        assert!(bound < 1 << 53);
        assert_eq!(
            pair_figures(&pair),
            accepted(
                [16_384, bound, 536_870_912, 3_036_259_044],
                [8_384_512.5, 3_036_259_044.0 / 1_048_576.0]
            )
        );
    }
}
