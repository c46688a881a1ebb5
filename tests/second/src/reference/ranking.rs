//! Ranking pairs fairly (document 02, m): what the answers to two pairs have to do with each other.
//! The exact order is that of the reference's whole numbers; judged by it are the library's answers.

use std::cmp::Ordering;

use crate::shared::{keep, Answer, Answers, Law};

/// The figures of an accepted pair.
struct Figures {
    n: i128,
    p: i128,
    q: i128,
    variance: f64,
    noise: f64,
}

fn figures(answer: &Answer) -> Figures {
    let [n, p, q, _, variance, noise] = answer.figures[..] else {
        panic!("a pair has six figures");
    };
    Figures {
        n,
        p,
        q,
        variance: f64::from_bits(variance as u64),
        noise: f64::from_bits(noise as u64),
    }
}

/// The order of the exact variances P/Q of two accepted pairs, by whole products.
pub fn exact_order(one: &Answer, other: &Answer) -> Ordering {
    let (one, other) = (figures(one), figures(other));
    (one.p * other.q).cmp(&(other.p * one.q))
}

fn equal_n(one: &Answer, other: &Answer) -> bool {
    figures(one).n == figures(other).n
}

/// The nearest two P at one n: P and P + 1, or P and P + 2 where n is odd, since P is even there.
pub fn neighbours(one: &Answer, other: &Answer) -> bool {
    let (p, other_p) = (figures(one).p, figures(other).p);
    equal_n(one, other) && (p - other_p).abs() == 1 + figures(one).n % 2
}

/// How two accepted pairs stand to each other.
pub fn relation(one: &Answer, other: &Answer) -> &'static str {
    match (equal_n(one, other), exact_order(one, other)) {
        (true, Ordering::Equal) => "equal",
        (true, _) if neighbours(one, other) => match figures(one).n % 2 {
            0 => "neighbours at even n",
            _ => "neighbours at odd n",
        },
        (true, _) => "ranked",
        (false, Ordering::Equal) => "equal at other n",
        (false, _) => "ranked at other n",
    }
}

const VARIANCE: &str = "the variance figures are not in the order of the exact variances";
const NOISE: &str = "the noise figures are not in the order of the exact variances";
const EQUAL: &str = "the exact variances and n are equal, and the answers are not";
const ACCEPTED: &str = "with the frames swapped one is accepted and the other is not";
const SWAPPED: &str = "with the frames swapped both are accepted, and the answers are not equal";
const SHIFTED: &str = "with a constant added the answer is not that of the accepted pair";

/// Of two accepted pairs, the one with the lesser exact variance has the lesser figures, or the
/// same; where the exact variances are equal so are the figures. The noise is bound to this at
/// equal n only. A refused pair has no rank.
pub fn ranked(one: &Answers, other: &Answers) -> Law {
    let all = [&one.expected, &one.found, &other.expected, &other.found];
    if all.iter().any(|answer| answer.number != 0) {
        return Ok(());
    }
    let order = exact_order(&one.expected, &other.expected);
    let equal_n = equal_n(&one.expected, &other.expected);
    if order.is_eq() && equal_n {
        keep(one.found == other.found, EQUAL)?;
    }
    if order.is_le() {
        in_order(&one.found, &other.found, equal_n)?;
    }
    if order.is_ge() {
        in_order(&other.found, &one.found, equal_n)?;
    }
    Ok(())
}

fn in_order(lesser: &Answer, greater: &Answer, equal_n: bool) -> Law {
    let (lesser, greater) = (figures(lesser), figures(greater));
    keep(lesser.variance <= greater.variance, VARIANCE)?;
    keep(!equal_n || lesser.noise <= greater.noise, NOISE)
}

/// With the frames exchanged a pair is accepted exactly when it was, and then the whole answer is
/// the same. Of a refusal no more is asked: the place of a 6 may move.
pub fn swapped(one: &Answer, other: &Answer) -> Law {
    let accepted = one.number == 0;
    keep(accepted == (other.number == 0), ACCEPTED)?;
    keep(!accepted || one == other, SWAPPED)
}

/// With a constant added to every surveyed sample of a frame, none leaving 0 to full scale, an
/// accepted pair is accepted still, and the whole answer is the same.
pub fn shifted(before: &Answer, after: &Answer) -> Law {
    keep(before.number != 0 || before == after, SHIFTED)
}

#[cfg(test)]
mod tests {
    use super::*;
    use crate::float::rounded_quotient;
    use crate::pair::{pair_figures, root, Pair};
    use crate::shared::{check_samples, settle, surveyed, Refusal};

    type Program = fn(&Pair) -> Answer;

    const ALL: &[u8] = &[0; 4];

    /// A 2 x 2 window at full scale 4095.
    fn of_four<'a>(mask: &'a [u8], first: &'a [u16], second: &'a [u16]) -> Pair<'a> {
        Pair {
            width: 2,
            height: 2,
            full_scale: 4095,
            mask,
            first,
            second,
        }
    }

    /// A 2 x 2 window with two surveyed sites, of which one has no difference.
    fn of_one_difference(second: &[u16]) -> Pair<'_> {
        of_four(&[0, 0, 1, 3], &[0; 4], second)
    }

    fn answers(program: Program, pair: &Pair) -> Answers {
        Answers {
            expected: pair_figures(pair),
            found: program(pair),
        }
    }

    /// In either order the two are ranked right by the reference, and `program` breaks `law`.
    fn breaks_rank(program: Program, one: &Pair, other: &Pair, law: &'static str) {
        for (one, other) in [(one, other), (other, one)] {
            let right = [one, other].map(|pair| answers(pair_figures, pair));
            assert_eq!(ranked(&right[0], &right[1]), Ok(()));
            let wrong = [one, other].map(|pair| answers(program, pair));
            assert_eq!(ranked(&wrong[0], &wrong[1]), Err(law));
        }
    }

    fn breaks_swap(program: Program, pair: &Pair, law: &'static str) {
        let other = Pair {
            first: pair.second,
            second: pair.first,
            ..*pair
        };
        assert_eq!(swapped(&pair_figures(pair), &pair_figures(&other)), Ok(()));
        for (one, other) in [(pair, &other), (&other, pair)] {
            assert_eq!(swapped(&program(one), &program(other)), Err(law));
        }
    }

    fn breaks_shift(program: Program, before: &Pair, after: &Pair) {
        let right = [before, after].map(pair_figures);
        assert_eq!(shifted(&right[0], &right[1]), Ok(()));
        assert_eq!(program(before).number, 0);
        assert_eq!(shifted(&program(before), &program(after)), Err(SHIFTED));
    }

    /// The answer of an accepted pair with another P, or another r, than it should have.
    fn accepted(n: i128, p: i128, r: i128) -> Answer {
        let q = 2 * n * n;
        let variance = rounded_quotient(p as u128, q as u128);
        let noise = rounded_quotient(r as u128, 64 * n as u128);
        let figures = vec![n, p, q, r, variance.into(), noise.into()];
        settle(Ok(figures), 6)
    }

    /// n, sum of d and sum of d^2, with `square` for the square of a difference.
    fn sums(pair: &Pair, square: fn(i128) -> i128) -> (i128, i128, i128) {
        let (mut n, mut sum, mut squares) = (0, 0, 0);
        for site in surveyed(pair.mask) {
            let difference = i128::from(pair.second[site]) - i128::from(pair.first[site]);
            n += 1;
            sum += difference;
            squares += square(difference);
        }
        (n, sum, squares)
    }

    fn root_modulo_2_32(pair: &Pair) -> Answer {
        let right = pair_figures(pair);
        let (n, p) = (right.figures[0], right.figures[1]);
        accepted(n, p, root(2048 * p % (1 << 32)))
    }

    fn squares_in_16_bits(pair: &Pair) -> Answer {
        let (n, sum, squares) = sums(pair, |difference| difference * difference % (1 << 16));
        let p = (n * squares - sum * sum).max(0);
        accepted(n, p, root(2048 * p))
    }

    fn variance_of_a_sample(pair: &Pair) -> Answer {
        let mut answer = pair_figures(pair);
        let (n, p) = (answer.figures[0] as u128, answer.figures[1] as u128);
        answer.figures[4] = rounded_quotient(p, 2 * n * (n - 1)).into();
        answer
    }

    fn deviations_in_floats(pair: &Pair) -> Answer {
        let mut answer = pair_figures(pair);
        let differences: Vec<f64> = surveyed(pair.mask)
            .map(|site| f64::from(pair.second[site]) - f64::from(pair.first[site]))
            .collect();
        let n = differences.len() as f64;
        let mean = differences.iter().sum::<f64>() / n;
        let squares: f64 = differences.iter().map(|d| (d - mean) * (d - mean)).sum();
        answer.figures[4] = (squares / (2.0 * n)).to_bits().into();
        answer
    }

    fn gaps_surveyed(pair: &Pair) -> Answer {
        pair_figures(&Pair {
            mask: &vec![0; pair.mask.len()],
            ..*pair
        })
    }

    fn no_number(pair: &Pair) -> Answer {
        let mut answer = pair_figures(pair);
        answer.figures[5] = f64::NAN.to_bits().into();
        answer
    }

    fn differences_that_stop_at_0(pair: &Pair) -> Answer {
        let second: Vec<u16> = pair
            .first
            .iter()
            .zip(pair.second)
            .map(|(first, second)| first + second.saturating_sub(*first))
            .collect();
        pair_figures(&Pair {
            second: &second,
            ..*pair
        })
    }

    fn first_frame_judged_alone(pair: &Pair) -> Answer {
        match check_samples(pair.mask, &[pair.first], pair.full_scale) {
            Err(refusal) => settle(Err(refusal), 6),
            Ok(()) => pair_figures(&Pair {
                full_scale: 4095,
                ..*pair
            }),
        }
    }

    fn plain_sum(pair: &Pair) -> Answer {
        let (n, _, squares) = sums(pair, |difference| difference * difference);
        let p = n * squares;
        accepted(n, p, root(2048 * p))
    }

    fn full_scale_refused(pair: &Pair) -> Answer {
        pair_figures(&Pair {
            full_scale: pair.full_scale - 1,
            ..*pair
        })
    }

    fn gaps_judged(pair: &Pair) -> Answer {
        match check_samples(ALL, &[pair.first, pair.second], pair.full_scale) {
            Err(refusal) => settle(Err(refusal), 6),
            Ok(()) => pair_figures(pair),
        }
    }

    /// Tells 2048 x P taken modulo 2^32 before the root: P are 1448^2 and 1449^2, and the second
    /// is 2449 above 2^21.
    #[test]
    fn a_root_that_wraps_breaks_the_rank_of_the_noise() {
        let lesser = of_one_difference(&[0, 1448, 65535, 0]);
        let greater = of_one_difference(&[0, 1449, 0, 65535]);
        breaks_rank(root_modulo_2_32, &lesser, &greater, NOISE);
    }

    /// Tells d^2 in 16 bits, by which 256^2 is 0.
    #[test]
    fn squares_that_wrap_break_the_rank_of_the_variance() {
        let lesser = of_one_difference(&[0, 255, 0, 0]);
        let greater = of_one_difference(&[0, 256, 0, 0]);
        breaks_rank(squares_in_16_bits, &lesser, &greater, VARIANCE);
    }

    /// P 1 of two sites, and P 16 of eight: both exact variances are 1/8.
    fn an_eighth() -> [Pair<'static>; 2] {
        let eight = Pair {
            width: 4,
            height: 2,
            full_scale: 1,
            mask: &[0; 8],
            first: &[0; 8],
            second: &[1, 1, 1, 1, 0, 0, 0, 0],
        };
        [of_one_difference(&[0, 1, 0, 0]), eight]
    }

    /// Tells P / (2 n (n - 1)), 1/4 and 1/7 here, whose order is right at equal n only.
    #[test]
    fn the_variance_is_ranked_at_any_n() {
        let [two, eight] = an_eighth();
        breaks_rank(variance_of_a_sample, &two, &eight, VARIANCE);
    }

    /// Tells a law that would bind the noise at other n: equal exact variances have other noise.
    #[test]
    fn the_noise_is_ranked_at_equal_n_only() {
        let [two, eight] = an_eighth().map(|pair| answers(pair_figures, &pair));
        assert_eq!(two.found, accepted(2, 1, 45));
        assert_eq!(eight.found, accepted(8, 16, 181));
        assert_eq!(figures(&two.found).noise, 45.0 / 128.0);
        assert_eq!(figures(&eight.found).noise, 181.0 / 512.0);
        assert_eq!(exact_order(&two.found, &eight.found), Ordering::Equal);
        assert_eq!(ranked(&two, &eight), Ok(()));
        assert_eq!(ranked(&eight, &two), Ok(()));
    }

    /// 13 sites of which six differ by 1: P 42, so the exact variance is 42/338, below 1/8.
    fn below_an_eighth() -> Pair<'static> {
        Pair {
            width: 4,
            height: 4,
            full_scale: 1,
            mask: &[0, 0, 1, 0, 0, 0, 0, 2, 0, 3, 0, 0, 0, 0, 0, 0],
            first: &[0; 16],
            second: &[1, 1, 65535, 1, 1, 1, 1, 65535, 0, 65535, 0, 0, 0, 0, 0, 0],
        }
    }

    /// Tells a law that would bind the noise at other n: the lesser exact variance has the greater
    /// noise, 293/832 against 45/128.
    #[test]
    fn the_order_of_the_noise_may_turn_at_other_n() {
        let [two, _] = an_eighth();
        let [thirteen, two] = [below_an_eighth(), two].map(|pair| answers(pair_figures, &pair));
        assert_eq!(thirteen.found, accepted(13, 42, 293));
        assert_eq!(two.found, accepted(2, 1, 45));
        assert_eq!(exact_order(&thirteen.found, &two.found), Ordering::Less);
        assert!(figures(&thirteen.found).noise > figures(&two.found).noise);
        assert_eq!(ranked(&thirteen, &two), Ok(()));
        assert_eq!(ranked(&two, &thirteen), Ok(()));
    }

    /// Tells the mean taken off in floats: the differences 0 0 1 and 1 1 2 have one exact variance.
    #[test]
    fn a_rounded_mean_breaks_equal_figures() {
        let mask = [0, 0, 0, 1];
        let low = of_four(&mask, &[0; 4], &[0, 0, 1, 0]);
        let high = of_four(&mask, &[0; 4], &[1, 1, 2, 0]);
        breaks_rank(deviations_in_floats, &low, &high, EQUAL);
    }

    /// Tells figures compared as floats alone: P 1 for 0, and a noise of -0, which is no less than 0.
    #[test]
    fn equal_variances_have_equal_answers_bit_for_bit() {
        let one = answers(pair_figures, &of_one_difference(&[0; 4]));
        assert_eq!(ranked(&one, &one), Ok(()));
        let (mut whole, mut float) = (one.clone(), one.clone());
        whole.found.figures[1] = 1;
        float.found.figures[5] = (-0.0f64).to_bits().into();
        assert_eq!(ranked(&one, &whole), Err(EQUAL));
        assert_eq!(ranked(&one, &float), Err(EQUAL));
    }

    /// Tells gaps that count, by which windows of equal n have other n, 4 and 8 here.
    #[test]
    fn gaps_that_count_break_equal_figures() {
        let four = of_one_difference(&[0, 1, 0, 0]);
        let eight = Pair {
            width: 4,
            mask: &[0, 2, 2, 1, 0, 1, 3, 3],
            first: &[0; 8],
            second: &[1, 0, 0, 0, 0, 0, 0, 0],
            ..four
        };
        breaks_rank(gaps_surveyed, &four, &eight, EQUAL);
    }

    /// Tells a law that would rank the zeros of a refusal.
    #[test]
    fn a_refused_pair_has_no_rank() {
        let lesser = answers(pair_figures, &of_one_difference(&[0, 1, 0, 0]));
        let mut greater = answers(pair_figures, &of_one_difference(&[0, 2, 0, 0]));
        greater.found = settle(Err(Refusal::new(7, 0)), 6);
        assert_eq!(ranked(&lesser, &greater), Ok(()));
        greater.found.number = 0;
        assert_eq!(ranked(&lesser, &greater), Err(VARIANCE));
    }

    /// Tells a comparison that lets pass what is no number, as it is neither less nor greater.
    #[test]
    fn no_number_has_no_rank() {
        let lesser = of_one_difference(&[0, 1, 0, 0]);
        let greater = of_one_difference(&[0, 2, 0, 0]);
        breaks_rank(no_number, &lesser, &greater, NOISE);
        breaks_rank(no_number, &lesser, &lesser, NOISE);
    }

    /// Tells second - first that stops at 0: K1 has P 4, and with its frames swapped P 0.
    #[test]
    fn differences_without_a_sign_break_the_swap() {
        let pair = of_four(ALL, &[100, 101, 102, 103], &[101, 101, 102, 104]);
        breaks_swap(differences_that_stop_at_0, &pair, SWAPPED);
    }

    /// Tells a range check of the first frame alone.
    #[test]
    fn a_frame_that_is_not_judged_breaks_the_swap() {
        let mut pair = of_four(ALL, &[10, 10, 10, 10], &[10, 10, 11, 10]);
        pair.full_scale = 10;
        breaks_swap(first_frame_judged_alone, &pair, ACCEPTED);
    }

    /// Tells a law that would bind the place of a 6, which is 3 here, and 0 with the frames swapped.
    #[test]
    fn the_place_of_a_refusal_may_move() {
        let above = [
            (&[0, 0, 0, 11], &[11, 0, 0, 0]),
            (&[11, 0, 0, 0], &[0, 0, 0, 11]),
        ];
        let [one, other] = above.map(|(first, second)| {
            let mut pair = of_four(ALL, first, second);
            pair.full_scale = 10;
            pair_figures(&pair)
        });
        assert_eq!((one.number, one.place), (6, 3));
        assert_eq!((other.number, other.place), (6, 0));
        assert_eq!(swapped(&one, &other), Ok(()));
    }

    /// Tells P = n x (sum of d^2), the mean difference not taken off: 8 for K1, and 904 with its
    /// second frame 7 up. And the first frame down by 100.
    #[test]
    fn the_plain_sum_breaks_the_shift() {
        let k1 = of_four(ALL, &[100, 101, 102, 103], &[101, 101, 102, 104]);
        let up = of_four(ALL, k1.first, &[108, 108, 109, 111]);
        let down = of_four(ALL, &[0, 1, 2, 3], k1.second);
        breaks_shift(plain_sum, &k1, &up);
        breaks_shift(plain_sum, &k1, &down);
    }

    /// Tells a range check that refuses full scale itself.
    #[test]
    fn a_shift_may_reach_full_scale() {
        let before = of_four(ALL, &[0, 1, 2, 3], &[4091, 4090, 4094, 4094]);
        let after = of_four(ALL, &[0, 1, 2, 3], &[4092, 4091, 4095, 4095]);
        breaks_shift(full_scale_refused, &before, &after);
    }

    /// Tells a range check of gaps, where the shifted frame has other junk than before.
    #[test]
    fn a_shifted_frame_may_hold_anything_at_gaps() {
        let mask = [0, 1, 0, 0];
        let before = of_four(&mask, &[5, 0, 5, 5], &[5, 4095, 6, 6]);
        let after = of_four(&mask, &[4, 65535, 4, 4], &[5, 4095, 6, 6]);
        breaks_shift(gaps_judged, &before, &after);
    }

    /// Tells a law that would bind a pair that is refused: it may be accepted when shifted.
    #[test]
    fn a_refused_pair_may_be_shifted_anywhere() {
        let mut pair = of_four(ALL, &[11; 4], &[0; 4]);
        pair.full_scale = 10;
        let before = pair_figures(&pair);
        pair.first = &[10; 4];
        assert_eq!(before.number, 6);
        assert_eq!(shifted(&before, &pair_figures(&pair)), Ok(()));
    }

    /// Tells neighbours at any n alike: of three sites P is 0, 2, 6, 8, and of four 0, 3, 4, 8.
    #[test]
    fn neighbours_are_1_apart_at_even_n_and_2_at_odd_n() {
        let of = |n, p| accepted(n, p, root(2048 * p));
        assert_eq!(relation(&of(3, 6), &of(3, 8)), "neighbours at odd n");
        assert_eq!(relation(&of(3, 2), &of(3, 6)), "ranked");
        assert_eq!(relation(&of(4, 4), &of(4, 3)), "neighbours at even n");
        assert_eq!(relation(&of(4, 4), &of(4, 8)), "ranked");
        assert_eq!(relation(&of(4, 8), &of(4, 8)), "equal");
        assert_eq!(relation(&of(2, 1), &of(8, 16)), "equal at other n");
        assert_eq!(relation(&of(2, 1), &of(8, 15)), "ranked at other n");
        assert_eq!(relation(&of(3, 2), &of(2, 1)), "ranked at other n");
        assert!(neighbours(&of(4, 4), &of(4, 3)));
        assert!(!neighbours(&of(4, 4), &of(4, 4)));
        assert!(!neighbours(&of(4, 4), &of(6, 5)));
    }
}
