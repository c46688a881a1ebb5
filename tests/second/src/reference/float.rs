//! The correctly rounded quotient of two whole numbers, without any float division.

/// The bits of the binary64 nearest to `numerator` / `denominator`, a tie going to the even one.
/// Both numbers stay below 2^64, so that no quotient is too small or too great for a normal float.
pub fn rounded_quotient(numerator: u128, denominator: u128) -> u64 {
    assert!(numerator < 1 << 64 && (1..1 << 64).contains(&denominator));
    if numerator == 0 {
        return 0;
    }
    let (mut rest, mut divisor, mut exponent) = (numerator, denominator, 0i64);
    while rest < divisor {
        rest *= 2;
        exponent -= 1;
    }
    while rest >= 2 * divisor {
        divisor *= 2;
        exponent += 1;
    }
    let mut significand = 0u64;
    for _ in 0..53 {
        significand *= 2;
        if rest >= divisor {
            significand += 1;
            rest -= divisor;
        }
        rest *= 2;
    }
    // The rest is now twice what is left over, so half a unit is the divisor itself.
    if rest > divisor || (rest == divisor && significand % 2 == 1) {
        significand += 1;
    }
    if significand == 1 << 53 {
        significand /= 2;
        exponent += 1;
    }
    ((exponent + 1023) as u64) << 52 | (significand - (1 << 52))
}

/// The same of a signed numerator. Rounding is to the nearest, so the sign changes nothing else; 0
/// has none.
pub fn rounded_signed_quotient(numerator: i128, denominator: u128) -> u64 {
    let size = rounded_quotient(numerator.unsigned_abs(), denominator);
    match numerator {
        ..=-1 => size | 1 << 63,
        _ => size,
    }
}

#[cfg(test)]
mod tests {
    use super::*;

    #[test]
    fn known_quotients() {
        assert_eq!(rounded_quotient(0, 3), 0);
        assert_eq!(rounded_quotient(1, 1), 0x3FF0_0000_0000_0000);
        assert_eq!(rounded_quotient(4, 32), 0x3FC0_0000_0000_0000);
        assert_eq!(rounded_quotient(1, 3), 0x3FD5_5555_5555_5555);
        assert_eq!(rounded_quotient(2, 3), 0x3FE5_5555_5555_5555);
        assert_eq!(rounded_quotient(1, 10), 0x3FB9_9999_9999_999A);
    }

    #[test]
    fn signed_quotients() {
        assert_eq!(rounded_signed_quotient(0, 3), 0);
        assert_eq!(rounded_signed_quotient(1, 3), 0x3FD5_5555_5555_5555);
        assert_eq!(rounded_signed_quotient(-1, 3), 0xBFD5_5555_5555_5555);
        assert_eq!(rounded_signed_quotient(-2, 1), (-2.0f64).to_bits());
        assert_eq!(rounded_signed_quotient(-1, 10), (-0.1f64).to_bits());
    }

    #[test]
    fn ties_go_to_the_even_significand() {
        assert_eq!(rounded_quotient((1 << 53) + 1, 1), 0x4340_0000_0000_0000);
        assert_eq!(rounded_quotient((1 << 53) + 3, 1), 0x4340_0000_0000_0002);
        assert_eq!(rounded_quotient((1 << 54) - 1, 1), 0x4350_0000_0000_0000);
    }

    /// The machine's own division of exact floats has to agree.
    #[test]
    fn agrees_with_the_machine() {
        let mut state = 1u64;
        for _ in 0..100_000 {
            state = state
                .wrapping_mul(6364136223846793005)
                .wrapping_add(1442695040888963407);
            let numerator = (state >> 11) >> (state % 50);
            state = state
                .wrapping_mul(6364136223846793005)
                .wrapping_add(1442695040888963407);
            let denominator = ((state >> 11) >> (state % 50)) + 1;
            let machine = numerator as f64 / denominator as f64;
            assert_eq!(
                rounded_quotient(numerator.into(), denominator.into()),
                machine.to_bits()
            );
        }
    }
}
