//! Dark level: the mean over surveyed sites, less the black level.

use crate::shared::{refuse_if, settle, surveyed, Answer, Outcome, Window};

/// The signed numerator and the count of surveyed sites.
pub fn dark_level(window: Window, black_level: u64) -> Answer {
    settle(dark(window, black_level), 2)
}

fn dark(window: Window, black_level: u64) -> Outcome {
    window.check_scale()?;
    refuse_if(black_level > window.full_scale, 3)?;
    window.check_contents(&[])?;
    let n = surveyed(window.mask).count() as i128;
    refuse_if(n == 0, 7)?;
    let sum: i128 = surveyed(window.mask)
        .map(|site| i128::from(window.frame[site]))
        .sum();
    Ok(vec![sum - i128::from(black_level) * n, n])
}

#[cfg(test)]
mod tests {
    use super::*;

    fn of_frame<'a>(mask: &'a [u8], frame: &'a [u16]) -> Window<'a> {
        Window {
            width: 2,
            height: 2,
            full_scale: 1023,
            mask,
            frame,
        }
    }

    #[test]
    fn k5() {
        let window = of_frame(&[0; 4], &[60, 64, 64, 64]);
        assert_eq!(dark_level(window, 64).figures, [-4, 4]);
    }

    #[test]
    fn the_whole_output_for_k1() {
        let window = of_frame(&[0; 4], &[100, 101, 102, 103]);
        assert_eq!(dark_level(window, 64).figures, [150, 4]);
    }

    #[test]
    fn black_may_be_full_scale_and_no_more() {
        let window = of_frame(&[0, 1, 2, 3], &[5, 65535, 65535, 65535]);
        assert_eq!(dark_level(window, 1023).figures, [-1018, 1]);
        assert_eq!(dark_level(window, 1024).number, 3);
    }

    #[test]
    fn no_surveyed_site_is_too_few() {
        let window = of_frame(&[1, 1, 2, 3], &[5; 4]);
        assert_eq!(dark_level(window, 64).number, 7);
    }
}
