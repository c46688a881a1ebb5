//! Defective sites, and their repair.

use crate::shared::{refuse_if, settle, surveyed, Answer, Outcome, Window};

/// What threshold 0 stands for (document 02 g).
const DEFAULT_THRESHOLD: i128 = 24;

/// The count of newly found sites.
pub fn find_defects(window: Window, threshold: u64, out_mask: &mut [u8]) -> Answer {
    settle(find(window, threshold, out_mask), 1)
}

/// The count of filled sites.
pub fn repair(window: Window, out_frame: &mut [u16], out_mask: &mut [u8]) -> Answer {
    settle(fill(window, out_frame, out_mask), 1)
}

fn find(window: Window, threshold: u64, out_mask: &mut [u8]) -> Outcome {
    let sites = window.check_scale()?;
    refuse_if(threshold > 4095, 3)?;
    window.check_contents(&[(out_mask.len(), sites)])?;
    let t = if threshold == 0 {
        DEFAULT_THRESHOLD
    } else {
        i128::from(threshold)
    };
    let mut found = 0;
    out_mask.copy_from_slice(window.mask);
    for site in surveyed(window.mask) {
        if is_defective(&window, site, t) {
            out_mask[site] = 2;
            found += 1;
        }
    }
    Ok(vec![found])
}

fn is_defective(window: &Window, site: usize, t: i128) -> bool {
    let (c, sum) = survey_around(window, site, 15);
    let p = i128::from(window.frame[site]);
    (p * c - sum).abs() >= t * c
}

/// Count and sum of the surveyed sites in a site's plane, up to `reach` plane steps away in each
/// direction, the site itself included.
fn survey_around(window: &Window, site: usize, reach: usize) -> (i128, i128) {
    let (mut count, mut sum) = (0, 0);
    for row in in_plane(site / window.width, window.height, reach) {
        for column in in_plane(site % window.width, window.width, reach) {
            let near = row * window.width + column;
            if window.mask[near] == 0 {
                count += 1;
                sum += i128::from(window.frame[near]);
            }
        }
    }
    (count, sum)
}

/// Every second index around `at`, `reach` of them to each side, cut off at the window's edges.
fn in_plane(at: usize, side: usize, reach: usize) -> impl Iterator<Item = usize> {
    let first = at - 2 * reach.min(at / 2);
    let last = (at + 2 * reach).min(side - 1);
    (first..=last).step_by(2)
}

fn fill(window: Window, out_frame: &mut [u16], out_mask: &mut [u8]) -> Outcome {
    let sites = window.check_scale()?;
    window.check_contents(&[(out_frame.len(), sites), (out_mask.len(), sites)])?;
    out_frame.copy_from_slice(window.frame);
    out_mask.copy_from_slice(window.mask);
    let mut filled = 0;
    for site in (0..sites).filter(|&site| window.mask[site] == 2) {
        // The site itself is a defect, so only its neighbours can be surveyed.
        let (m, sum) = survey_around(&window, site, 1);
        if m == 0 {
            continue;
        }
        out_frame[site] = ((2 * sum + m) / (2 * m)) as u16;
        out_mask[site] = 3;
        filled += 1;
    }
    Ok(vec![filled])
}

#[cfg(test)]
mod tests {
    use super::*;

    fn found(
        width: usize,
        height: usize,
        threshold: u64,
        mask: &[u8],
        frame: &[u16],
    ) -> Vec<usize> {
        let mut out = vec![99; mask.len()];
        let window = Window {
            width,
            height,
            full_scale: 1023,
            mask,
            frame,
        };
        let answer = find_defects(window, threshold, &mut out);
        let new: Vec<usize> = surveyed(mask).filter(|&site| out[site] == 2).collect();
        assert_eq!(answer.figures, [new.len() as i128]);
        for site in (0..mask.len()).filter(|site| !new.contains(site)) {
            assert_eq!(out[site], mask[site]);
        }
        new
    }

    /// What is found in the window of K6 and K7, all 64 but one sample.
    fn found_with(sample: u16, site: usize, threshold: u64) -> Vec<usize> {
        let mut frame = [64; 16];
        frame[site] = sample;
        found(4, 4, threshold, &[0; 16], &frame)
    }

    #[test]
    fn k6_and_k7() {
        for site in 0..16 {
            assert_eq!(found_with(102, site, 28), [site]);
            assert_eq!(found_with(101, site, 28), []);
        }
    }

    #[test]
    fn the_like_of_k6_and_k7_for_24() {
        for threshold in [0, 24] {
            for site in 0..16 {
                assert_eq!(found_with(96, site, threshold), [site]);
                assert_eq!(found_with(95, site, threshold), []);
            }
        }
    }

    /// |101 x 4 - 293| is 111, at least 4 x 24 and below 4 x 28.
    #[test]
    fn k7s_sample_is_found_at_the_default() {
        for site in 0..16 {
            assert_eq!(found_with(101, site, 0), [site]);
        }
    }

    #[test]
    fn the_default_finds_what_24_finds_and_28_less() {
        // As far below 64 as above it, so that the plane's mean is 64.
        let mut frame = [64; 32];
        for (pair, away) in [23, 24, 27, 28].into_iter().enumerate() {
            frame[4 * pair] -= away;
            frame[4 * pair + 2] += away;
        }
        let found_at = |threshold| found(16, 2, threshold, &[0; 32], &frame);
        assert_eq!(found_at(24), [4, 6, 8, 10, 12, 14]);
        assert_eq!(found_at(0), found_at(24));
        assert_eq!(found_at(28), [12, 14]);
    }

    /// R21, and the same upright.
    #[test]
    fn the_reach_is_fifteen_to_both_sides() {
        for (line, defects) in [(30, [0, 30]), (32, [32, 62])] {
            let mut frame = [0; 128];
            frame[line] = 16;
            assert_eq!(found(64, 2, 1, &[0; 128], &frame), defects);
            let mut frame = [0; 128];
            frame[2 * line] = 16;
            let upright = defects.map(|row| 2 * row);
            assert_eq!(found(2, 64, 1, &[0; 128], &frame), upright);
        }
    }

    /// In planes of 17 x 17 no other sites see as few as 16 x 16.
    #[test]
    fn corners_see_256_sites() {
        let corners = [0, 32, 32 * 34, 32 * 34 + 32];
        for seen in [30 * 34 + 30, 2 * 34 + 2] {
            let mut frame = [0; 34 * 34];
            frame[seen] = 256;
            let mut defects = [corners.to_vec(), vec![seen]].concat();
            defects.sort();
            assert_eq!(found(34, 34, 1, &[0; 34 * 34], &frame), defects);
            frame[seen] = 255;
            assert_eq!(found(34, 34, 1, &[0; 34 * 34], &frame), [seen]);
        }
    }

    #[test]
    fn sixteen_lines_are_all_seen_from_each() {
        for (width, height, plane) in [(32, 2, (0..32).step_by(2)), (2, 32, (0..64).step_by(4))] {
            let plane: Vec<usize> = plane.collect();
            for &site in &plane {
                let mut frame = [0; 64];
                frame[site] = 16;
                assert_eq!(found(width, height, 1, &[0; 64], &frame), plane);
                frame[site] = 15;
                assert_eq!(found(width, height, 1, &[0; 64], &frame), [site]);
            }
        }
    }

    #[test]
    fn two_sites_see_each_other_up_to_fifteen_lines_apart() {
        let first = 2 * 66 + 2;
        for (rows, columns, see) in [
            (15, 0, true),
            (0, 15, true),
            (15, 15, true),
            (16, 0, false),
            (0, 16, false),
            (16, 15, false),
            (15, 16, false),
        ] {
            let other = first + 2 * (rows * 66 + columns);
            let (mut mask, mut frame) = ([1; 66 * 66], [65535; 66 * 66]);
            (mask[first], mask[other]) = (0, 0);
            (frame[first], frame[other]) = (100, 148);
            let both = if see { &[first, other][..] } else { &[] };
            assert_eq!(found(66, 66, 24, &mask, &frame), both);
            frame[other] = 147;
            assert_eq!(found(66, 66, 24, &mask, &frame), []);
        }
    }

    /// Two sites on both sides of the mean. One sees all 961 of its plane, the other all but the
    /// first column.
    #[test]
    fn a_full_window_decides_by_one_grey_level() {
        let (one, other) = (30 * 62 + 30, 30 * 62 + 32);
        let mut frame = [1022; 62 * 62];
        (frame[one], frame[other]) = (1023, 1021);
        assert_eq!(found(62, 62, 1, &[0; 62 * 62], &frame), [one, other]);
        frame[0] = 1023;
        assert_eq!(found(62, 62, 1, &[0; 62 * 62], &frame), [other]);
    }

    #[test]
    fn a_single_surveyed_site_is_its_own_mean() {
        assert_eq!(found(2, 2, 1, &[0; 4], &[0, 1023, 5, 900]), []);
        assert_eq!(found(2, 2, 1, &[1, 2, 3, 1], &[65535; 4]), []);
    }

    #[test]
    fn a_dark_site_is_found_and_a_gap_is_not_read() {
        let mut mask = [0; 16];
        mask[0] = 1;
        let mut frame = [64; 16];
        frame[0] = 65535;
        // Three surveyed sites in the plane: 2 x 42 is just 3 x 28.
        frame[2] = 22;
        assert_eq!(found(4, 4, 28, &mask, &frame), [2]);
        frame[2] = 23;
        assert_eq!(found(4, 4, 28, &mask, &frame), []);
    }

    fn repaired(mask: &[u8; 16], frame: &[u16; 16]) -> (i128, [u16; 16], [u8; 16]) {
        let (mut out_frame, mut out_mask) = ([7; 16], [7; 16]);
        let window = Window {
            width: 4,
            height: 4,
            full_scale: 1023,
            mask,
            frame,
        };
        let answer = repair(window, &mut out_frame, &mut out_mask);
        assert_eq!(answer.number, 0);
        (answer.figures[0], out_frame, out_mask)
    }

    #[test]
    fn a_fill_is_the_mean_with_half_rounded_up() {
        let mut mask = [0; 16];
        let mut frame = [500; 16];
        mask[0] = 2;
        mask[10] = 3;
        (frame[0], frame[2], frame[8], frame[10]) = (65535, 10, 11, 65535);
        let (filled, out_frame, out_mask) = repaired(&mask, &frame);
        assert_eq!(filled, 1);
        let mut wanted = frame;
        wanted[0] = 11;
        assert_eq!(out_frame, wanted);
        mask[0] = 3;
        assert_eq!(out_mask, mask);
        // A second repair changes nothing.
        assert_eq!(repaired(&out_mask, &out_frame), (0, out_frame, out_mask));
    }

    #[test]
    fn a_defect_without_surveyed_neighbours_stays() {
        let mut mask = [0; 16];
        let frame = [9; 16];
        for (site, code) in [(0, 2), (2, 2), (8, 1), (10, 3)] {
            mask[site] = code;
        }
        assert_eq!(repaired(&mask, &frame), (0, frame, mask));
    }
}
