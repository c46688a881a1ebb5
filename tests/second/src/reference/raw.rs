//! RAW10: four samples in five bytes.

use crate::shared::{check_lengths, settle, sites_of, Answer, Outcome};

pub fn unpack_raw10(width: usize, height: usize, bytes: &[u8], out: &mut [u16]) -> Answer {
    settle(unpack(width, height, bytes, out), 0)
}

fn unpack(width: usize, height: usize, bytes: &[u8], out: &mut [u16]) -> Outcome {
    let sites = sites_of(width, height)?;
    check_lengths(&[(bytes.len(), sites * 5 / 4), (out.len(), sites)])?;
    for (site, sample) in out.iter_mut().enumerate() {
        *sample = sample_at(bytes, site);
    }
    Ok(vec![])
}

/// Groups follow each other without regard to rows.
fn sample_at(bytes: &[u8], site: usize) -> u16 {
    let group = 5 * (site / 4);
    let turn = site % 4;
    let upper = u16::from(bytes[group + turn]);
    let lowers = u16::from(bytes[group + 4]);
    let weight = 4u16.pow(turn as u32);
    upper * 4 + lowers / weight % 4
}

#[cfg(test)]
mod tests {
    use super::*;

    fn unpacked(width: usize, height: usize, bytes: &[u8]) -> Vec<u16> {
        let mut out = vec![7; width * height];
        assert_eq!(unpack_raw10(width, height, bytes, &mut out).number, 0);
        out
    }

    #[test]
    fn k3_and_k4() {
        assert_eq!(unpacked(2, 2, &[25, 25, 25, 25, 228]), [100, 101, 102, 103]);
        assert_eq!(unpacked(2, 2, &[25, 25, 25, 26, 37]), [101, 101, 102, 104]);
    }

    #[test]
    fn a_group_runs_on_into_the_next_row() {
        let bytes = [1, 2, 3, 4, 0, 5, 6, 7, 8, 0, 9, 10, 11, 12, 0];
        let samples = [4, 8, 12, 16, 20, 24, 28, 32, 36, 40, 44, 48];
        assert_eq!(unpacked(6, 2, &bytes), samples);
        assert_eq!(unpacked(2, 6, &bytes), samples);
    }

    #[test]
    fn a_refusal_leaves_the_samples() {
        let mut out = [7; 5];
        assert_eq!(unpack_raw10(2, 3, &[0; 5], &mut out).number, 1);
        assert_eq!(unpack_raw10(2, 2, &[0; 5], &mut out).number, 4);
        assert_eq!(unpack_raw10(2, 2, &[0; 4], &mut out[..4]).number, 4);
        assert_eq!(out, [7; 5]);
    }
}
