//! Colour ratios over the centres of the four planes.

use crate::shared::{refuse_if, settle, Answer, Outcome, Refusal, Window};

/// R/Gr, B/Gr and Gb/Gr, each as a signed numerator and a denominator.
pub fn colour_ratios(window: Window, black_level: u64, bayer_order: u64) -> Answer {
    settle(ratios(window, black_level, bayer_order), 6)
}

#[derive(Clone, Copy, PartialEq)]
pub enum Colour {
    R,
    Gr,
    B,
    Gb,
}

use Colour::{Gb, Gr, B, R};

/// The colours at sites (0,0), (0,1), (1,0), (1,1) for each Bayer order.
const PLANES: [[Colour; 4]; 4] = [
    [R, Gr, Gb, B],
    [Gr, R, B, Gb],
    [B, Gb, Gr, R],
    [Gb, B, R, Gr],
];

/// The plane of a colour, planes counted (0,0), (0,1), (1,0), (1,1).
pub fn plane_of(colour: Colour, bayer_order: u64) -> usize {
    PLANES[bayer_order as usize]
        .iter()
        .position(|&other| other == colour)
        .expect("all four colours")
}

/// Refusal 9: a plane does not hold a centre.
pub fn check_planes(width: usize, height: usize) -> Result<(), Refusal> {
    refuse_if(width / 2 < 32 || height / 2 < 24, 9)
}

/// The first column and the first row of a plane's centre, 32 wide and 24 high.
pub fn centre_of(width: usize, height: usize) -> (usize, usize) {
    ((width / 2 - 32) / 2, (height / 2 - 24) / 2)
}

/// A centre's total of sample less black level, and its count of surveyed sites.
struct Centre {
    total: i128,
    count: i128,
}

fn ratios(window: Window, black_level: u64, bayer_order: u64) -> Outcome {
    window.check_scale()?;
    refuse_if(black_level > window.full_scale || bayer_order > 3, 3)?;
    window.check_contents(&[])?;
    // Out of ascending order: 9 before 7.
    check_planes(window.width, window.height)?;
    let centre = |colour| {
        let plane = plane_of(colour, bayer_order);
        survey(&window, plane / 2, plane % 2, black_level)
    };
    let (r, gr, b, gb) = (centre(R), centre(Gr), centre(B), centre(Gb));
    refuse_if([&r, &gr, &b, &gb].iter().any(|centre| centre.count == 0), 7)?;
    refuse_if(gr.total <= 0, 10)?;
    let mut figures = vec![];
    for other in [r, b, gb] {
        figures.push(other.total * gr.count);
        figures.push(gr.total * other.count);
    }
    Ok(figures)
}

fn survey(window: &Window, row_parity: usize, column_parity: usize, black_level: u64) -> Centre {
    let (left, top) = centre_of(window.width, window.height);
    let mut centre = Centre { total: 0, count: 0 };
    for plane_row in top..top + 24 {
        for plane_column in left..left + 32 {
            let (row, column) = (2 * plane_row + row_parity, 2 * plane_column + column_parity);
            let site = row * window.width + column;
            if window.mask[site] == 0 {
                centre.total += i128::from(window.frame[site]) - i128::from(black_level);
                centre.count += 1;
            }
        }
    }
    centre
}

#[cfg(test)]
mod tests {
    use super::*;

    /// Samples by parity of row and column, for a fully surveyed window.
    fn painted(width: usize, height: usize, samples: [u16; 4]) -> Vec<u16> {
        (0..width * height)
            .map(|site| samples[2 * (site / width % 2) + site % width % 2])
            .collect()
    }

    fn answer(width: usize, height: usize, frame: &[u16], mask: &[u8], order: u64) -> Answer {
        let window = Window {
            width,
            height,
            full_scale: 1023,
            mask,
            frame,
        };
        colour_ratios(window, 64, order)
    }

    /// R27: R Gr / Gb B, then Gr R / B Gb, B Gb / Gr R, Gb B / R Gr.
    #[test]
    fn the_four_orders() {
        let mask = vec![0; 64 * 48];
        let (r, gr, b, gb) = (164, 264, 60, 364);
        let layouts = [
            [r, gr, gb, b],
            [gr, r, b, gb],
            [b, gb, gr, r],
            [gb, b, r, gr],
        ];
        for (order, samples) in layouts.into_iter().enumerate() {
            let frame = painted(64, 48, samples);
            let count = 768 * 768;
            assert_eq!(
                answer(64, 48, &frame, &mask, order as u64).figures,
                [100, 200, -4, 200, 300, 200].map(|figure| figure * count)
            );
        }
    }

    /// Left and top are half the rest rounded down: a rest of 3 leaves 1 before and 2 behind.
    #[test]
    fn the_centre_of_an_odd_rest() {
        let (width, height) = (70, 54);
        let mask = vec![0; width * height];
        for (plane_row, plane_column, inside) in [
            (1, 1, true),
            (24, 32, true),
            (0, 1, false),
            (1, 0, false),
            (25, 1, false),
            (1, 33, false),
        ] {
            let mut frame = painted(width, height, [64, 65, 64, 64]);
            frame[2 * plane_row * width + 2 * plane_column] = 65;
            let seen = answer(width, height, &frame, &mask, 0).figures[0] != 0;
            assert_eq!(seen, inside);
        }
    }

    #[test]
    fn small_planes_come_before_few_sites() {
        let blind = |width, height| {
            let sites = width * height;
            answer(width, height, &vec![0; sites], &vec![1; sites], 0).number
        };
        assert_eq!(blind(64, 48), 7);
        assert_eq!(blind(62, 48), 9);
        assert_eq!(blind(64, 46), 9);
    }

    #[test]
    fn the_gr_total_has_to_be_above_zero() {
        let mask = vec![0; 64 * 48];
        let mut frame = painted(64, 48, [64; 4]);
        assert_eq!(answer(64, 48, &frame, &mask, 0).number, 10);
        frame[1] = 65;
        assert_eq!(
            answer(64, 48, &frame, &mask, 0).figures,
            [0, 768, 0, 768, 0, 768]
        );
        frame[3] = 63;
        assert_eq!(answer(64, 48, &frame, &mask, 0).number, 10);
    }
}
