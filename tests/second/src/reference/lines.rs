//! Defective rows and columns, plane by plane.

use crate::shared::{refuse_if, settle, Answer, Outcome, Refusal, Window};

/// The marks alone are the answer.
pub fn defective_rows(window: Window, marks: &mut [u8]) -> Answer {
    settle(rows(window, marks), 0)
}

pub fn defective_columns(window: Window, marks: &mut [u8]) -> Answer {
    settle(columns(window, marks), 0)
}

/// Count and sum of the surveyed sites of one line of a plane.
#[derive(Clone, Copy, Default)]
struct Line {
    count: i128,
    sum: i128,
}

fn rows(window: Window, marks: &mut [u8]) -> Outcome {
    let lines = check(&window, window.height, marks)?;
    for plane in 0..4 {
        let (row_parity, column_parity) = (plane / 2, plane % 2);
        let surveyed: Vec<Line> = (0..lines)
            .map(|line| {
                let row = 2 * line + row_parity;
                survey(
                    &window,
                    (column_parity..window.width)
                        .step_by(2)
                        .map(|column| (row, column)),
                )
            })
            .collect();
        marks[plane * lines..(plane + 1) * lines].copy_from_slice(&marks_of(&surveyed));
    }
    Ok(vec![])
}

fn columns(window: Window, marks: &mut [u8]) -> Outcome {
    let lines = check(&window, window.width, marks)?;
    for plane in 0..4 {
        let (row_parity, column_parity) = (plane / 2, plane % 2);
        let surveyed: Vec<Line> = (0..lines)
            .map(|line| {
                let column = 2 * line + column_parity;
                survey(
                    &window,
                    (row_parity..window.height)
                        .step_by(2)
                        .map(|row| (row, column)),
                )
            })
            .collect();
        marks[plane * lines..(plane + 1) * lines].copy_from_slice(&marks_of(&surveyed));
    }
    Ok(vec![])
}

/// All refusals; the count of lines in a plane, `side` lying across the lines.
fn check(window: &Window, side: usize, marks: &[u8]) -> Result<usize, Refusal> {
    window.check_scale()?;
    window.check_contents(&[(marks.len(), 2 * side)])?;
    refuse_if(side / 2 < 9, 9)?;
    Ok(side / 2)
}

fn survey(window: &Window, places: impl Iterator<Item = (usize, usize)>) -> Line {
    let mut line = Line::default();
    for (row, column) in places {
        let site = row * window.width + column;
        if window.mask[site] == 0 {
            line.count += 1;
            line.sum += i128::from(window.frame[site]);
        }
    }
    line
}

fn marks_of(lines: &[Line]) -> Vec<u8> {
    (0..lines.len())
        .map(|at| is_defective(lines, at).into())
        .collect()
}

fn is_defective(lines: &[Line], at: usize) -> bool {
    let Line { count: c, sum: s } = lines[at];
    let mut pool = Line::default();
    for away in 1..=8 {
        for near in [at as i64 - away, at as i64 + away] {
            let met = lines[mirrored(near, lines.len())];
            pool.count += met.count;
            pool.sum += met.sum;
        }
    }
    let deviation = (s * pool.count - pool.sum * c).abs();
    c > 0 && pool.count > 0 && 2 * deviation > 5 * c * pool.count
}

/// Line -1 is line 1, and one past the last is the last but one.
fn mirrored(at: i64, lines: usize) -> usize {
    let last = lines as i64 - 1;
    if at < 0 {
        -at as usize
    } else if at > last {
        (2 * last - at) as usize
    } else {
        at as usize
    }
}

#[cfg(test)]
mod tests {
    use super::*;

    /// The marked rows of a window, having checked that the turned window marks the same columns:
    /// turning swaps planes (0,1) and (1,0).
    fn marked(width: usize, mask: &[u8], frame: &[u16]) -> Vec<usize> {
        let height = mask.len() / width;
        let mut marks = vec![9; 2 * height];
        let window = Window {
            width,
            height,
            full_scale: 1023,
            mask,
            frame,
        };
        assert_eq!(defective_rows(window, &mut marks).number, 0);
        let turned = |site: usize| site % height * width + site / height;
        let mask: Vec<u8> = (0..mask.len()).map(|site| mask[turned(site)]).collect();
        let frame: Vec<u16> = (0..frame.len()).map(|site| frame[turned(site)]).collect();
        let mut turned_marks = vec![9; 2 * height];
        let window = Window {
            width: height,
            height: width,
            full_scale: 1023,
            mask: &mask,
            frame: &frame,
        };
        assert_eq!(defective_columns(window, &mut turned_marks).number, 0);
        for (plane, turned_plane) in [(0, 0), (1, 2), (2, 1), (3, 3)] {
            for line in 0..height / 2 {
                let (at, turned_at) = (plane * height / 2 + line, turned_plane * height / 2 + line);
                assert_eq!(marks[at], turned_marks[turned_at]);
            }
        }
        (0..marks.len()).filter(|&at| marks[at] == 1).collect()
    }

    /// R17's vectors and K9, K10 in plane (0,0).
    #[test]
    fn k9_and_k10() {
        for (site, mark) in [(8 * 2, 4), (8 * 2 + 1, 13), (9 * 2, 22), (9 * 2 + 1, 31)] {
            let mut frame = [100; 36];
            frame[site] = 103;
            assert_eq!(marked(2, &[0; 36], &frame), [mark]);
            frame[site] = 102;
            assert_eq!(marked(2, &[0; 36], &frame), []);
        }
    }

    /// R19: in nine rows, row 4 meets itself twice.
    #[test]
    fn the_mirror_meets_a_row_as_often_as_it_is_met() {
        for (excess, marks) in [(31, vec![]), (32, vec![4])] {
            let mut frame = vec![100; 22 * 18];
            for turn in 0..excess {
                frame[8 * 22 + 2 * (turn % 11)] += 1;
            }
            assert_eq!(marked(22, &[0; 22 * 18], &frame), marks);
        }
    }

    #[test]
    fn the_comparison_is_strict() {
        for (excess, marks) in [(5, vec![]), (6, vec![20])] {
            let mut frame = vec![100; 4 * 128];
            frame[40 * 4] += excess;
            assert_eq!(marked(4, &[0; 4 * 128], &frame), marks);
        }
    }

    #[test]
    fn a_row_without_surveyed_sites_or_without_neighbours_is_not_marked() {
        let mut mask = [1; 2 * 128];
        let mut frame = [65535; 2 * 128];
        (mask[80], frame[80]) = (0, 1000);
        assert_eq!(marked(2, &mask, &frame), []);
        // Eight rows away the two see each other, nine rows away not.
        (mask[80 + 8 * 4], frame[80 + 8 * 4]) = (0, 0);
        assert_eq!(marked(2, &mask, &frame), [20, 28]);
        (mask[80 + 8 * 4], mask[80 + 9 * 4], frame[80 + 9 * 4]) = (1, 0, 0);
        assert_eq!(marked(2, &mask, &frame), []);
    }

    /// R3: the marks are counted before the window is found too small.
    #[test]
    fn lengths_before_smallness() {
        let window = Window {
            width: 2,
            height: 16,
            full_scale: 1023,
            mask: &[0; 32],
            frame: &[0; 32],
        };
        assert_eq!(defective_rows(window, &mut [0; 31]).number, 4);
        assert_eq!(defective_rows(window, &mut [0; 32]).number, 9);
        assert_eq!(defective_columns(window, &mut [0; 4]).number, 9);
    }
}
