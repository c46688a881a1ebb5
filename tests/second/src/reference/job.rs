//! The job: one stream of fields, judged as it is read.

use crate::dark::dark_level;
use crate::pair::{pair_figures, Pair};
use crate::raw::unpack_raw10;
use crate::shared::{refuse_if, settle, sites_of, Answer, Outcome, Refusal, Window};

/// Surveyed sites, P, Q, r and the dark level's numerator.
pub fn job(input: &[u8]) -> Answer {
    settle(run(input), 5)
}

/// What the job program prints for a stream: four lines, or one refusal and nothing else.
pub fn printed(input: &[u8]) -> String {
    let Answer {
        number,
        place,
        over,
        figures,
    } = job(input);
    match number {
        0 => four_lines(&figures),
        6 => format!("refused 6 at {place} count {over}\n"),
        _ => format!("refused {number} at {place}\n"),
    }
}

fn four_lines(figures: &[i128]) -> String {
    let [sites, p, q, r, dark] = figures[..] else {
        unreachable!("a job has five figures");
    };
    let whole = 64 * sites;
    format!("sites {sites}\nvariance {p}/{q}\nnoise {r}/{whole}\ndark {dark}/{sites}\n")
}

/// The input, and how far it has been read.
struct Stream<'a> {
    input: &'a [u8],
    offset: usize,
}

impl<'a> Stream<'a> {
    /// Refusals 20, 21 and 22, placed at the field's first byte; else the body.
    fn field(&mut self, tag: u8, length: usize) -> Result<&'a [u8], Refusal> {
        let fault = |number| Refusal::new(number, self.offset as u64);
        let left = &self.input[self.offset..];
        if left.is_empty() {
            return Err(fault(20));
        }
        if left[0] != tag {
            return Err(fault(21));
        }
        if left.len() < 3 {
            return Err(fault(20));
        }
        if 256 * usize::from(left[1]) + usize::from(left[2]) != length {
            return Err(fault(22));
        }
        if left.len() < 3 + length {
            return Err(fault(20));
        }
        self.offset += 3 + length;
        Ok(&left[3..3 + length])
    }

    /// A field of two bytes, big-endian.
    fn number(&mut self, tag: u8) -> Result<usize, Refusal> {
        let body = self.field(tag, 2)?;
        Ok(256 * usize::from(body[0]) + usize::from(body[1]))
    }
}

fn run(input: &[u8]) -> Outcome {
    let mut stream = Stream { input, offset: 0 };
    let width = stream.number(1)?;
    let height = stream.number(2)?;
    let sites = sites_of(width, height)?;
    refuse_if(width > 64 || height > 64, 24)?;
    let full_scale = stream.number(3)? as u64;
    let black_level = stream.number(4)? as u64;
    let mask = stream.field(5, sites)?;
    let first = unpacked(width, height, stream.field(6, sites * 5 / 4)?);
    let second = unpacked(width, height, stream.field(7, sites * 5 / 4)?);
    stream.field(0, 0)?;
    if stream.offset < input.len() {
        return Err(Refusal::new(23, stream.offset as u64));
    }
    let pair = accepted(pair_figures(&Pair {
        width,
        height,
        full_scale,
        mask,
        first: &first,
        second: &second,
    }))?;
    let window = Window {
        width,
        height,
        full_scale,
        mask,
        frame: &first,
    };
    let dark = accepted(dark_level(window, black_level))?;
    let [n, p, q, r, _, _] = pair[..] else {
        unreachable!("a pair has six figures");
    };
    Ok(vec![n, p, q, r, dark[0]])
}

fn unpacked(width: usize, height: usize, bytes: &[u8]) -> Vec<u16> {
    let mut samples = vec![0; width * height];
    let answer = unpack_raw10(width, height, bytes, &mut samples);
    assert_eq!(
        answer.number, 0,
        "the sides and the length have been judged"
    );
    samples
}

fn accepted(answer: Answer) -> Outcome {
    if answer.number != 0 {
        return Err(Refusal {
            number: answer.number,
            place: answer.place,
            over: answer.over,
        });
    }
    Ok(answer.figures)
}

#[cfg(test)]
mod tests {
    use super::*;

    /// K1 as a stream, with full scale and black level, and a mask.
    fn k1(full_scale: u16, black_level: u16, mask: [u8; 4]) -> Vec<u8> {
        let mut stream = vec![1, 0, 2, 0, 2, 2, 0, 2, 0, 2, 3, 0, 2];
        stream.extend(full_scale.to_be_bytes());
        stream.extend([4, 0, 2]);
        stream.extend(black_level.to_be_bytes());
        stream.extend([5, 0, 4]);
        stream.extend(mask);
        stream.extend([6, 0, 5, 25, 25, 25, 25, 228]);
        stream.extend([7, 0, 5, 25, 25, 25, 26, 37]);
        stream.extend([0, 0, 0]);
        stream
    }

    /// Number and place; a count stands at 6 alone.
    fn refused(stream: &[u8]) -> (u64, u64) {
        let answer = job(stream);
        if answer.number != 0 {
            assert_eq!(answer.figures, [0; 5]);
        }
        assert_eq!(answer.over > 0, answer.number == 6);
        (answer.number, answer.place)
    }

    #[test]
    fn the_whole_answer_for_k1() {
        assert_eq!(job(&k1(1023, 64, [0; 4])).figures, [4, 4, 32, 90, 150]);
        assert_eq!(job(&k1(1023, 200, [0; 4])).figures, [4, 4, 32, 90, -394]);
    }

    /// R34 and R35.
    #[test]
    fn the_library_refuses_through_the_job() {
        assert_eq!(refused(&k1(103, 64, [0; 4])), (6, 3));
        assert_eq!(refused(&k1(0, 64, [0; 4])), (2, 0));
        assert_eq!(refused(&k1(5000, 64, [0; 4])), (2, 0));
        assert_eq!(refused(&k1(1023, 1024, [0; 4])), (3, 0));
        assert_eq!(refused(&k1(1023, 1024, [0, 0, 4, 0])), (5, 2));
        assert_eq!(refused(&k1(1023, 1024, [0, 1, 2, 3])), (7, 0));
    }

    /// R31 and R32.
    #[test]
    fn a_cut_stream() {
        let whole = k1(1023, 64, [0; 4]);
        for (end, fault) in [
            (0, (20, 0)),
            (1, (20, 0)),
            (4, (20, 0)),
            (5, (20, 5)),
            (10, (20, 10)),
        ] {
            assert_eq!(refused(&whole[..end]), fault);
        }
        assert_eq!(refused(&whole[..whole.len() - 1]), (20, 43));
        assert_eq!(refused(&[1, 9]), (20, 0));
        assert_eq!(refused(&[2]), (21, 0));
        assert_eq!(refused(&[1, 0, 3]), (22, 0));
    }

    #[test]
    fn extra_bytes_come_before_the_librarys_refusals() {
        let mut stream = k1(0, 64, [9; 4]);
        stream.push(0);
        assert_eq!(refused(&stream), (23, 46));
        stream[45] = 1;
        assert_eq!(refused(&stream), (22, 43));
    }

    /// "Whole output for K1".
    #[test]
    fn prints_four_lines_or_one() {
        let whole = k1(1023, 64, [0; 4]);
        assert_eq!(
            printed(&whole),
            "sites 4\nvariance 4/32\nnoise 90/256\ndark 150/4\n"
        );
        assert_eq!(printed(&k1(103, 64, [0; 4])), "refused 6 at 3 count 1\n");
        assert_eq!(printed(&k1(103, 64, [0, 0, 4, 0])), "refused 5 at 2\n");
        assert_eq!(printed(&k1(1023, 1024, [0; 4])), "refused 3 at 0\n");
    }

    /// Request d: K1 has 100 101 102 103 and 101 101 102 104. Tells a count of the first frame alone.
    #[test]
    fn the_count_is_that_of_the_pair() {
        let over = |full_scale, mask| job(&k1(full_scale, 64, mask)).over;
        assert_eq!(over(104, [0; 4]), 0);
        assert_eq!(over(103, [0; 4]), 1);
        assert_eq!(over(102, [0; 4]), 2);
        assert_eq!(over(101, [0; 4]), 4);
        assert_eq!(over(100, [0; 4]), 7);
        assert_eq!(over(100, [0, 0, 0, 1]), 5);
        let printed = printed(&k1(100, 64, [0, 1, 0, 0]));
        assert_eq!(printed, "refused 6 at 2 count 5\n");
    }

    /// Tells a count in a stream that no library call is asked of, or that is refused before 6.
    #[test]
    fn no_count_beside_another_refusal() {
        let whole = k1(100, 64, [0; 4]);
        let mut extra = whole.clone();
        extra.push(0);
        assert_eq!(refused(&extra), (23, 46));
        assert_eq!(refused(&whole[..45]), (20, 43));
        assert_eq!(refused(&k1(0, 64, [0; 4])), (2, 0));
        assert_eq!(refused(&k1(100, 64, [0, 0, 0, 4])), (5, 3));
    }

    /// R33.
    #[test]
    fn sides_are_judged_after_the_second_field() {
        let sides = |width: u16, height: u16| {
            let mut stream = vec![1, 0, 2];
            stream.extend(width.to_be_bytes());
            stream.extend([2, 0, 2]);
            stream.extend(height.to_be_bytes());
            refused(&stream)
        };
        assert_eq!(sides(65, 66), (1, 0));
        assert_eq!(sides(66, 130), (1, 0));
        assert_eq!(sides(66, 2), (24, 0));
        assert_eq!(sides(2, 128), (24, 0));
        assert_eq!(sides(64, 64), (20, 10));
        assert_eq!(refused(&[1, 0, 2, 0, 1, 2, 0, 3]), (22, 5));
    }
}
