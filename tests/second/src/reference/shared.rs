//! What the calls share: the answer, the refusals and the sides.

/// Number, place and count are 0 where the call is accepted; a float stands as its bits.
#[derive(Clone, Debug, PartialEq, Eq)]
pub struct Answer {
    pub number: u64,
    pub place: u64,
    /// At 6 the samples over (document 02, d), 0 at any other number.
    pub over: u64,
    pub figures: Vec<i128>,
}

/// What the reference and the library answered to one case.
#[derive(Clone, Debug, PartialEq, Eq)]
pub struct Answers {
    pub expected: Answer,
    pub found: Answer,
}

#[derive(Clone, Copy, Debug, PartialEq, Eq)]
pub struct Refusal {
    pub number: u64,
    pub place: u64,
    pub over: u64,
}

impl Refusal {
    /// Any refusal but 6, which alone has a count.
    pub fn new(number: u64, place: u64) -> Self {
        Refusal {
            number,
            place,
            over: 0,
        }
    }
}

pub type Outcome = Result<Vec<i128>, Refusal>;

/// A refusal leaves every figure of the answer at 0.
pub fn settle(outcome: Outcome, figures: usize) -> Answer {
    match outcome {
        Ok(found) => {
            assert_eq!(found.len(), figures);
            Answer {
                number: 0,
                place: 0,
                over: 0,
                figures: found,
            }
        }
        Err(refusal) => Answer {
            number: refusal.number,
            place: refusal.place,
            over: refusal.over,
            figures: vec![0; figures],
        },
    }
}

/// Refuses with `number` at place 0 when `applies`.
pub fn refuse_if(applies: bool, number: u64) -> Result<(), Refusal> {
    if applies {
        return Err(Refusal::new(number, 0));
    }
    Ok(())
}

/// Ok where a law of two answers is kept, else what is broken.
pub type Law = Result<(), &'static str>;

pub fn keep(kept: bool, law: &'static str) -> Law {
    if kept {
        Ok(())
    } else {
        Err(law)
    }
}

/// What slips and the like are called, in a constant.
pub const fn names<const N: usize, T>(named: &[(&'static str, T)]) -> [&'static str; N] {
    let mut names = [""; N];
    let mut at = 0;
    while at < N {
        names[at] = named[at].0;
        at += 1;
    }
    names
}

fn side_is_legal(side: usize) -> bool {
    (2..=128).contains(&side) && side.is_multiple_of(2)
}

/// Refusal 1; the count of sites where both sides are legal.
pub fn sites_of(width: usize, height: usize) -> Result<usize, Refusal> {
    refuse_if(!side_is_legal(width) || !side_is_legal(height), 1)?;
    Ok(width * height)
}

/// Refusal 4, over pairs of (length lent, length needed).
pub fn check_lengths(lengths: &[(usize, usize)]) -> Result<(), Refusal> {
    refuse_if(lengths.iter().any(|(lent, needed)| lent != needed), 4)
}

/// Refusal 2.
pub fn check_full_scale(full_scale: u64) -> Result<(), Refusal> {
    refuse_if(!(1..=4095).contains(&full_scale), 2)
}

/// Refusal 5, at the first code above 3.
pub fn check_codes(mask: &[u8]) -> Result<(), Refusal> {
    for (site, &code) in mask.iter().enumerate() {
        if code > 3 {
            return Err(Refusal::new(5, site as u64));
        }
    }
    Ok(())
}

/// Refusal 6, at the first surveyed sample above full scale, all of a frame before the next frame.
pub fn check_samples(mask: &[u8], frames: &[&[u16]], full_scale: u64) -> Result<(), Refusal> {
    for frame in frames {
        for site in surveyed(mask) {
            if u64::from(frame[site]) > full_scale {
                return Err(Refusal {
                    number: 6,
                    place: site as u64,
                    over: count_over(mask, frames, full_scale),
                });
            }
        }
    }
    Ok(())
}

/// The surveyed samples above full scale, over all frames of the call.
fn count_over(mask: &[u8], frames: &[&[u16]], full_scale: u64) -> u64 {
    let mut over = 0;
    for frame in frames {
        for site in surveyed(mask) {
            if u64::from(frame[site]) > full_scale {
                over += 1;
            }
        }
    }
    over
}

/// What every call on one frame is lent.
#[derive(Clone, Copy)]
pub struct Window<'a> {
    pub width: usize,
    pub height: usize,
    pub full_scale: u64,
    pub mask: &'a [u8],
    pub frame: &'a [u16],
}

impl Window<'_> {
    /// Refusals 1 and 2; the count of sites.
    pub fn check_scale(&self) -> Result<usize, Refusal> {
        let sites = sites_of(self.width, self.height)?;
        check_full_scale(self.full_scale)?;
        Ok(sites)
    }

    /// Refusals 4, 5 and 6, `others` being the lengths of the call's other buffers.
    pub fn check_contents(&self, others: &[(usize, usize)]) -> Result<(), Refusal> {
        let sites = self.width * self.height;
        check_lengths(&[(self.mask.len(), sites), (self.frame.len(), sites)])?;
        check_lengths(others)?;
        check_codes(self.mask)?;
        check_samples(self.mask, &[self.frame], self.full_scale)
    }
}

/// The sites of code 0, in row order.
pub fn surveyed(mask: &[u8]) -> impl Iterator<Item = usize> + '_ {
    (0..mask.len()).filter(|&site| mask[site] == 0)
}

#[cfg(test)]
mod tests {
    use super::*;

    #[test]
    fn sides_on_both_sides_of_each_limit() {
        for side in [2, 4, 126, 128] {
            assert_eq!(sites_of(side, 2), Ok(2 * side));
            assert_eq!(sites_of(2, side), Ok(2 * side));
        }
        for side in [
            0,
            1,
            3,
            127,
            129,
            130,
            1 << 32,
            1 << 63,
            usize::MAX - 1,
            usize::MAX,
        ] {
            assert_eq!(sites_of(side, 2), Err(Refusal::new(1, 0)));
            assert_eq!(sites_of(2, side), Err(Refusal::new(1, 0)));
        }
    }

    /// A 6 at this place, with so many samples over.
    fn six(place: u64, over: u64) -> Refusal {
        Refusal {
            number: 6,
            place,
            over,
        }
    }

    #[test]
    fn a_refusal_leaves_zeros() {
        for (refusal, number, over) in [(Refusal::new(5, 3), 5, 0), (six(3, 9), 6, 9)] {
            assert_eq!(
                settle(Err(refusal), 2),
                Answer {
                    number,
                    place: 3,
                    over,
                    figures: vec![0, 0]
                }
            );
        }
    }

    #[test]
    fn full_scale_on_both_sides_of_each_limit() {
        for full_scale in [1, 4095] {
            assert_eq!(check_full_scale(full_scale), Ok(()));
        }
        for full_scale in [0, 4096, u64::MAX] {
            assert_eq!(check_full_scale(full_scale), Err(Refusal::new(2, 0)));
        }
    }

    #[test]
    fn only_surveyed_samples_are_judged() {
        let mask = [1, 0, 3, 0];
        let checked = |frame: &[u16]| check_samples(&mask, &[frame], 1023);
        assert_eq!(checked(&[65535, 1023, 65535, 1023]), Ok(()));
        assert_eq!(checked(&[65535, 1023, 65535, 1024]), Err(six(3, 1)));
        assert_eq!(check_codes(&[3, 0, 4, 255]), Err(Refusal::new(5, 2)));
    }

    /// Tells a count of 1, of the first frame alone (1), of the second alone (2), with the gap (5),
    /// with full scale itself (4), and up to the place (1).
    #[test]
    fn samples_over_are_counted_in_all_frames() {
        let first: &[u16] = &[1024, 65535, 100, 1023];
        let second: &[u16] = &[100, 65535, 2000, 65535];
        let mask = [0, 1, 0, 0];
        assert_eq!(check_samples(&mask, &[first, second], 1023), Err(six(0, 3)));
        assert_eq!(check_samples(&mask, &[second, first], 1023), Err(six(2, 3)));
        assert_eq!(check_samples(&mask, &[first], 1023), Err(six(0, 1)));
        assert_eq!(check_samples(&mask, &[second], 1023), Err(six(2, 2)));
        assert_eq!(
            check_samples(&mask, &[second, second], 1023),
            Err(six(2, 4))
        );
    }

    /// Tells counts in 8, 14 or 15 bits, which are 0 here.
    #[test]
    fn every_sample_may_be_over() {
        let (mask, frame) = ([0; 16384], [2; 16384]);
        assert_eq!(check_samples(&mask, &[&frame], 1), Err(six(0, 16384)));
        assert_eq!(
            check_samples(&mask, &[&frame, &frame], 1),
            Err(six(0, 32768))
        );
    }
}
