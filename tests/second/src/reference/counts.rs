//! Counting the samples over (document 02, d): slips that a program could make, which cases tell
//! them, and what the counts of two cases have to do with each other.

use std::ops::RangeBounds;

use crate::shared::{keep, Answer, Law};

/// What a call's range check reads, as it is lent: where lengths are wrong, all that is there.
pub struct Exposure<'a> {
    pub width: usize,
    pub full_scale: u64,
    pub mask: &'a [u8],
    pub frames: Vec<&'a [u16]>,
}

/// One sample of one frame.
#[derive(Clone, Copy)]
pub struct Cell {
    /// 0 in the first frame, 1 in the second.
    pub turn: usize,
    pub site: usize,
    code: u8,
    sample: u16,
}

impl Exposure<'_> {
    /// Every sample that has a code, frame by frame and in row order.
    fn cells(&self) -> impl Iterator<Item = Cell> + '_ {
        self.frames.iter().enumerate().flat_map(|(turn, frame)| {
            let codes_and_samples = self.mask.iter().zip(*frame).enumerate();
            codes_and_samples.map(move |(site, (&code, &sample))| Cell {
                turn,
                site,
                code,
                sample,
            })
        })
    }

    fn is_above(&self, cell: &Cell) -> bool {
        u64::from(cell.sample) > self.full_scale
    }

    /// The samples over, in the order in which they are judged.
    pub fn over(&self) -> impl Iterator<Item = Cell> + '_ {
        self.cells()
            .filter(|cell| cell.code == 0 && self.is_above(cell))
    }

    fn above_at(&self, code: u8) -> usize {
        self.cells()
            .filter(|cell| cell.code == code && self.is_above(cell))
            .count()
    }

    fn unsurveyed_65535(&self) -> usize {
        self.cells()
            .filter(|cell| cell.code != 0 && cell.sample == 65535)
            .count()
    }

    /// The surveyed samples at full scale itself.
    fn full(&self) -> usize {
        self.cells()
            .filter(|cell| cell.code == 0 && u64::from(cell.sample) == self.full_scale)
            .count()
    }
}

/// What a program that makes the slip counts at 6.
type Slip = fn(&Exposure) -> usize;

const SLIPS: &[(&str, Slip)] = &[
    ("always 1", |_| 1),
    ("up to the place", |lent| {
        at_sites(lent, 0..=place(lent).site)
    }),
    ("past the place", |lent| {
        at_sites(lent, place(lent).site + 1..)
    }),
    ("row of the place alone", row),
    ("first site left out", |lent| at_sites(lent, 1..)),
    ("last site left out", |lent| {
        at_sites(lent, ..lent.mask.len() - 1)
    }),
    ("gaps too", |lent| lent.above_at(0) + lent.above_at(1)),
    ("defects too", |lent| lent.above_at(0) + lent.above_at(2)),
    ("filled too", |lent| lent.above_at(0) + lent.above_at(3)),
    ("65535 at any code", |lent| {
        lent.above_at(0) + lent.unsurveyed_65535()
    }),
    ("full scale too", |lent| lent.above_at(0) + lent.full()),
    ("in 8 bits", |lent| lent.above_at(0) % (1 << 8)),
    ("in 13 bits", |lent| lent.above_at(0) % (1 << 13)),
    ("in 14 bits", |lent| lent.above_at(0) % (1 << 14)),
    ("in 15 bits", |lent| lent.above_at(0) % (1 << 15)),
];

/// Those that only a call on two frames can make.
const SLIPS_WITH_TWO_FRAMES: &[(&str, Slip)] = &[
    ("first frame alone", |lent| of_frame(lent, 0)),
    ("second frame alone", |lent| of_frame(lent, 1)),
    ("frame of the place alone", |lent| {
        of_frame(lent, place(lent).turn)
    }),
    ("1 where the first has none", |lent| one_without(lent, 0)),
    ("1 where the second has none", |lent| one_without(lent, 1)),
    ("sites for samples", sites),
    ("from the place on", |lent| {
        at_sites(lent, place(lent).site..)
    }),
];

/// The sample that gives a 6 its place.
fn place(lent: &Exposure) -> Cell {
    lent.over().next().expect("a sample over")
}

fn of_frame(lent: &Exposure, turn: usize) -> usize {
    lent.over().filter(|cell| cell.turn == turn).count()
}

/// All samples over, but 1 where this frame has none of them.
fn one_without(lent: &Exposure, turn: usize) -> usize {
    match of_frame(lent, turn) {
        0 => 1,
        _ => lent.over().count(),
    }
}

/// In every frame.
fn row(lent: &Exposure) -> usize {
    let row = place(lent).site / lent.width;
    at_sites(lent, row * lent.width..(row + 1) * lent.width)
}

/// In every frame.
fn at_sites(lent: &Exposure, sites: impl RangeBounds<usize>) -> usize {
    lent.over()
        .filter(|cell| sites.contains(&cell.site))
        .count()
}

/// A site that is over in both frames counts once.
fn sites(lent: &Exposure) -> usize {
    let mut sites: Vec<usize> = lent.over().map(|cell| cell.site).collect();
    sites.sort();
    sites.dedup();
    sites.len()
}

/// What a case tells from the right count. At 6 these are the slips that come to another number. At
/// 0, where nothing may be counted, it is what a slip would count alone; at any other refusal that
/// samples over are lent, which a program would count that does not wait for 6.
pub fn told(lent: &Exposure, answer: &Answer) -> Vec<String> {
    let told: Vec<&str> = match answer.number {
        6 => slips_told(lent, answer.over as usize),
        0 => counted_alone(lent),
        number if lent.over().next().is_some() => return vec![format!("beside {number}")],
        _ => vec![],
    };
    told.into_iter().map(String::from).collect()
}

fn slips_told(lent: &Exposure, over: usize) -> Vec<&'static str> {
    assert_eq!(over, lent.over().count());
    let of_two = match lent.frames.len() {
        2 => SLIPS_WITH_TWO_FRAMES,
        _ => &[],
    };
    let slips = SLIPS.iter().chain(of_two);
    let told = slips.filter(|(_, slip)| slip(lent) != over);
    told.map(|(name, _)| *name).collect()
}

fn counted_alone(lent: &Exposure) -> Vec<&'static str> {
    let alone = [
        ("gaps alone", lent.above_at(1)),
        ("defects alone", lent.above_at(2)),
        ("filled alone", lent.above_at(3)),
        ("full scale alone", lent.full()),
    ];
    let told = alone.into_iter().filter(|(_, count)| *count > 0);
    told.map(|(name, _)| name).collect()
}

const UNREAD: &str = "with other samples at unsurveyed sites the answer is not the same";
const SWAPPED: &str = "with the frames swapped number and count are not the same";
const MENDED: &str = "with one sample over mended the count is not one less";

/// Samples at codes 1 to 3 change nothing.
pub fn unread(one: &Answer, other: &Answer) -> Law {
    keep(one == other, UNREAD)
}

/// Both frames are counted, so their order does not matter; the place of a 6 may move.
pub fn swapped(one: &Answer, other: &Answer) -> Law {
    let same = (one.number, one.over) == (other.number, other.over);
    keep(same, SWAPPED)
}

/// With one of the samples over at full scale instead, the count is one less, and 6 goes with the
/// last.
pub fn mended(before: &Answer, after: &Answer) -> Law {
    let one_less = before.over == after.over + 1;
    keep(one_less && (after.number == 6) == (after.over > 0), MENDED)
}

#[cfg(test)]
mod tests {
    use super::*;
    use crate::colour::colour_ratios;
    use crate::dark::dark_level;
    use crate::lines::{defective_columns, defective_rows};
    use crate::shared::{settle, Refusal, Window};
    use crate::sites::{find_defects, repair};
    use crate::stack::{stack_add, Adding};

    const MASK: &[u8] = &[0, 1, 0, 0];
    const FIRST: &[u16] = &[1024, 65535, 100, 1023];
    const SECOND: &[u16] = &[100, 65535, 2000, 65535];

    fn at_1023<'a>(mask: &'a [u8], frames: &[&'a [u16]]) -> Exposure<'a> {
        Exposure {
            width: 2,
            full_scale: 1023,
            mask,
            frames: frames.to_vec(),
        }
    }

    fn answer(number: u64, place: u64, over: u64) -> Answer {
        let refusal = Refusal {
            number,
            place,
            over,
        };
        settle(Err(refusal), 0)
    }

    /// What is told where the case is refused with 6.
    fn told_at_6(mask: &[u8], frames: &[&[u16]]) -> Vec<String> {
        let lent = at_1023(mask, frames);
        let over = lent.over().count() as u64;
        told(&lent, &answer(6, 0, over))
    }

    fn accepted() -> Answer {
        settle(Ok(vec![]), 0)
    }

    /// Every call on one frame of the 2 x 2 window, with this black level, threshold and frame count.
    fn calls_on_one_frame(mask: &[u8], frame: &[u16], parameter: u64) -> [Answer; 7] {
        let window = Window {
            width: 2,
            height: 2,
            full_scale: 1023,
            mask,
            frame,
        };
        let marks = &mut [0; 4];
        let (out_frame, out_mask) = (&mut [0; 4], &mut [0; 4]);
        [
            dark_level(window, parameter),
            colour_ratios(window, parameter, 0),
            find_defects(window, parameter, out_mask),
            stack_add(Adding {
                window,
                frames: parameter,
                sums: &mut [0; 4],
                squares: &mut [0; 4],
                least: &mut [0; 4],
                greatest: &mut [0; 4],
            }),
            repair(window, out_frame, out_mask),
            defective_rows(window, marks),
            defective_columns(window, marks),
        ]
    }

    /// Of each number and count.
    fn counted(answers: &[Answer]) -> Vec<(u64, u64)> {
        let counted = answers.iter().map(|answer| (answer.number, answer.over));
        counted.collect()
    }

    /// The window is too small for the colours and the lines, and the stack is full: 6 comes before 9
    /// and 12.
    #[test]
    fn every_call_on_one_frame_counts_at_6() {
        let sixes = calls_on_one_frame(MASK, SECOND, 100);
        assert_eq!(counted(&sixes), [(6, 2); 7]);
        let sixes = calls_on_one_frame(MASK, FIRST, 100);
        assert_eq!(counted(&sixes), [(6, 1); 7]);
    }

    #[test]
    fn no_call_on_one_frame_counts_beside_another_number() {
        let beyond = calls_on_one_frame(MASK, SECOND, 5000);
        assert_eq!(counted(&beyond[..4]), [(3, 0); 4]);
        let codes = calls_on_one_frame(&[0, 4, 0, 0], SECOND, 0);
        assert_eq!(counted(&codes), [(5, 0); 7]);
        let lengths = calls_on_one_frame(MASK, &SECOND[..3], 0);
        assert_eq!(counted(&lengths), [(4, 0); 7]);
        let in_range = calls_on_one_frame(MASK, &[1023, 65535, 0, 1023], 0);
        let numbers = [0, 9, 0, 0, 0, 9, 9];
        assert_eq!(counted(&in_range), numbers.map(|number| (number, 0)));
    }

    #[test]
    fn both_frames_over() {
        assert_eq!(
            told_at_6(MASK, &[FIRST, SECOND]),
            [
                "always 1",
                "up to the place",
                "past the place",
                "row of the place alone",
                "first site left out",
                "last site left out",
                "gaps too",
                "65535 at any code",
                "full scale too",
                "first frame alone",
                "second frame alone",
                "frame of the place alone",
            ]
        );
    }

    #[test]
    fn the_place_behind_another_sample_over() {
        assert_eq!(
            told_at_6(&[0; 4], &[&[0, 0, 1024, 0], &[0, 1024, 1024, 0]]),
            [
                "always 1",
                "past the place",
                "row of the place alone",
                "first frame alone",
                "second frame alone",
                "frame of the place alone",
                "sites for samples",
                "from the place on",
            ]
        );
    }

    #[test]
    fn one_of_two_frames_over() {
        assert_eq!(
            told_at_6(&[0; 4], &[&[0; 4], &[0, 1024, 0, 0]]),
            ["past the place", "first frame alone"]
        );
        let [within, over]: [&[u16]; 2] = [&[0; 4], &[1024, 1024, 0, 0]];
        assert_eq!(
            told_at_6(&[0; 4], &[within, over])[4..],
            ["first frame alone", "1 where the first has none"]
        );
        assert_eq!(
            told_at_6(&[0; 4], &[over, within])[4..],
            ["second frame alone", "1 where the second has none"]
        );
    }

    #[test]
    fn one_frame() {
        assert_eq!(told_at_6(&[0; 4], &[&[0, 1024, 0, 0]]), ["past the place"]);
        assert_eq!(
            told_at_6(&[0, 2, 3, 0], &[&[0, 65535, 1024, 1024]]),
            [
                "past the place",
                "last site left out",
                "defects too",
                "filled too",
                "65535 at any code"
            ]
        );
    }

    #[test]
    fn counts_that_need_many_bits() {
        let bits = |sites: usize, frames: usize| -> Vec<String> {
            let (mask, frame) = (vec![0; sites], vec![1024; sites]);
            let mut told = told_at_6(&mask, &vec![&frame[..]; frames]);
            told.retain(|slip| slip.starts_with("in "));
            told
        };
        let all = ["in 8 bits", "in 13 bits", "in 14 bits", "in 15 bits"];
        assert_eq!(bits(255, 1), all[..0]);
        assert_eq!(bits(256, 1), all[..1]);
        assert_eq!(bits(4096, 2), all[..2]);
        assert_eq!(bits(16384, 1), all[..3]);
        assert_eq!(bits(16384, 2), all);
    }

    #[test]
    fn nothing_may_be_counted_in_an_accepted_answer() {
        let told_at_0 = |mask, frame| told(&at_1023(mask, &[frame]), &accepted());
        assert_eq!(told_at_0(&[0; 4], &[0; 4]), [""; 0]);
        assert_eq!(told_at_0(&[1, 2, 3, 0], &[1023; 4]), ["full scale alone"]);
        assert_eq!(told_at_0(&[1, 2, 3, 0], &[1024, 0, 0, 0]), ["gaps alone"]);
        assert_eq!(
            told_at_0(&[1, 2, 3, 0], &[0, 65535, 1024, 0]),
            ["defects alone", "filled alone"]
        );
    }

    /// Also of buffers too short, as far as they go.
    #[test]
    fn nothing_may_be_counted_beside_another_refusal() {
        let told_at_4 = |mask, frame| told(&at_1023(mask, &[frame]), &answer(4, 0, 0));
        assert_eq!(told_at_4(&[0; 4], &[0, 1024]), ["beside 4"]);
        assert_eq!(told_at_4(&[0, 1], &[0, 1024, 1024, 1024]), [""; 0]);
        assert_eq!(told_at_4(&[], &[1024; 4]), [""; 0]);
    }

    #[test]
    fn the_samples_over_in_their_order() {
        let lent = at_1023(MASK, &[FIRST, SECOND]);
        let over: Vec<(usize, usize)> = lent.over().map(|cell| (cell.turn, cell.site)).collect();
        assert_eq!(over, [(0, 0), (1, 2), (1, 3)]);
    }

    /// Tells a count of gaps, and a place at one.
    #[test]
    fn unsurveyed_samples_change_no_answer() {
        assert_eq!(unread(&answer(6, 2, 3), &answer(6, 2, 3)), Ok(()));
        assert_eq!(unread(&answer(6, 2, 3), &answer(6, 2, 4)), Err(UNREAD));
        assert_eq!(unread(&answer(6, 2, 3), &answer(6, 1, 3)), Err(UNREAD));
        assert_eq!(unread(&accepted(), &answer(6, 1, 1)), Err(UNREAD));
    }

    /// Tells a count of one frame. The place may move.
    #[test]
    fn the_frames_swapped_have_one_count() {
        assert_eq!(swapped(&answer(6, 0, 3), &answer(6, 2, 3)), Ok(()));
        assert_eq!(swapped(&answer(6, 0, 1), &answer(6, 2, 2)), Err(SWAPPED));
        assert_eq!(swapped(&answer(6, 0, 1), &answer(7, 0, 1)), Err(SWAPPED));
    }

    /// Tells a count that is always 1, and one that stays beside 0.
    #[test]
    fn a_sample_mended_is_one_less() {
        assert_eq!(mended(&answer(6, 0, 2), &answer(6, 3, 1)), Ok(()));
        assert_eq!(mended(&answer(6, 3, 1), &accepted()), Ok(()));
        assert_eq!(mended(&answer(6, 3, 1), &answer(7, 0, 0)), Ok(()));
        assert_eq!(mended(&answer(6, 0, 1), &answer(6, 3, 1)), Err(MENDED));
        assert_eq!(mended(&answer(6, 0, 2), &answer(0, 0, 1)), Err(MENDED));
        assert_eq!(mended(&answer(6, 0, 1), &answer(6, 0, 0)), Err(MENDED));
    }
}
