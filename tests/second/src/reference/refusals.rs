//! The refusals of the shading calls and of those on a stack: slips in their order, in the lengths
//! and, of shading, in the smallest plane, and which cases tell them.

use crate::shading::entries_of;
use crate::shared::names;

/// A refusal's number, and whether it applies by itself.
pub type Test = (u64, bool);

/// The sides of a case; any numbers.
#[derive(Clone, Copy)]
pub struct Sides {
    pub width: usize,
    pub height: usize,
}

impl Sides {
    pub fn are_illegal(self) -> bool {
        let is_illegal = |side: usize| side % 2 == 1 || !(2..=128).contains(&side);
        is_illegal(self.width) || is_illegal(self.height)
    }

    pub fn are_small(self) -> bool {
        self.width < 64 || self.height < 48
    }

    /// As a careless program has them of sides that are illegal.
    pub fn sites(self) -> usize {
        self.width.wrapping_mul(self.height)
    }

    pub fn blocks(self) -> usize {
        (self.width / 32).wrapping_mul(self.height / 24)
    }

    pub fn entries(self) -> usize {
        self.blocks().wrapping_add(1).wrapping_mul(4)
    }
}

/// Of the tests in the order in which they are made, those that would be given instead of the first
/// that applies, were they made before it.
pub fn orders(tests: &[Test]) -> Vec<String> {
    let mut applying = tests.iter().filter(|test| test.1);
    let Some((first, _)) = applying.next() else {
        return vec![];
    };
    let told = applying.map(|(later, _)| format!("{later} before {first}"));
    told.collect()
}

/// A lent buffer, and the length that it has to have.
pub struct Length {
    pub buffer: &'static str,
    pub lent: usize,
    pub needed: usize,
}

/// The one buffer with a wrong length, if that is all that is wrong up to 4: a program that does not
/// ask for it gives no 4. Of a length one off, by which way it is.
pub fn lengths(lengths: &[Length], number: u64) -> Vec<String> {
    let mut wrong = lengths.iter().filter(|one| one.lent != one.needed);
    let (Some(one), None, 4) = (wrong.next(), wrong.next(), number) else {
        return vec![];
    };
    let buffer = one.buffer;
    match one.lent.wrapping_sub(one.needed) as isize {
        1 => vec![format!("{buffer} one too long")],
        -1 => vec![format!("{buffer} one too short")],
        _ => vec![],
    }
}

/// Whether a plane is too small.
type Smallness = fn(Sides) -> bool;

const SMALLNESS_SLIPS: &[(&str, Smallness)] = &[
    ("no 9 by the width", |sides| sides.height < 48),
    ("no 9 by the height", |sides| sides.width < 64),
    ("9 at 64 wide", |sides| {
        sides.width <= 64 || sides.height < 48
    }),
    ("9 at 48 high", |sides| {
        sides.width < 64 || sides.height <= 48
    }),
    ("9 where both are small", |sides| {
        sides.width < 64 && sides.height < 48
    }),
    ("9 by 48 wide and 64 high", |sides| {
        sides.width < 48 || sides.height < 64
    }),
    ("9 of a window below 32 x 24", |sides| {
        sides.width < 32 || sides.height < 24
    }),
    ("9 where there is no block", |sides| sides.blocks() == 0),
];

/// How long totals and counts have to be.
type Needed = fn(Sides) -> usize;

const LENGTH_SLIPS: &[(&str, Needed)] = &[
    ("no blocks in a small plane", |sides| {
        if sides.are_small() {
            4
        } else {
            sides.entries()
        }
    }),
    ("part of a block for a block", |sides| {
        4 * (sides.width.div_ceil(32) * sides.height.div_ceil(24) + 1)
    }),
    ("one centre for four planes", |sides| 4 * sides.blocks() + 1),
    ("no entry for a centre", |sides| 4 * sides.blocks()),
    ("blocks 12 wide and 16 high in the length", |sides| {
        4 * ((sides.width / 24) * (sides.height / 32) + 1)
    }),
];

/// What a case tells of when 9 is given, and of how long a table is. Here `number` is the right
/// answer's, and `table` the lengths of totals and counts.
pub fn sizes(sides: Sides, table: [usize; 2], number: u64) -> Vec<String> {
    let mut told = vec![];
    if [0, 9, 11].contains(&number) {
        let slips = SMALLNESS_SLIPS.iter();
        let slips = slips.filter(|(_, is_small)| is_small(sides) != sides.are_small());
        told.extend(slips.map(|(name, _)| name.to_string()));
    }
    if [0, 4, 5, 6, 9, 11].contains(&number) {
        let right = entries_of(sides.width, sides.height);
        let fits = |needed| table == [needed; 2];
        let slips = LENGTH_SLIPS.iter();
        let slips = slips.filter(|(_, needed)| fits(needed(sides)) != fits(right));
        told.extend(slips.map(|(name, _)| name.to_string()));
    }
    told
}

/// All that `sizes` can tell.
pub const SIZES: &[&[&str]] = &[
    &names::<{ SMALLNESS_SLIPS.len() }, _>(SMALLNESS_SLIPS),
    &names::<{ LENGTH_SLIPS.len() }, _>(LENGTH_SLIPS),
];

#[cfg(test)]
mod tests {
    use super::*;

    fn of(width: usize, height: usize) -> Sides {
        Sides { width, height }
    }

    #[test]
    fn the_first_that_applies_hides_the_later() {
        let tests = [(1, false), (2, true), (4, false), (5, true), (9, true)];
        assert_eq!(orders(&tests), ["5 before 2", "9 before 2"]);
        assert_eq!(orders(&tests[3..4]), [""; 0]);
        assert_eq!(orders(&tests[..1]), [""; 0]);
    }

    #[test]
    fn one_wrong_length_is_told() {
        let of = |lent: [usize; 2]| {
            let buffers = ["mask", "frame"].into_iter().zip(lent);
            let all: Vec<Length> = buffers
                .map(|(buffer, lent)| Length {
                    buffer,
                    lent,
                    needed: 4,
                })
                .collect();
            lengths(&all, 4)
        };
        assert_eq!(of([3, 4]), ["mask one too short"]);
        assert_eq!(of([4, 5]), ["frame one too long"]);
        for lent in [[4, 4], [3, 5], [4, 6]] {
            assert_eq!(of(lent), [""; 0]);
        }
    }

    #[test]
    fn sides_around_the_smallest_plane_tell_9() {
        let told = |width, height| {
            let sides = of(width, height);
            sizes(sides, [sides.entries(); 2], 9)
        };
        let told_at = |width, height, slip: &str| told(width, height).contains(&slip.to_string());
        assert!(told_at(62, 48, "no 9 by the width"));
        assert!(!told_at(62, 46, "no 9 by the width"));
        assert!(told_at(64, 46, "no 9 by the height"));
        assert!(told_at(64, 50, "9 at 64 wide"));
        assert!(!told_at(66, 50, "9 at 64 wide"));
        assert!(told_at(66, 48, "9 at 48 high"));
        assert!(told_at(62, 48, "no blocks in a small plane"));
        assert!(!told_at(64, 48, "no blocks in a small plane"));
        assert!(!told_at(64, 48, "part of a block for a block"));
        assert!(told_at(66, 48, "part of a block for a block"));
        assert!(told_at(32, 24, "9 where there is no block"));
        assert_eq!(sizes(of(62, 48), [12; 2], 1), [""; 0]);
    }

    #[test]
    fn a_length_that_only_a_slip_asks_for_tells_it() {
        let told = sizes(of(62, 48), [4; 2], 4);
        assert_eq!(told, ["no blocks in a small plane"]);
    }
}
