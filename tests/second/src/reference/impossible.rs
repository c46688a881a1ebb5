//! Refusal 11 of a stack (document 02, i): slips in its conditions, and which stacks tell them.
//!
//! Some conditions may be left out and no answer changes. s above k x full scale: it follows from the
//! two conditions on q. Least above greatest: it follows from the range of s, with no frame in from
//! least above 0. Least above 0 with no frame in: it follows from least above greatest and greatest
//! above 0, but not where least above greatest is left out too.

use crate::shared::names;
use crate::stack::Stack;

/// What the conditions speak of at one site.
#[derive(Clone, Copy)]
struct Site {
    k: i128,
    scale: i128,
    s: i128,
    q: i128,
    least: i128,
    greatest: i128,
}

type Condition = fn(Site) -> bool;

const NEVER: Condition = |_| false;

/// 11 in parts: a slip has another one.
#[derive(Clone, Copy)]
struct Rule {
    sum_above: Condition,
    square_above: Condition,
    square_below: Condition,
    ends_crossed: Condition,
    greatest_above: Condition,
    below_least: Condition,
    above_greatest: Condition,
    least_of_none: Condition,
    greatest_of_none: Condition,
    /// What no paper asks.
    besides: Condition,
    read: fn(Site) -> Site,
    /// Whether the rule is asked at a site of the stack.
    is_asked: fn(&Stack, usize) -> bool,
    /// What the rule says of the stack, from what it says of each site.
    gather: fn(&mut dyn Iterator<Item = bool>) -> bool,
}

const RIGHT: Rule = Rule {
    sum_above: |at| at.s > at.k * at.scale,
    square_above: |at| at.q > at.k * at.scale * at.scale,
    square_below: |at| at.k * at.q < at.s * at.s,
    ends_crossed: |at| at.least > at.greatest,
    greatest_above: |at| at.greatest > at.scale,
    below_least: |at| at.s < at.k * at.least,
    above_greatest: |at| at.s > at.k * at.greatest,
    least_of_none: |at| at.k == 0 && at.least > 0,
    greatest_of_none: |at| at.k == 0 && at.greatest > 0,
    besides: NEVER,
    read: |at| at,
    is_asked: |stack, site| stack.mask[site] == 0,
    gather: |sites| sites.max() == Some(true),
};

impl Rule {
    fn refuses_site(&self, at: Site) -> bool {
        let conditions = [
            self.sum_above,
            self.square_above,
            self.square_below,
            self.ends_crossed,
            self.greatest_above,
            self.below_least,
            self.above_greatest,
            self.least_of_none,
            self.greatest_of_none,
            self.besides,
        ];
        let at = (self.read)(at);
        conditions.iter().any(|applies| applies(at))
    }

    fn refuses(&self, stack: &Stack, sites: &[Site]) -> bool {
        let asked = (0..sites.len()).filter(|&site| (self.is_asked)(stack, site));
        (self.gather)(&mut asked.map(|site| self.refuses_site(sites[site])))
    }
}

fn site_of(stack: &Stack, site: usize) -> Site {
    let held = stack.held(site);
    Site {
        k: stack.frames.into(),
        scale: stack.full_scale.into(),
        s: held.s.into(),
        q: held.q.into(),
        least: held.least.into(),
        greatest: held.greatest.into(),
    }
}

type Slip = fn(&mut Rule);

/// Those that any frame count from 2 tells, so that each of the three calls on a stack does.
const SLIPS: &[(&str, Slip)] = &[
    // A condition left out.
    ("11 of sums and squares alone", |wrong| {
        wrong.ends_crossed = NEVER;
        wrong.greatest_above = NEVER;
        wrong.below_least = NEVER;
        wrong.above_greatest = NEVER;
        wrong.least_of_none = NEVER;
        wrong.greatest_of_none = NEVER;
    }),
    ("greatest above full scale let pass", |wrong| {
        wrong.greatest_above = NEVER
    }),
    ("s below k x least let pass", |wrong| {
        wrong.below_least = NEVER
    }),
    ("s above k x greatest let pass", |wrong| {
        wrong.above_greatest = NEVER
    }),
    ("q above k x full scale^2 let pass", |wrong| {
        wrong.square_above = NEVER
    }),
    ("k x q below s^2 let pass", |wrong| {
        wrong.square_below = NEVER
    }),
    // A condition that is one off.
    ("greatest one above full scale let pass", |wrong| {
        wrong.greatest_above = |at| at.greatest > at.scale + 1
    }),
    ("greatest at full scale refused", |wrong| {
        wrong.greatest_above = |at| at.greatest >= at.scale
    }),
    ("s one below k x least let pass", |wrong| {
        wrong.below_least = |at| at.s + 1 < at.k * at.least
    }),
    ("s at k x least refused", |wrong| {
        wrong.below_least = |at| at.s <= at.k * at.least
    }),
    ("s one above k x greatest let pass", |wrong| {
        wrong.above_greatest = |at| at.s > at.k * at.greatest + 1
    }),
    ("s at k x greatest refused", |wrong| {
        wrong.above_greatest = |at| at.s >= at.k * at.greatest
    }),
    ("q one above k x full scale^2 let pass", |wrong| {
        wrong.square_above = |at| at.q > at.k * at.scale * at.scale + 1
    }),
    ("q at k x full scale^2 refused", |wrong| {
        wrong.square_above = |at| at.q >= at.k * at.scale * at.scale
    }),
    ("k x q one below s^2 let pass", |wrong| {
        wrong.square_below = |at| at.k * at.q + 1 < at.s * at.s
    }),
    ("k x q at s^2 refused", |wrong| {
        wrong.square_below = |at| at.k * at.q <= at.s * at.s
    }),
    ("least at greatest refused", |wrong| {
        wrong.ends_crossed = |at| at.least >= at.greatest
    }),
    // One number for another, or fewer of its bits.
    ("least and greatest exchanged in 11", |wrong| {
        wrong.read = |at| Site {
            least: at.greatest,
            greatest: at.least,
            ..at
        }
    }),
    ("least against full scale", |wrong| {
        wrong.greatest_above = |at| at.least > at.scale
    }),
    ("greatest against 4095", |wrong| {
        wrong.greatest_above = |at| at.greatest > 4095
    }),
    ("s against least", |wrong| {
        wrong.below_least = |at| at.s < at.least
    }),
    ("s against greatest", |wrong| {
        wrong.above_greatest = |at| at.s > at.greatest
    }),
    ("k with the next frame in", |wrong| {
        wrong.read = |at| Site { k: at.k + 1, ..at }
    }),
    ("k x least in 16 bits", |wrong| {
        wrong.below_least = |at| at.s < at.k * at.least % (1 << 16)
    }),
    ("k x greatest in 16 bits", |wrong| {
        wrong.above_greatest = |at| at.s > at.k * at.greatest % (1 << 16)
    }),
    ("k x q in 32 bits", |wrong| {
        wrong.square_below = |at| at.k * at.q % (1 << 32) < at.s * at.s
    }),
    ("s^2 in 32 bits", |wrong| {
        wrong.square_below = |at| at.k * at.q < at.s * at.s % (1 << 32)
    }),
    // More than the papers ask.
    ("least above 0 refused", |wrong| {
        wrong.least_of_none = |at| at.least > 0
    }),
    ("greatest above 0 refused", |wrong| {
        wrong.greatest_of_none = |at| at.greatest > 0
    }),
    ("q above k x greatest^2 refused", |wrong| {
        wrong.besides = |at| at.q > at.k * at.greatest * at.greatest
    }),
    ("one frame at greatest demanded", |wrong| {
        wrong.besides = |at| at.k > 0 && at.s < (at.k - 1) * at.least + at.greatest
    }),
    ("one frame at least demanded", |wrong| {
        wrong.besides = |at| at.k > 0 && at.s > (at.k - 1) * at.greatest + at.least
    }),
    ("equal ends demanded where k x q is s^2", |wrong| {
        wrong.besides = |at| at.k * at.q == at.s * at.s && at.least < at.greatest
    }),
    // The sites that are asked.
    ("11 asked of gaps", |wrong| {
        wrong.is_asked = |stack, site| matches!(stack.mask[site], 0 | 1)
    }),
    ("11 asked of defects", |wrong| {
        wrong.is_asked = |stack, site| matches!(stack.mask[site], 0 | 2)
    }),
    ("11 asked of filled sites", |wrong| {
        wrong.is_asked = |stack, site| matches!(stack.mask[site], 0 | 3)
    }),
    ("first site not asked", |wrong| {
        wrong.is_asked = |stack, site| stack.mask[site] == 0 && site > 0
    }),
    ("last site not asked", |wrong| {
        wrong.is_asked = |stack, site| stack.mask[site] == 0 && site + 1 < stack.mask.len()
    }),
    ("first surveyed site alone", |wrong| {
        wrong.gather = |sites| sites.next() == Some(true)
    }),
    ("last surveyed site alone", |wrong| {
        wrong.gather = |sites| sites.last() == Some(true)
    }),
];

/// Those that one frame tells.
const SLIPS_OF_ONE: &[(&str, Slip)] = &[
    ("11 not asked with one frame", |wrong| {
        wrong.is_asked = |stack, site| stack.mask[site] == 0 && stack.frames > 1
    }),
    ("one sample demanded with one frame", |wrong| {
        wrong.besides = |at| at.k == 1 && at.least < at.greatest
    }),
    ("its square demanded with one frame", |wrong| {
        wrong.besides = |at| at.k == 1 && at.q != at.s * at.s
    }),
];

/// Those that only a stack without a frame tells.
const SLIPS_OF_NONE: &[(&str, Slip)] = &[
    ("11 not asked with no frame", |wrong| {
        wrong.is_asked = |stack, site| stack.mask[site] == 0 && stack.frames > 0
    }),
    ("greatest above 0 with no frame let pass", |wrong| {
        wrong.greatest_of_none = NEVER
    }),
    ("greatest of 1 with no frame let pass", |wrong| {
        wrong.greatest_of_none = |at| at.k == 0 && at.greatest > 1
    }),
    ("least above 0 with no frame let pass", |wrong| {
        wrong.ends_crossed = NEVER;
        wrong.least_of_none = NEVER;
    }),
    ("both above 0 demanded with no frame", |wrong| {
        wrong.least_of_none = NEVER;
        wrong.greatest_of_none = |at| at.k == 0 && at.greatest > 0 && at.least > 0;
    }),
    ("q above 0 with no frame let pass", |wrong| {
        wrong.square_above = |at| at.k > 0 && at.q > at.k * at.scale * at.scale
    }),
];

/// What cases of every call on a stack have to tell.
pub const KINDS: &[&str] = &names::<{ SLIPS.len() }, _>(SLIPS);

/// The same of the calls that accept one frame.
pub const KINDS_OF_ONE: &[&str] = &names::<{ SLIPS_OF_ONE.len() }, _>(SLIPS_OF_ONE);

/// The same of the call that accepts none.
pub const KINDS_OF_NONE: &[&str] = &names::<{ SLIPS_OF_NONE.len() }, _>(SLIPS_OF_NONE);

/// The slips that a stack tells: by them 11 is given where it should not be, or is not where it should.
/// No refusal that comes before it applies.
pub fn told(stack: &Stack) -> Vec<&'static str> {
    let right = stack.check_possible().is_err();
    let sites: Vec<Site> = (0..stack.mask.len())
        .map(|site| site_of(stack, site))
        .collect();
    let parts = RIGHT.refuses(stack, &sites);
    assert_eq!(parts, right, "the parts make up the rule");
    let slips = SLIPS.iter().chain(SLIPS_OF_ONE).chain(SLIPS_OF_NONE);
    let told = slips.filter(|(_, slip)| {
        let mut wrong = RIGHT;
        slip(&mut wrong);
        wrong.refuses(stack, &sites) != right
    });
    told.map(|(name, _)| *name).collect()
}

#[cfg(test)]
mod tests {
    use super::*;
    use crate::stack::{is_impossible, Held};

    /// Full scale, k, s, q, least and greatest.
    type Numbers = (u64, u64, u32, u32, u16, u16);

    /// The numbers stand at the one surveyed site.
    fn told_by((full_scale, frames, s, q, least, greatest): Numbers) -> Vec<&'static str> {
        told(&Stack {
            width: 2,
            height: 2,
            full_scale,
            frames,
            mask: &[0, 1, 2, 3],
            sums: &[s, 0, 0, 0],
            squares: &[q, 0, 0, 0],
            least: &[least, 0, 0, 0],
            greatest: &[greatest, 0, 0, 0],
        })
    }

    fn tells(numbers: Numbers, slips: &[&str]) {
        let told = told_by(numbers);
        for slip in slips {
            assert!(told.contains(slip), "{slip}");
        }
    }

    fn hides(numbers: Numbers, slips: &[&str]) {
        let told = told_by(numbers);
        for slip in slips {
            assert!(!told.contains(slip), "{slip}");
        }
    }

    const LEFT_OUT: [&str; 8] = [
        "greatest above full scale let pass",
        "s below k x least let pass",
        "s above k x greatest let pass",
        "q above k x full scale^2 let pass",
        "k x q below s^2 let pass",
        "greatest above 0 with no frame let pass",
        "least above 0 with no frame let pass",
        "q above 0 with no frame let pass",
    ];

    /// Of the slips that leave a condition out, those that the numbers tell.
    fn left_out(numbers: Numbers) -> Vec<&'static str> {
        let told = told_by(numbers);
        let slips = LEFT_OUT.into_iter().filter(|slip| told.contains(slip));
        slips.collect()
    }

    #[test]
    fn each_condition_that_can_decides_alone() {
        assert_eq!(left_out((1, 1, 0, 0, 0, 2)), [LEFT_OUT[0]]);
        assert_eq!(left_out((1, 1, 0, 0, 1, 1)), [LEFT_OUT[1]]);
        assert_eq!(left_out((1, 1, 1, 1, 0, 0)), [LEFT_OUT[2]]);
        assert_eq!(left_out((1, 1, 0, 2, 0, 1)), [LEFT_OUT[3]]);
        assert_eq!(left_out((1, 1, 1, 0, 0, 1)), [LEFT_OUT[4]]);
        assert_eq!(left_out((1, 0, 0, 0, 0, 1)), [LEFT_OUT[5]]);
        assert_eq!(left_out((1, 0, 0, 0, 1, 0)), [LEFT_OUT[6]]);
        assert_eq!(left_out((1, 0, 0, 1, 0, 0)), [LEFT_OUT[3], LEFT_OUT[7]]);
        assert_eq!(left_out((1, 1, 1, 1, 1, 1)), [""; 0]);
    }

    /// Every small number: what the file says of conditions that never decide alone.
    #[test]
    fn some_conditions_follow_from_others() {
        let spare: [Slip; 3] = [
            |wrong| wrong.sum_above = NEVER,
            |wrong| wrong.ends_crossed = NEVER,
            |wrong| wrong.least_of_none = NEVER,
        ];
        let spares = spare.map(|slip| {
            let mut rule = RIGHT;
            slip(&mut rule);
            rule
        });
        let mut refused = 0;
        for number in 0..3 * 3 * 7 * 14 * 4 * 4 {
            let digit = |below: usize, base: usize| number / below % base;
            let (full_scale, frames) = (1 + digit(1, 3) as u64, digit(3, 3) as u64);
            let held = Held {
                s: digit(9, 7) as u32,
                q: digit(63, 14) as u32,
                least: digit(882, 4) as u16,
                greatest: digit(3528, 4) as u16,
            };
            let right = is_impossible(held, frames, full_scale);
            let at = Site {
                k: frames.into(),
                scale: full_scale.into(),
                s: held.s.into(),
                q: held.q.into(),
                least: held.least.into(),
                greatest: held.greatest.into(),
            };
            for rule in &spares {
                assert_eq!(rule.refuses_site(at), right);
            }
            refused += usize::from(right);
        }
        assert!(refused > 0 && refused < 3 * 3 * 7 * 14 * 4 * 4);
    }

    #[test]
    fn one_unit_tells_a_condition_that_is_one_off() {
        tells(
            (10, 3, 4, 6, 1, 11),
            &["greatest one above full scale let pass"],
        );
        hides(
            (10, 3, 4, 6, 1, 12),
            &["greatest one above full scale let pass"],
        );
        tells((10, 3, 4, 6, 1, 10), &["greatest at full scale refused"]);
        tells((10, 3, 5, 12, 2, 3), &["s one below k x least let pass"]);
        hides((10, 3, 4, 12, 2, 3), &["s one below k x least let pass"]);
        tells((10, 3, 6, 12, 2, 3), &["s at k x least refused"]);
        tells((10, 3, 7, 20, 1, 2), &["s one above k x greatest let pass"]);
        hides((10, 3, 8, 30, 1, 2), &["s one above k x greatest let pass"]);
        tells((10, 3, 6, 12, 1, 2), &["s at k x greatest refused"]);
        tells(
            (10, 3, 6, 301, 1, 3),
            &["q one above k x full scale^2 let pass"],
        );
        hides(
            (10, 3, 6, 302, 1, 3),
            &["q one above k x full scale^2 let pass"],
        );
        tells((10, 3, 6, 300, 1, 3), &["q at k x full scale^2 refused"]);
        tells((10, 3, 4, 5, 1, 3), &["k x q one below s^2 let pass"]);
        hides((10, 3, 5, 7, 1, 3), &["k x q one below s^2 let pass"]);
        tells((10, 3, 6, 12, 1, 3), &["k x q at s^2 refused"]);
        tells((10, 3, 6, 12, 2, 2), &["least at greatest refused"]);
    }

    #[test]
    fn what_no_paper_asks_is_told_where_it_is_accepted() {
        tells((10, 3, 6, 13, 1, 2), &["q above k x greatest^2 refused"]);
        tells((10, 3, 6, 12, 1, 9), &["one frame at greatest demanded"]);
        tells((10, 3, 24, 192, 1, 9), &["one frame at least demanded"]);
        tells(
            (10, 3, 6, 12, 1, 3),
            &["equal ends demanded where k x q is s^2"],
        );
        tells((10, 1, 2, 4, 1, 3), &["one sample demanded with one frame"]);
        tells((10, 1, 2, 5, 2, 2), &["its square demanded with one frame"]);
        let frames = (10, 3, 6, 14, 1, 3);
        hides(
            frames,
            &[
                "one frame at greatest demanded",
                "one frame at least demanded",
            ],
        );
        hides(frames, &["q above k x greatest^2 refused"]);
    }

    #[test]
    fn large_numbers_tell_fewer_bits() {
        let level = (4095, 100, 409_500, 1_676_902_500, 4095, 4095);
        tells(level, &["k x greatest in 16 bits", "k x q in 32 bits"]);
        let below = (4095, 100, 409_499, 1_676_902_500, 4095, 4095);
        tells(below, &["k x least in 16 bits"]);
        let narrow = (4095, 100, 65_536, 42_949_672, 0, 4095);
        tells(narrow, &["s^2 in 32 bits"]);
        hides((10, 3, 6, 14, 1, 3), &KINDS[23..27]);
        assert_eq!(KINDS[23..27][0], "k x least in 16 bits");
        assert_eq!(KINDS[23..27][3], "s^2 in 32 bits");
    }

    /// An impossible site at one place alone, of any code.
    #[test]
    fn sites_tell_where_11_is_asked() {
        let slips = &KINDS[KINDS.len() - 7..];
        let told_at = |mask: [u8; 4], site: usize| {
            let mut greatest = [10; 4];
            greatest[site] = 11;
            let told = told(&Stack {
                width: 2,
                height: 2,
                full_scale: 10,
                frames: 2,
                mask: &mask,
                sums: &[10; 4],
                squares: &[100; 4],
                least: &[0; 4],
                greatest: &greatest,
            });
            let told = slips.iter().filter(|slip| told.contains(slip));
            told.copied().collect::<Vec<&str>>()
        };
        assert_eq!(told_at([1, 0, 2, 0], 0), slips[..1]);
        assert_eq!(told_at([1, 0, 2, 0], 2), slips[1..2]);
        assert_eq!(told_at([1, 3, 2, 0], 1), slips[2..3]);
        assert_eq!(told_at([0; 4], 0), [slips[3], slips[6]]);
        assert_eq!(told_at([0; 4], 3), [slips[4], slips[5]]);
        assert_eq!(told_at([0; 4], 1), slips[5..]);
    }

    #[test]
    fn no_two_kinds_have_one_name() {
        let mut names = [KINDS, KINDS_OF_ONE, KINDS_OF_NONE].concat();
        names.sort();
        let all = names.len();
        names.dedup();
        assert_eq!(names.len(), all);
    }
}
