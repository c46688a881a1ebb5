//! Judging a block table (document 02, j): slips that it could make, which tables tell them, and
//! what the verdicts of two cases have to do with each other.
//!
//! Left out, since it gives no other answer: to keep products in 64 bits. None reaches 2^60, and so
//! 16 times one stays below 2^64.

use crate::colour::{plane_of, Colour};
use crate::refusals::{lengths, orders, sizes, Length, Sides, SIZES};
use crate::shading::{blocks_of, judge, sites_in, Judging, Verdict};
use crate::shared::{keep, names, Answer, Law, Refusal};

/// An entry of the table, with what the black level leaves of its total.
#[derive(Clone, Copy)]
struct Light {
    total: i128,
    count: i128,
    /// As it stands in the table.
    raw: i128,
}

/// All that one block and ratio is told by.
#[derive(Clone, Copy)]
struct Sight {
    /// The colour and its green, in the block.
    block: [Light; 2],
    /// The same at the centre.
    centre: [Light; 2],
    /// The two planes of the other ratio, in the block and at the centre.
    others: [Light; 4],
    limit: i128,
}

/// Both fractions, a/b in the block and c/d at the centre.
#[derive(Clone, Copy)]
struct Fractions {
    a: i128,
    b: i128,
    c: i128,
    d: i128,
}

/// Numerator and denominator.
type Apart = (i128, i128);

/// The call in parts: a slip has another one.
struct Judge {
    is_out: fn(&Judging) -> bool,
    /// Of an entry: total, count, sites of its area and full scale.
    is_impossible: fn(u128, u128, u128, u128) -> bool,
    /// The entries of which 11 is asked, of entry and blocks.
    is_asked: fn(usize, usize) -> bool,
    planes: fn(u64) -> [[usize; 2]; 2],
    entry: fn(usize, usize, usize) -> usize,
    black: fn(&mut Sight, i128),
    is_few: fn(&Sight) -> bool,
    is_dark: fn(&Sight) -> bool,
    /// Whether 10 is asked before 7.
    dark_first: bool,
    fractions: fn(&Sight) -> Fractions,
    apart: fn(Fractions) -> Apart,
    fails: fn(Apart, Fractions, i128) -> bool,
    /// What is said of a refused block and ratio.
    refused: fn(&Judge, &Sight, u8) -> Verdict,
    /// What is done to all verdicts in the end, for so many blocks.
    end: fn(&mut Vec<Verdict>, usize, &Judging),
    /// A number for the whole call, of the verdicts.
    whole: fn(&[Verdict]) -> u64,
}

const RIGHT: Judge = Judge {
    is_out: |lent| lent.black_level > lent.full_scale || lent.bayer_order > 3 || is_no_limit(lent),
    is_impossible: |total, count, sites, full_scale| count > sites || total > count * full_scale,
    is_asked: |_, _| true,
    // Above 3 for a slip alone.
    planes: |order| {
        let plane = |colour| plane_of(colour, order % 4);
        [
            [plane(Colour::R), plane(Colour::Gr)],
            [plane(Colour::B), plane(Colour::Gb)],
        ]
    },
    entry: |plane, area, blocks| plane * (blocks + 1) + area,
    black: |sight, black| {
        darken(&mut sight.block, black);
        darken(&mut sight.centre, black);
        darken(&mut sight.others, black);
    },
    is_few: |sight| counts(sight).contains(&0),
    is_dark: |sight| {
        sight.block[1].total <= 0 || sight.centre[1].total <= 0 || sight.centre[0].total <= 0
    },
    dark_first: false,
    fractions: |sight| {
        let (a, b) = crossed(sight.block);
        let (c, d) = crossed(sight.centre);
        Fractions { a, b, c, d }
    },
    apart: |Fractions { a, b, c, d }| ((a * d - c * b).abs(), c * b),
    fails: |(numerator, denominator), _, limit| 16 * numerator > limit * denominator,
    refused: |_, _, refusal| blank(refusal),
    end: |_, _, _| (),
    whole: |_| 0,
};

fn is_no_limit(lent: &Judging) -> bool {
    lent.limit == 0 || lent.limit > 16
}

fn darken(lights: &mut [Light], black: i128) {
    for light in lights {
        light.total = light.raw - black * light.count;
    }
}

fn counts(sight: &Sight) -> [i128; 4] {
    let [one, other] = sight.block;
    let [third, fourth] = sight.centre;
    [one, other, third, fourth].map(|light| light.count)
}

fn crossed([colour, green]: [Light; 2]) -> Apart {
    (colour.total * green.count, green.total * colour.count)
}

fn blank(refusal: u8) -> Verdict {
    Verdict {
        numerator: 0,
        denominator: 0,
        refusal,
        fails: 0,
    }
}

impl Judge {
    /// Where nothing but 3 and 11 is refused.
    fn judged(&self, lent: Judging) -> Result<Vec<Verdict>, Refusal> {
        if (self.is_out)(&lent) {
            return Err(Refusal::new(3, 0));
        }
        let blocks = blocks_of(lent.width, lent.height);
        for entry in (0..lent.totals.len()).filter(|entry| (self.is_asked)(*entry, blocks)) {
            let (total, count) = (lent.totals[entry].into(), lent.counts[entry].into());
            let sites = sites_in(entry, blocks) as u128;
            if (self.is_impossible)(total, count, sites, lent.full_scale.into()) {
                return Err(Refusal::new(11, 0));
            }
        }
        let light = |plane, area| {
            let entry = (self.entry)(plane, area, blocks);
            // Far beyond the limits, and yet no product overflows.
            let (total, count) = (
                lent.totals[entry].min(1 << 26),
                lent.counts[entry].min(1 << 14),
            );
            Light {
                total: total.into(),
                count: count.into(),
                raw: total.into(),
            }
        };
        let planes = (self.planes)(lent.bayer_order);
        let mut verdicts = vec![];
        for ratio in 0..2 {
            for block in 0..blocks {
                let pair = |ratio: usize, area| planes[ratio].map(|plane| light(plane, area));
                let [third, fourth] = pair(1 - ratio, block);
                let [fifth, sixth] = pair(1 - ratio, blocks);
                let mut sight = Sight {
                    block: pair(ratio, block),
                    centre: pair(ratio, blocks),
                    others: [third, fourth, fifth, sixth],
                    limit: lent.limit.into(),
                };
                (self.black)(&mut sight, lent.black_level.min(1 << 20).into());
                verdicts.push(self.verdict(&sight));
            }
        }
        (self.end)(&mut verdicts, blocks, &lent);
        match (self.whole)(&verdicts) {
            0 => Ok(verdicts),
            number => Err(Refusal::new(number, 0)),
        }
    }

    fn verdict(&self, sight: &Sight) -> Verdict {
        let (is_few, is_dark) = ((self.is_few)(sight), (self.is_dark)(sight));
        match (is_few, is_dark) {
            (true, true) if self.dark_first => (self.refused)(self, sight, 10),
            (true, _) => (self.refused)(self, sight, 7),
            (_, true) => (self.refused)(self, sight, 10),
            _ => self.told(sight),
        }
    }

    fn told(&self, sight: &Sight) -> Verdict {
        let fractions = (self.fractions)(sight);
        let apart = (self.apart)(fractions);
        Verdict {
            numerator: apart.0 as u64,
            denominator: apart.1 as u64,
            refusal: 0,
            fails: (self.fails)(apart, fractions, sight.limit).into(),
        }
    }
}

type Slip = fn(&mut Judge);

const SLIPS: &[(&str, Slip)] = &[
    // The parameters.
    ("limit of 0 accepted", |wrong| {
        wrong.is_out = |lent| (RIGHT.is_out)(lent) && lent.limit != 0
    }),
    ("limit of 1 refused", |wrong| {
        wrong.is_out = |lent| (RIGHT.is_out)(lent) || lent.limit == 1
    }),
    ("limit of 16 refused", |wrong| {
        wrong.is_out = |lent| (RIGHT.is_out)(lent) || lent.limit == 16
    }),
    ("limit of 17 accepted", |wrong| {
        wrong.is_out = |lent| (RIGHT.is_out)(lent) && lent.limit != 17
    }),
    ("limit in 8 bits", |wrong| {
        wrong.is_out = |lent| {
            let limit = lent.limit % (1 << 8);
            (RIGHT.is_out)(&Judging { limit, ..*lent })
        }
    }),
    ("limit in 32 bits", |wrong| {
        wrong.is_out = |lent| {
            let limit = lent.limit % (1 << 32);
            (RIGHT.is_out)(&Judging { limit, ..*lent })
        }
    }),
    ("black level at full scale refused", |wrong| {
        wrong.is_out = |lent| (RIGHT.is_out)(lent) || lent.black_level == lent.full_scale
    }),
    ("black level above full scale accepted", |wrong| {
        wrong.is_out = |lent| lent.bayer_order > 3 || is_no_limit(lent)
    }),
    ("black level of 0 refused", |wrong| {
        wrong.is_out = |lent| (RIGHT.is_out)(lent) || lent.black_level == 0
    }),
    ("order of 4 accepted", |wrong| {
        wrong.is_out = |lent| (RIGHT.is_out)(lent) && lent.bayer_order != 4
    }),
    ("order in 8 bits", |wrong| {
        wrong.is_out = |lent| {
            let bayer_order = lent.bayer_order % (1 << 8);
            (RIGHT.is_out)(&Judging {
                bayer_order,
                ..*lent
            })
        }
    }),
    ("order in 32 bits", |wrong| {
        wrong.is_out = |lent| {
            let bayer_order = lent.bayer_order % (1 << 32);
            (RIGHT.is_out)(&Judging {
                bayer_order,
                ..*lent
            })
        }
    }),
    // Refusal 11.
    ("11 without its total", |wrong| {
        wrong.is_impossible = |_, count, sites, _| count > sites
    }),
    ("11 without its count", |wrong| {
        wrong.is_impossible = |total, count, _, full_scale| total > count * full_scale
    }),
    ("11 of a total by its area", |wrong| {
        wrong.is_impossible =
            |total, count, sites, full_scale| count > sites || total > sites * full_scale
    }),
    ("11 of a total at its most", |wrong| {
        wrong.is_impossible = |total, count, sites, full_scale| {
            count > sites || (total > 0 && total >= count * full_scale)
        }
    }),
    ("11 of a total one above its most", |wrong| {
        wrong.is_impossible =
            |total, count, sites, full_scale| count > sites || total > count * full_scale + 1
    }),
    ("11 of a count at its most", |wrong| {
        wrong.is_impossible =
            |total, count, sites, full_scale| count >= sites || total > count * full_scale
    }),
    ("11 of a count one above its most", |wrong| {
        wrong.is_impossible =
            |total, count, sites, full_scale| count > sites + 1 || total > count * full_scale
    }),
    ("11 of every count above 192", |wrong| {
        wrong.is_impossible =
            |total, count, _, full_scale| count > 192 || total > count * full_scale
    }),
    ("11 of every count above 768", |wrong| {
        wrong.is_impossible =
            |total, count, _, full_scale| count > 768 || total > count * full_scale
    }),
    ("11 of no count but 0", |wrong| {
        wrong.is_impossible = |total, count, sites, full_scale| {
            count > sites || (count > 0 && total > count * full_scale)
        }
    }),
    ("11 by 4095", |wrong| {
        wrong.is_impossible = |total, count, sites, _| count > sites || total > count * 4095
    }),
    ("11 of the blocks alone", |wrong| {
        wrong.is_asked = |entry, blocks| entry % (blocks + 1) < blocks
    }),
    ("11 of the centres alone", |wrong| {
        wrong.is_asked = |entry, blocks| entry % (blocks + 1) == blocks
    }),
    ("no 11 of plane (0,0)", |wrong| {
        wrong.is_asked = |entry, blocks| entry / (blocks + 1) != 0
    }),
    ("no 11 of plane (0,1)", |wrong| {
        wrong.is_asked = |entry, blocks| entry / (blocks + 1) != 1
    }),
    ("no 11 of plane (1,0)", |wrong| {
        wrong.is_asked = |entry, blocks| entry / (blocks + 1) != 2
    }),
    ("no 11 of plane (1,1)", |wrong| {
        wrong.is_asked = |entry, blocks| entry / (blocks + 1) != 3
    }),
    ("no 11 of the first entry", |wrong| {
        wrong.is_asked = |entry, _| entry > 0
    }),
    ("no 11 of the last entry", |wrong| {
        wrong.is_asked = |entry, blocks| entry < 4 * blocks + 3
    }),
    ("7 and 10 before 11", |wrong| {
        wrong.is_asked = |_, _| false;
        wrong.end = |verdicts, _, lent| {
            let is_impossible = RIGHT.judged(*lent).is_err();
            for verdict in verdicts {
                if is_impossible && verdict.refusal == 0 {
                    *verdict = blank(11);
                }
            }
        }
    }),
    // Colours and planes.
    ("order 0 for all", |wrong| {
        wrong.planes = |_| (RIGHT.planes)(0)
    }),
    ("orders 1 and 3 exchanged", |wrong| {
        wrong.planes = |order| (RIGHT.planes)((4 - order) % 4)
    }),
    ("orders 2 and 3 exchanged", |wrong| {
        wrong.planes = |order| (RIGHT.planes)([0, 1, 3, 2][order as usize % 4])
    }),
    ("greens exchanged", |wrong| {
        wrong.planes = |order| {
            let [[r, gr], [b, gb]] = (RIGHT.planes)(order);
            [[r, gb], [b, gr]]
        }
    }),
    ("B over Gr", |wrong| {
        wrong.planes = |order| {
            let [[r, gr], [b, _]] = (RIGHT.planes)(order);
            [[r, gr], [b, gr]]
        }
    }),
    ("Gb over Gr", |wrong| {
        wrong.planes = |order| {
            let [[r, gr], [_, gb]] = (RIGHT.planes)(order);
            [[r, gr], [gb, gr]]
        }
    }),
    ("B/Gb first", |wrong| {
        wrong.planes = |order| {
            let [r, b] = (RIGHT.planes)(order);
            [b, r]
        }
    }),
    ("green over colour", |wrong| {
        wrong.planes = |order| (RIGHT.planes)(order).map(|[colour, green]| [green, colour])
    }),
    ("R/Gr twice", |wrong| {
        wrong.planes = |order| [(RIGHT.planes)(order)[0]; 2]
    }),
    ("centre before the blocks", |wrong| {
        wrong.entry = |plane, area, blocks| match area {
            area if area == blocks => plane * (blocks + 1),
            _ => plane * (blocks + 1) + area + 1,
        }
    }),
    ("centres behind all blocks", |wrong| {
        wrong.entry = |plane, area, blocks| match area {
            area if area == blocks => 4 * blocks + plane,
            _ => plane * blocks + area,
        }
    }),
    ("planes side by side", |wrong| {
        wrong.entry = |plane, area, _| 4 * area + plane
    }),
    ("first block for the centre", |wrong| {
        wrong.entry = |plane, area, blocks| plane * (blocks + 1) + area % blocks
    }),
    // The black level.
    ("black not taken off", |wrong| wrong.black = |_, _| ()),
    ("black not taken off in the block", |wrong| {
        wrong.black = |sight, black| darken(&mut sight.centre, black)
    }),
    ("black not taken off at the centre", |wrong| {
        wrong.black = |sight, black| darken(&mut sight.block, black)
    }),
    ("black not taken off the green", |wrong| {
        wrong.black = |sight, black| {
            darken(&mut sight.block[..1], black);
            darken(&mut sight.centre[..1], black);
        }
    }),
    ("black taken off once", |wrong| {
        wrong.black = |sight, black| {
            for light in sight.block.iter_mut().chain(&mut sight.centre) {
                light.total = light.raw - black;
            }
        }
    }),
    ("black by the sites of an area", |wrong| {
        wrong.black = |sight, black| {
            for (lights, sites) in [(&mut sight.block, 192), (&mut sight.centre, 768)] {
                for light in lights {
                    light.total = light.raw - black * sites;
                }
            }
        }
    }),
    ("0 for a total below black", |wrong| {
        wrong.black = |sight, black| {
            (RIGHT.black)(sight, black);
            for light in sight.block.iter_mut().chain(&mut sight.centre) {
                light.total = light.total.max(0);
            }
        }
    }),
    ("size of a total below black", |wrong| {
        wrong.black = |sight, black| {
            (RIGHT.black)(sight, black);
            sight.block[0].total = sight.block[0].total.abs();
        }
    }),
    // 7.
    ("7 asked of all four planes", |wrong| {
        wrong.is_few =
            |sight| (RIGHT.is_few)(sight) || sight.others.iter().any(|light| light.count == 0)
    }),
    ("no 7 of the colour in a block", |wrong| {
        wrong.is_few = |sight| counts(sight)[1..].contains(&0)
    }),
    ("no 7 of the green in a block", |wrong| {
        wrong.is_few = |sight| {
            let [colour, _, third, fourth] = counts(sight);
            [colour, third, fourth].contains(&0)
        }
    }),
    ("no 7 of the colour at the centre", |wrong| {
        wrong.is_few = |sight| {
            let [first, second, _, fourth] = counts(sight);
            [first, second, fourth].contains(&0)
        }
    }),
    ("no 7 of the green at the centre", |wrong| {
        wrong.is_few = |sight| counts(sight)[..3].contains(&0)
    }),
    ("7 where all are empty", |wrong| {
        wrong.is_few = |sight| counts(sight) == [0; 4]
    }),
    ("7 of one site", |wrong| {
        wrong.is_few = |sight| counts(sight).iter().any(|count| *count < 2)
    }),
    ("7 of a total of 0", |wrong| {
        wrong.is_few = |sight| {
            let lights = sight.block.iter().chain(&sight.centre);
            lights.into_iter().any(|light| light.raw == 0)
        }
    }),
    // 10.
    ("10 before 7", |wrong| wrong.dark_first = true),
    ("10 asked of the colour in a block", |wrong| {
        wrong.is_dark = |sight| (RIGHT.is_dark)(sight) || sight.block[0].total <= 0
    }),
    ("10 of the colour below black in a block", |wrong| {
        wrong.is_dark = |sight| (RIGHT.is_dark)(sight) || sight.block[0].total < 0
    }),
    ("no 10 of the colour at the centre", |wrong| {
        wrong.is_dark = |sight| sight.block[1].total <= 0 || sight.centre[1].total <= 0
    }),
    ("no 10 of the green in a block", |wrong| {
        wrong.is_dark = |sight| sight.centre[1].total <= 0 || sight.centre[0].total <= 0
    }),
    ("no 10 of the green at the centre", |wrong| {
        wrong.is_dark = |sight| sight.block[1].total <= 0 || sight.centre[0].total <= 0
    }),
    ("10 below 0 alone", |wrong| {
        wrong.is_dark = |sight| {
            sight.block[1].total < 0 || sight.centre[1].total < 0 || sight.centre[0].total < 0
        }
    }),
    ("10 of 1", |wrong| {
        wrong.is_dark = |sight| {
            sight.block[1].total <= 1 || sight.centre[1].total <= 1 || sight.centre[0].total <= 1
        }
    }),
    ("10 of the product alone", |wrong| {
        wrong.is_dark = |sight| {
            let Fractions { b, c, .. } = (RIGHT.fractions)(sight);
            c * b <= 0
        }
    }),
    ("10 of the totals with black", |wrong| {
        wrong.is_dark =
            |sight| sight.block[1].raw <= 0 || sight.centre[1].raw <= 0 || sight.centre[0].raw <= 0
    }),
    ("10 asked of all four planes", |wrong| {
        wrong.is_dark =
            |sight| (RIGHT.is_dark)(sight) || sight.others.iter().any(|light| light.total <= 0)
    }),
    ("7 for 10", |wrong| wrong.refused = |_, _, _| blank(7)),
    // What is said where a block and ratio is refused.
    ("numbers where refused", |wrong| {
        wrong.refused = |judge, sight, refusal| Verdict {
            refusal,
            fails: 0,
            ..judge.told(sight)
        }
    }),
    ("fails where refused", |wrong| {
        wrong.refused = |_, _, refusal| Verdict {
            fails: 1,
            ..blank(refusal)
        }
    }),
    ("7 of the whole call", |wrong| {
        wrong.whole = |verdicts| match verdicts.iter().any(|verdict| verdict.refusal == 7) {
            true => 7,
            false => 0,
        }
    }),
    ("10 of the whole call", |wrong| {
        wrong.whole = |verdicts| match verdicts.iter().any(|verdict| verdict.refusal == 10) {
            true => 10,
            false => 0,
        }
    }),
    ("none judged after a refused one", |wrong| {
        wrong.end = |verdicts, _, _| {
            let refused = verdicts.iter().position(|verdict| verdict.refusal > 0);
            let rest = refused.map_or(verdicts.len(), |first| first + 1);
            verdicts[rest..].fill(blank(0));
        }
    }),
    ("refused in one ratio, refused in both", |wrong| {
        wrong.end = |verdicts, blocks, _| {
            for block in 0..blocks {
                let both = verdicts[block]
                    .refusal
                    .max(verdicts[blocks + block].refusal);
                if both > 0 {
                    verdicts[block] = blank(both);
                    verdicts[blocks + block] = blank(both);
                }
            }
        }
    }),
    // Where the verdicts stand.
    ("ratios side by side", |wrong| {
        wrong.end = |verdicts, blocks, _| {
            let old = verdicts.clone();
            for place in 0..2 * blocks {
                verdicts[place] = old[place % 2 * blocks + place / 2];
            }
        }
    }),
    ("blocks in column order", |wrong| {
        wrong.end = |verdicts, blocks, lent| {
            let (across, down) = (lent.width / 32, lent.height / 24);
            let old = verdicts.clone();
            for block in 0..blocks {
                let turned = block % across * down + block / across;
                verdicts[turned] = old[block];
                verdicts[blocks + turned] = old[blocks + block];
            }
        }
    }),
    ("first verdict left out", |wrong| {
        wrong.end = |verdicts, _, _| verdicts[0] = blank(0)
    }),
    ("last verdict left out", |wrong| {
        wrong.end = |verdicts, blocks, _| verdicts[2 * blocks - 1] = blank(0)
    }),
    // The fractions.
    ("counts left out", |wrong| {
        wrong.fractions = |sight| Fractions {
            a: sight.block[0].total,
            b: sight.block[1].total,
            c: sight.centre[0].total,
            d: sight.centre[1].total,
        }
    }),
    ("counts exchanged", |wrong| {
        wrong.fractions = |sight| {
            let [colour, green] = sight.block;
            let (a, b) = (colour.total * colour.count, green.total * green.count);
            let (c, d) = crossed(sight.centre);
            Fractions { a, b, c, d }
        }
    }),
    ("counts exchanged at the centre", |wrong| {
        wrong.fractions = |sight| {
            let [colour, green] = sight.centre;
            let (c, d) = (colour.total * colour.count, green.total * green.count);
            let (a, b) = crossed(sight.block);
            Fractions { a, b, c, d }
        }
    }),
    ("counts of the centre in the block", |wrong| {
        wrong.fractions = |sight| {
            let counts = sight.centre.map(|light| light.count);
            let a = sight.block[0].total * counts[1];
            let b = sight.block[1].total * counts[0];
            let (c, d) = crossed(sight.centre);
            Fractions { a, b, c, d }
        }
    }),
    ("block and centre exchanged", |wrong| {
        wrong.fractions = |sight| {
            let Fractions { a, b, c, d } = (RIGHT.fractions)(sight);
            Fractions {
                a: c,
                b: d,
                c: a,
                d: b,
            }
        }
    }),
    // The numbers.
    ("a x b for c x b", |wrong| {
        wrong.apart = |Fractions { a, b, c, d }| ((a * d - c * b).abs(), a * b)
    }),
    ("c x d for c x b", |wrong| {
        wrong.apart = |Fractions { a, b, c, d }| ((a * d - c * b).abs(), c * d)
    }),
    ("a x d for c x b", |wrong| {
        wrong.apart = |Fractions { a, b, c, d }| ((a * d - c * b).abs(), a * d)
    }),
    ("b x d for c x b", |wrong| {
        wrong.apart = |Fractions { a, b, c, d }| ((a * d - c * b).abs(), b * d)
    }),
    ("a x c and b x d subtracted", |wrong| {
        wrong.apart = |Fractions { a, b, c, d }| ((a * c - b * d).abs(), c * b)
    }),
    ("a x b and c x d subtracted", |wrong| {
        wrong.apart = |Fractions { a, b, c, d }| ((a * b - c * d).abs(), c * b)
    }),
    ("products added", |wrong| {
        wrong.apart = |Fractions { a, b, c, d }| ((a * d + c * b).abs(), c * b)
    }),
    ("0 for a darker block", |wrong| {
        wrong.apart = |Fractions { a, b, c, d }| ((a * d - c * b).max(0), c * b)
    }),
    ("0 for a brighter block", |wrong| {
        wrong.apart = |Fractions { a, b, c, d }| ((c * b - a * d).max(0), c * b)
    }),
    ("sign kept in 64 bits", |wrong| {
        wrong.apart = |Fractions { a, b, c, d }| (a * d - c * b, c * b)
    }),
    ("fraction reduced", |wrong| {
        wrong.apart = |fractions| {
            let (numerator, denominator) = (RIGHT.apart)(fractions);
            let common = divisor(numerator, denominator).max(1);
            (numerator / common, denominator / common)
        }
    }),
    ("products in 32 bits", |wrong| {
        wrong.apart = |Fractions { a, b, c, d }| {
            let [one, other] = [a * d, c * b].map(|product| product % (1 << 32));
            ((one - other).abs(), other)
        }
    }),
    ("a and b in 32 bits", |wrong| {
        wrong.apart = |fractions| {
            let Fractions { a, b, c, d } = fractions;
            let [a, b, c, d] = [a, b, c, d].map(|product| i128::from(product as i32));
            (RIGHT.apart)(Fractions { a, b, c, d })
        }
    }),
    ("products as floats", |wrong| {
        wrong.apart = |Fractions { a, b, c, d }| {
            let [one, other] = [a as f64 * d as f64, c as f64 * b as f64];
            ((one - other).abs() as i128, other as i128)
        }
    }),
    // When a block fails.
    ("limit at >=", |wrong| {
        wrong.fails = |(numerator, denominator), _, limit| 16 * numerator >= limit * denominator
    }),
    ("limit a sixteenth more", |wrong| {
        wrong.fails =
            |(numerator, denominator), _, limit| 16 * numerator > (limit + 1) * denominator
    }),
    ("limit a sixteenth less", |wrong| {
        wrong.fails =
            |(numerator, denominator), _, limit| 16 * numerator > (limit - 1) * denominator
    }),
    ("limit in eighths", |wrong| {
        wrong.fails = |(numerator, denominator), _, limit| 8 * numerator > limit * denominator
    }),
    ("limit on the other side", |wrong| {
        wrong.fails = |(numerator, denominator), _, limit| limit * numerator > 16 * denominator
    }),
    ("limit by whole quotients", |wrong| {
        wrong.fails = |(numerator, denominator), _, limit| {
            denominator != 0 && 16 * numerator / denominator > limit
        }
    }),
    ("fails where it passes", |wrong| {
        wrong.fails = |(numerator, denominator), _, limit| 16 * numerator <= limit * denominator
    }),
    ("darker blocks pass", |wrong| {
        wrong.fails = |(numerator, denominator), Fractions { a, b, c, d }, limit| {
            16 * numerator > limit * denominator && a * d > c * b
        }
    }),
    ("brighter blocks pass", |wrong| {
        wrong.fails = |(numerator, denominator), Fractions { a, b, c, d }, limit| {
            16 * numerator > limit * denominator && a * d < c * b
        }
    }),
    ("limit by the block", |wrong| {
        wrong.fails = |(numerator, _), Fractions { a, d, .. }, limit| 16 * numerator > limit * a * d
    }),
];

fn divisor(one: i128, other: i128) -> i128 {
    match other {
        0 => one,
        _ => divisor(other, one % other),
    }
}

/// All that cases can tell, and the relations of two; a run has to meet each.
pub const KINDS: &[&[&str]] = &[
    &names::<{ SLIPS.len() }, _>(SLIPS),
    SIZES[0],
    SIZES[1],
    &[
        "2 before 1",
        "3 before 1",
        "4 before 1",
        "9 before 1",
        "11 before 1",
        "3 before 2",
        "4 before 2",
        "9 before 2",
        "11 before 2",
        "4 before 3",
        "9 before 3",
        "11 before 3",
        "9 before 4",
        "11 before 4",
        "11 before 9",
        "totals one too short",
        "totals one too long",
        "counts one too short",
        "counts one too long",
        "numerators one too short",
        "numerators one too long",
        "denominators one too short",
        "denominators one too long",
        "refusals one too short",
        "refusals one too long",
        "fails one too short",
        "fails one too long",
        "greatest numerator",
        "greatest denominator",
        "a colour at black in a block",
        "a colour below black in a block",
        "higher limit",
        "other blocks changed",
        "other ratio changed",
        "another order",
        "own table",
        "equal samples",
        "as a table and as a frame",
    ],
];

/// What a case tells.
pub fn told(lent: Judging) -> Vec<String> {
    let right = judge(lent);
    let number = right.as_ref().map_or_else(|refusal| refusal.number, |_| 0);
    let mut told = told_of_refusals(lent, number);
    if !matches!(number, 0 | 3 | 11) || !is_whole(lent) {
        return told;
    }
    assert_eq!(RIGHT.judged(lent), right, "the parts make up the call");
    for (name, slip) in SLIPS {
        let mut wrong = RIGHT;
        slip(&mut wrong);
        if wrong.judged(lent) != right {
            told.push(name.to_string());
        }
    }
    if let Ok(verdicts) = right {
        told.extend(met(lent, &verdicts).into_iter().map(String::from));
    }
    told
}

/// Neither 4 nor 9 applies.
fn is_whole(lent: Judging) -> bool {
    let sides = sides_of(lent);
    let is_right = |one: &Length| one.lent == one.needed;
    !sides.are_small() && buffers(lent).iter().all(is_right)
}

fn sides_of(lent: Judging) -> Sides {
    Sides {
        width: lent.width,
        height: lent.height,
    }
}

fn buffers(lent: Judging) -> [Length; 6] {
    let sides = sides_of(lent);
    let (entries, places) = (sides.entries(), sides.blocks().wrapping_mul(2));
    let [numerators, denominators, refusals, fails] = lent.lengths;
    [
        ("totals", lent.totals.len(), entries),
        ("counts", lent.counts.len(), entries),
        ("numerators", numerators, places),
        ("denominators", denominators, places),
        ("refusals", refusals, places),
        ("fails", fails, places),
    ]
    .map(|(buffer, lent, needed)| Length {
        buffer,
        lent,
        needed,
    })
}

fn told_of_refusals(lent: Judging, number: u64) -> Vec<String> {
    let (sides, buffers) = (sides_of(lent), buffers(lent));
    let areas = sides.blocks().wrapping_add(1).max(1);
    let is_impossible = |(entry, (total, count)): (usize, (&u32, &u32))| {
        let sites = if entry % areas == areas - 1 { 768 } else { 192 };
        let most = u128::from(*count) * u128::from(lent.full_scale);
        *count > sites || u128::from(*total) > most
    };
    let mut entries = lent.totals.iter().zip(lent.counts).enumerate();
    let tests = [
        (1, sides.are_illegal()),
        (2, lent.full_scale == 0 || lent.full_scale > 4095),
        (3, (RIGHT.is_out)(&lent)),
        (4, buffers.iter().any(|one| one.lent != one.needed)),
        (9, sides.are_small()),
        (11, entries.any(is_impossible)),
    ];
    let first = tests.iter().find(|test| test.1).map_or(0, |test| test.0);
    assert_eq!(first, number, "the tests make up the refusals");
    let mut told = orders(&tests);
    told.extend(lengths(&buffers, number));
    if buffers[2..].iter().all(|one| one.lent == one.needed) {
        let table = [lent.totals.len(), lent.counts.len()];
        told.extend(sizes(sides, table, number));
    }
    told
}

/// The greatest product of a block and a centre.
const GREATEST: u64 = (192 * 4095 * 192) * (768 * 4095 * 768);

/// What else is to be met in an accepted call.
fn met(lent: Judging, verdicts: &[Verdict]) -> Vec<&'static str> {
    let mut met = vec![];
    if verdicts.iter().any(|verdict| verdict.numerator == GREATEST) {
        met.push("greatest numerator");
    }
    if verdicts
        .iter()
        .any(|verdict| verdict.denominator == GREATEST)
    {
        met.push("greatest denominator");
    }
    let blocks = blocks_of(lent.width, lent.height);
    for (ratio, [plane, _]) in (RIGHT.planes)(lent.bayer_order).into_iter().enumerate() {
        for block in 0..blocks {
            if verdicts[ratio * blocks + block].refusal > 0 {
                continue;
            }
            let entry = plane * (blocks + 1) + block;
            let black = lent.black_level * u64::from(lent.counts[entry]);
            match u64::from(lent.totals[entry]) {
                total if total == black => met.push("a colour at black in a block"),
                total if total < black => met.push("a colour below black in a block"),
                _ => (),
            }
        }
    }
    met
}

/// What judging answered and wrote.
#[derive(Clone, Debug, PartialEq, Eq)]
pub struct Judged {
    pub answer: Answer,
    pub numerators: Vec<u64>,
    pub denominators: Vec<u64>,
    pub refusals: Vec<u8>,
    pub fails: Vec<u8>,
}

impl Judged {
    fn at(&self, place: usize) -> (u64, u64, u8, u8) {
        (
            self.numerators[place],
            self.denominators[place],
            self.refusals[place],
            self.fails[place],
        )
    }
}

const HIGHER: &str = "a higher limit fails a block that a lower one passes, or changes a number";
const LOCAL: &str = "what a block and ratio is not told by changes its verdict";
const TURNED: &str = "with the planes of another order the verdicts are not the same";
const OWN: &str = "a table made by the call is refused";
const FRAMED: &str = "a frame's table, or its verdicts, are not those of the table handed in";
const EQUAL: &str = "with equal samples in each plane a numerator is not 0";

/// Both accepted, the second with a limit that is not lower.
pub fn higher(low: &Judged, high: &Judged) -> Law {
    let fails = |judged: &Judged| judged.fails.clone();
    let falls = fails(low)
        .iter()
        .zip(fails(high))
        .all(|(low, high)| *low >= high);
    let unfailed = |judged: &Judged| Judged {
        fails: vec![],
        ..judged.clone()
    };
    keep(falls && unfailed(low) == unfailed(high), HIGHER)
}

/// At these places nothing changed by which the verdicts are told.
pub fn local(one: &Judged, other: &Judged, places: &[usize]) -> Law {
    let is_same = places
        .iter()
        .all(|place| one.at(*place) == other.at(*place));
    keep(is_same && one.answer == other.answer, LOCAL)
}

/// The planes were exchanged with the order.
pub fn turned(one: &Judged, other: &Judged) -> Law {
    keep(one == other, TURNED)
}

/// The table was made by the call, for the sides and the full scale with which it is judged.
pub fn own(judged: &Judged) -> Law {
    keep(judged.answer.number == 0, OWN)
}

/// In each plane all surveyed samples are equal.
pub fn equal(judged: &Judged) -> Law {
    let is_accepted = judged.answer.number == 0;
    keep(
        is_accepted && judged.numerators.iter().all(|number| *number == 0),
        EQUAL,
    )
}

/// A table that is handed in, and one that calls made of frames.
pub fn framed(is_same: bool, handed: &Judged, made: &Judged) -> Law {
    keep(is_same && handed == made, FRAMED)
}

#[cfg(test)]
mod tests {
    use super::*;
    use crate::shared::settle;

    /// The table: 64 x 48, full scale 1,023, order 0, black 64, all sites surveyed, R 164,
    /// Gr and Gb 264, B 114; then entries that are changed, by total and count.
    fn told_with(entries: &[(usize, u32, u32)], limit: u64) -> Vec<String> {
        let sites = |entry| sites_in(entry, 4) as u32;
        let total = |entry| sites(entry) * [164, 264, 264, 114][entry / 5];
        let mut totals: Vec<u32> = (0..20).map(total).collect();
        let mut counts: Vec<u32> = (0..20).map(sites).collect();
        for &(entry, total, count) in entries {
            (totals[entry], counts[entry]) = (total, count);
        }
        told(Judging {
            width: 64,
            height: 48,
            full_scale: 1023,
            black_level: 64,
            bayer_order: 0,
            limit,
            totals: &totals,
            counts: &counts,
            lengths: [8; 4],
        })
    }

    /// Those of the slips that are told.
    fn among<'a>(slips: &[&'a str], told: &[String]) -> Vec<&'a str> {
        let is_told = |slip: &&&str| told.iter().any(|told| told == *slip);
        slips.iter().filter(is_told).copied().collect()
    }

    #[test]
    fn no_two_kinds_have_one_name() {
        let mut names: Vec<&str> = KINDS.concat();
        names.sort();
        let all = names.len();
        names.dedup();
        assert_eq!(names.len(), all);
    }

    #[test]
    fn equal_levels_hide_most_slips() {
        let slips = [
            "a x d for c x b",
            "0 for a darker block",
            "0 for a brighter block",
            "black not taken off in the block",
            "limit at >=",
            "7 asked of all four planes",
            "10 before 7",
            "10 asked of the colour in a block",
            "11 without its total",
            "11 without its count",
            "ratios side by side",
            "a x b for c x b",
            "B/Gb first",
        ];
        let told = among(&slips, &told_with(&[], 3));
        assert_eq!(told, [slips[3], slips[10], slips[11], slips[12]]);
    }

    /// R of block 0 is 1/7 above the centre, which is at 169.
    #[test]
    fn a_bright_block_tells_numbers_and_limit() {
        let slips = [
            "a x d for c x b",
            "0 for a darker block",
            "0 for a brighter block",
            "limit a sixteenth more",
            "limit in eighths",
            "brighter blocks pass",
            "darker blocks pass",
        ];
        let bright = [(0, 192 * 184, 192), (4, 768 * 169, 768)];
        assert_eq!(among(&slips, &told_with(&bright, 2)), slips[..6]);
        assert_eq!(among(&slips, &told_with(&bright, 3)), slips[..3]);
    }

    #[test]
    fn the_limit_itself_tells_its_comparison() {
        let slips = ["limit at >=", "limit by whole quotients"];
        // T of R is 100 x 192; an eighth more, and one grey level beside that.
        for (off, told) in [(-1, &[][..]), (0, &slips[..1]), (1, &slips[1..])] {
            let total = (192 * 164 + 192 * 100 / 8 + off) as u32;
            assert_eq!(among(&slips, &told_with(&[(0, total, 192)], 2)), told);
        }
    }

    #[test]
    fn empty_areas_tell_whose_7_is_asked() {
        let slips = [
            "7 asked of all four planes",
            "no 7 of the colour in a block",
            "no 7 of the green in a block",
            "no 7 of the colour at the centre",
            "no 7 of the green at the centre",
            "10 before 7",
            "7 of the whole call",
        ];
        for (entry, told) in [
            (1, &[0, 1, 6][..]),
            (6, &[0, 2, 5, 6]),
            (4, &[0, 3, 5, 6]),
            (9, &[0, 4, 5, 6]),
        ] {
            let told: Vec<&str> = told.iter().map(|at| slips[*at]).collect();
            assert_eq!(among(&slips, &told_with(&[(entry, 0, 0)], 3)), told);
        }
    }

    #[test]
    fn dark_areas_tell_whose_10_is_asked() {
        let slips = [
            "10 asked of the colour in a block",
            "10 of the colour below black in a block",
            "no 10 of the colour at the centre",
            "no 10 of the green in a block",
            "no 10 of the green at the centre",
            "10 below 0 alone",
            "10 of 1",
            "7 for 10",
        ];
        for (entry, off, told) in [
            (1, 1, &[][..]),
            (1, 0, &[0]),
            (1, -1, &[0, 1]),
            (4, 1, &[6]),
            (4, 0, &[2, 5, 7]),
            (4, -1, &[2, 7]),
            (6, 1, &[6]),
            (6, 0, &[3, 5, 7]),
            (6, -1, &[3, 7]),
            (9, 1, &[6]),
            (9, 0, &[4, 5, 7]),
            (9, -1, &[4, 7]),
        ] {
            let sites = sites_in(entry, 4) as u32;
            let total = (64 * sites).wrapping_add_signed(off);
            let told: Vec<&str> = told.iter().map(|at| slips[*at]).collect();
            assert_eq!(among(&slips, &told_with(&[(entry, total, sites)], 3)), told);
        }
    }

    #[test]
    fn entries_tell_each_arm_of_11() {
        let slips = [
            "11 without its total",
            "11 without its count",
            "11 of a total by its area",
            "11 of a total at its most",
            "11 of a total one above its most",
            "11 of a count one above its most",
            "11 of every count above 768",
            "11 of no count but 0",
            "no 11 of plane (0,1)",
        ];
        for (total, count, told) in [
            (192 * 264, 192, &[][..]),
            (192 * 264, 193, &[1, 5, 6, 8]),
            (192 * 264, 194, &[1, 6, 8]),
            (192 * 1023, 192, &[3]),
            (192 * 1023 + 1, 192, &[0, 4, 8]),
            (192 * 1023 + 2, 192, &[0, 8]),
            (1024, 1, &[0, 2, 4, 8]),
            (1, 0, &[0, 2, 4, 7, 8]),
        ] {
            let told: Vec<&str> = told.iter().map(|at| slips[*at]).collect();
            assert_eq!(among(&slips, &told_with(&[(6, total, count)], 3)), told);
        }
    }

    #[test]
    fn limits_tell_their_ends() {
        let slips = [
            "limit of 0 accepted",
            "limit of 1 refused",
            "limit of 16 refused",
            "limit of 17 accepted",
            "limit in 8 bits",
            "limit in 32 bits",
        ];
        for (limit, told) in [
            (0, &slips[..1]),
            (1, &slips[1..2]),
            (2, &[]),
            (16, &slips[2..3]),
            (17, &slips[3..4]),
            (256 + 3, &slips[4..5]),
            ((1 << 32) + 3, &slips[4..]),
        ] {
            assert_eq!(among(&slips, &told_with(&[], limit)), told);
        }
    }

    #[test]
    fn two_refusals_tell_their_order() {
        let orders = ["11 before 3", "4 before 3", "11 before 9"];
        assert_eq!(among(&orders, &told_with(&[(6, 0, 193)], 0)), orders[..1]);
        assert_eq!(among(&orders, &told_with(&[(6, 0, 193)], 1)), [""; 0]);
    }

    fn judged(numbers: [u64; 2], fails: [u8; 2]) -> Judged {
        Judged {
            answer: settle(Ok(vec![]), 0),
            numerators: numbers.to_vec(),
            denominators: vec![8; 2],
            refusals: vec![0; 2],
            fails: fails.to_vec(),
        }
    }

    #[test]
    fn laws_that_are_kept_and_broken() {
        let (one, less) = (judged([5, 0], [1, 0]), judged([5, 0], [0, 0]));
        assert_eq!(higher(&one, &one), Ok(()));
        assert_eq!(higher(&one, &less), Ok(()));
        assert_eq!(higher(&less, &one), Err(HIGHER));
        assert_eq!(higher(&one, &judged([6, 0], [1, 0])), Err(HIGHER));
        assert_eq!(local(&one, &judged([5, 3], [1, 1]), &[0]), Ok(()));
        assert_eq!(local(&one, &judged([5, 3], [1, 1]), &[0, 1]), Err(LOCAL));
        assert_eq!(turned(&one, &one), Ok(()));
        assert_eq!(turned(&one, &less), Err(TURNED));
        assert_eq!(framed(true, &one, &one), Ok(()));
        assert_eq!(framed(false, &one, &one), Err(FRAMED));
        assert_eq!(framed(true, &one, &less), Err(FRAMED));
        assert_eq!(equal(&judged([0, 0], [0, 0])), Ok(()));
        assert_eq!(equal(&less), Err(EQUAL));
        assert_eq!(own(&one), Ok(()));
        let eleven = Judged {
            answer: settle(Err(Refusal::new(11, 0)), 0),
            ..judged([0, 0], [0, 0])
        };
        assert_eq!(own(&eleven), Err(OWN));
        assert_eq!(equal(&eleven), Err(EQUAL));
        assert_eq!(local(&judged([0, 0], [0, 0]), &eleven, &[]), Err(LOCAL));
    }
}
