//! The block table (document 02, j): slips in making it and in changing one code, which cases tell
//! them, and what two tables have to do with each other.
//!
//! Left out, since it gives no other answer: to take off and then add where 0 becomes 0.

use crate::colour::centre_of;
use crate::refusals::{lengths, orders, sizes, Length, Sides, Test, SIZES};
use crate::shading::{blocks_of, shading_recode, shading_table, sites_in, Making, Recoding};
use crate::shared::{keep, names, settle, Answer, Law, Refusal, Window};

/// Totals and counts.
#[derive(Clone, Debug, PartialEq, Eq)]
pub struct Table {
    pub totals: Vec<u32>,
    pub counts: Vec<u32>,
}

impl Table {
    fn amend(&mut self, entry: usize, by: impl Fn(&mut u32, &mut u32)) {
        // A slip may lead past the end.
        if let (Some(total), Some(count)) = (self.totals.get_mut(entry), self.counts.get_mut(entry))
        {
            by(total, count);
        }
    }
}

/// A site of a window whose planes hold a centre.
#[derive(Clone, Copy)]
struct Spot {
    width: usize,
    height: usize,
    row: usize,
    column: usize,
}

impl Spot {
    fn of(width: usize, height: usize, site: usize) -> Self {
        Spot {
            width,
            height,
            row: site / width,
            column: site % width,
        }
    }

    fn plane_row(&self) -> usize {
        self.row / 2
    }

    fn plane_column(&self) -> usize {
        self.column / 2
    }

    /// How many blocks stand side by side.
    fn across(&self) -> usize {
        self.width / 32
    }

    fn down(&self) -> usize {
        self.height / 24
    }

    fn blocks(&self) -> usize {
        blocks_of(self.width, self.height)
    }

    /// The block in this row and column of blocks, if there is one.
    fn block_at(&self, row: usize, column: usize) -> Option<usize> {
        (row < self.down() && column < self.across()).then_some(row * self.across() + column)
    }

    /// In blocks of this size.
    fn block_of(&self, wide: usize, high: usize) -> Option<usize> {
        self.block_at(self.plane_row() / high, self.plane_column() / wide)
    }

    /// In a centre that begins at this column and row of the plane.
    fn is_near(&self, (left, top): (usize, usize), wide: usize, high: usize) -> bool {
        (left..left + wide).contains(&self.plane_column())
            && (top..top + high).contains(&self.plane_row())
    }

    fn corner(&self) -> (usize, usize) {
        centre_of(self.width, self.height)
    }
}

/// Where a site is counted, in parts: a slip has another one.
#[derive(Clone, Copy)]
struct Grid {
    plane: fn(&Spot) -> usize,
    block: fn(&Spot) -> Option<usize>,
    is_central: fn(&Spot) -> bool,
    /// Of a plane's area, which is a block or, with the number of all blocks, the centre.
    entry: fn(usize, usize, usize) -> usize,
    /// Block and centre, where there is something to choose.
    chosen: fn(Option<usize>, bool) -> (Option<usize>, bool),
}

const GRID: Grid = Grid {
    plane: |at| 2 * (at.row % 2) + at.column % 2,
    block: |at| at.block_of(16, 12),
    is_central: |at| at.is_near(at.corner(), 32, 24),
    entry: |plane, area, blocks| plane * (blocks + 1) + area,
    chosen: |block, is_central| (block, is_central),
};

impl Grid {
    fn entries(&self, at: &Spot) -> [Option<usize>; 2] {
        let (block, is_central) = (self.chosen)((self.block)(at), (self.is_central)(at));
        let (plane, blocks) = ((self.plane)(at), at.blocks());
        let centre = is_central.then_some(blocks);
        [block, centre].map(|area| area.map(|area| (self.entry)(plane, area, blocks)))
    }
}

type GridSlip = fn(&mut Grid);

const GRID_SLIPS: &[(&str, GridSlip)] = &[
    // The blocks.
    ("block 12 wide and 16 high", |wrong| {
        wrong.block = |at| at.block_of(12, 16)
    }),
    ("block 12 wide", |wrong| {
        wrong.block = |at| at.block_of(12, 12)
    }),
    ("block 16 high", |wrong| {
        wrong.block = |at| at.block_of(16, 16)
    }),
    ("block of window sites", |wrong| {
        wrong.block = |at| at.block_at(at.row / 12, at.column / 16)
    }),
    ("blocks in column order", |wrong| {
        wrong.block = |at| {
            let block = at.block_of(16, 12)?;
            Some(block % at.across() * at.down() + block / at.across())
        }
    }),
    ("left-over column in the last block", |wrong| {
        wrong.block = |at| {
            let column = (at.plane_column() / 16).min(at.across() - 1);
            at.block_at(at.plane_row() / 12, column)
        }
    }),
    ("left-over row in the last block", |wrong| {
        wrong.block = |at| {
            let row = (at.plane_row() / 12).min(at.down() - 1);
            at.block_at(row, at.plane_column() / 16)
        }
    }),
    ("left-over column in the next row of blocks", |wrong| {
        wrong.block = |at| {
            let row = at.plane_row() / 12;
            (row < at.down()).then_some(row * at.across() + at.plane_column() / 16)
        }
    }),
    ("left-over row behind the blocks", |wrong| {
        wrong.block = |at| {
            let column = at.plane_column() / 16;
            let row = at.plane_row() / 12;
            (column < at.across()).then_some(row * at.across() + column)
        }
    }),
    ("blocks from the right", |wrong| {
        wrong.block = |at| {
            let column = (at.width / 2 - 1 - at.plane_column()) / 16;
            at.block_at(at.plane_row() / 12, at.across().checked_sub(column + 1)?)
        }
    }),
    ("blocks from below", |wrong| {
        wrong.block = |at| {
            let row = (at.height / 2 - 1 - at.plane_row()) / 12;
            at.block_at(at.down().checked_sub(row + 1)?, at.plane_column() / 16)
        }
    }),
    ("blocks around the middle", |wrong| {
        wrong.block = |at| {
            let left = at.width / 2 % 16 / 2;
            at.block_at(
                at.plane_row() / 12,
                at.plane_column().checked_sub(left)? / 16,
            )
        }
    }),
    // The centre.
    ("centre left out", |wrong| wrong.is_central = |_| false),
    ("centre from a column rounded up", |wrong| {
        wrong.is_central = |at| {
            let left = (at.width / 2 - 31) / 2;
            at.is_near((left, at.corner().1), 32, 24)
        }
    }),
    ("centre from a row rounded up", |wrong| {
        wrong.is_central = |at| {
            let top = (at.height / 2 - 23) / 2;
            at.is_near((at.corner().0, top), 32, 24)
        }
    }),
    ("centre by window columns", |wrong| {
        wrong.is_central = |at| {
            let left = (at.width - 64) / 2;
            let is_in = (left..left + 64).contains(&at.column);
            is_in && at.is_near((0, at.corner().1), at.width, 24)
        }
    }),
    ("centre by window rows", |wrong| {
        wrong.is_central = |at| {
            let top = (at.height - 48) / 2;
            let is_in = (top..top + 48).contains(&at.row);
            is_in && at.is_near((at.corner().0, 0), 32, at.height)
        }
    }),
    ("centre at the top left", |wrong| {
        wrong.is_central = |at| at.is_near((0, 0), 32, 24)
    }),
    ("centre on block edges", |wrong| {
        wrong.is_central = |at| {
            let (left, top) = at.corner();
            at.is_near((left / 16 * 16, top / 12 * 12), 32, 24)
        }
    }),
    ("centre 24 wide and 32 high", |wrong| {
        wrong.is_central = |at| at.is_near(at.corner(), 24, 32)
    }),
    ("centre a column short", |wrong| {
        wrong.is_central = |at| at.is_near(at.corner(), 31, 24)
    }),
    ("centre a row short", |wrong| {
        wrong.is_central = |at| at.is_near(at.corner(), 32, 23)
    }),
    ("centre a column long", |wrong| {
        wrong.is_central = |at| at.is_near(at.corner(), 33, 24)
    }),
    ("centre a row long", |wrong| {
        wrong.is_central = |at| at.is_near(at.corner(), 32, 25)
    }),
    ("whole plane for the centre", |wrong| {
        wrong.is_central = |_| true
    }),
    // Both.
    ("centre or block, the centre first", |wrong| {
        wrong.chosen = |block, is_central| match is_central {
            true => (None, true),
            false => (block, false),
        }
    }),
    ("block or centre, the block first", |wrong| {
        wrong.chosen = |block, is_central| (block, is_central && block.is_none())
    }),
    ("centre of sites in blocks alone", |wrong| {
        wrong.chosen = |block, is_central| (block, is_central && block.is_some())
    }),
    // Planes and entries.
    ("parities exchanged", |wrong| {
        wrong.plane = |at| 2 * (at.column % 2) + at.row % 2
    }),
    ("row parity alone", |wrong| wrong.plane = |at| at.row % 2),
    ("planes from below", |wrong| {
        wrong.plane = |at| 2 * (1 - at.row % 2) + at.column % 2
    }),
    ("centre before the blocks", |wrong| {
        wrong.entry = |plane, area, blocks| match area {
            area if area == blocks => plane * (blocks + 1),
            _ => plane * (blocks + 1) + area + 1,
        }
    }),
    ("centres behind all blocks", |wrong| {
        wrong.entry = |plane, area, blocks| match area {
            area if area == blocks => 4 * blocks + plane,
            _ => plane * blocks + area,
        }
    }),
    ("planes side by side", |wrong| {
        wrong.entry = |plane, area, _| 4 * area + plane
    }),
    ("no room for the centre", |wrong| {
        wrong.entry = |plane, area, blocks| plane * blocks + area
    }),
];

/// How a table is made, in parts.
struct Maker {
    grid: Grid,
    is_summed: fn(u8) -> bool,
    is_counted: fn(u8) -> bool,
    /// What is done to the new table, beside the one that was lent.
    end: fn(&mut Table, &Table),
}

const MAKER: Maker = Maker {
    grid: GRID,
    is_summed: |code| code == 0,
    is_counted: |code| code == 0,
    end: |_, _| (),
};

type MakerSlip = fn(&mut Maker);

const MAKER_SLIPS: &[(&str, MakerSlip)] = &[
    ("gaps too", |wrong| take(wrong, |code| code < 2)),
    ("defects too", |wrong| {
        take(wrong, |code| matches!(code, 0 | 2))
    }),
    ("filled too", |wrong| {
        take(wrong, |code| matches!(code, 0 | 3))
    }),
    ("gaps for surveyed sites", |wrong| {
        take(wrong, |code| code == 1)
    }),
    ("counts of all sites", |wrong| wrong.is_counted = |_| true),
    ("totals of all sites", |wrong| wrong.is_summed = |_| true),
    ("totals in 16 bits", |wrong| {
        wrong.end = |made, _| made.totals.iter_mut().for_each(|total| *total %= 1 << 16)
    }),
    ("counts in 8 bits", |wrong| {
        wrong.end = |made, _| made.counts.iter_mut().for_each(|count| *count %= 1 << 8)
    }),
    ("totals for counts", |wrong| {
        wrong.end = |made, _| std::mem::swap(&mut made.totals, &mut made.counts)
    }),
    ("added to what was lent", |wrong| {
        wrong.end = |made, lent| {
            for entry in 0..made.totals.len() {
                made.totals[entry] = made.totals[entry].wrapping_add(lent.totals[entry]);
                made.counts[entry] = made.counts[entry].wrapping_add(lent.counts[entry]);
            }
        }
    }),
    ("entries without a site left as lent", |wrong| {
        wrong.end = |made, lent| {
            for entry in 0..made.totals.len() {
                if made.counts[entry] == 0 {
                    made.totals[entry] = lent.totals[entry];
                    made.counts[entry] = lent.counts[entry];
                }
            }
        }
    }),
    ("last entry left as lent", |wrong| {
        wrong.end = |made, lent| {
            let last = made.totals.len() - 1;
            made.totals[last] = lent.totals[last];
            made.counts[last] = lent.counts[last];
        }
    }),
];

fn take(wrong: &mut Maker, is_taken: fn(u8) -> bool) {
    (wrong.is_summed, wrong.is_counted) = (is_taken, is_taken);
}

impl Maker {
    fn table(&self, window: Window, lent: &Table) -> Table {
        let mut made = Table {
            totals: vec![0; lent.totals.len()],
            counts: vec![0; lent.counts.len()],
        };
        for (site, &code) in window.mask.iter().enumerate() {
            let (is_summed, is_counted) = ((self.is_summed)(code), (self.is_counted)(code));
            if !is_summed && !is_counted {
                continue;
            }
            let spot = Spot::of(window.width, window.height, site);
            let sample = if is_summed { window.frame[site] } else { 0 };
            for entry in self.grid.entries(&spot).into_iter().flatten() {
                made.amend(entry, |total, count| {
                    *total = total.wrapping_add(sample.into());
                    *count += u32::from(is_counted);
                });
            }
        }
        (self.end)(&mut made, lent);
        made
    }
}

/// All that cases of making a table can tell, and the relations of two; a run has to meet each.
pub const TABLE_KINDS: &[&[&str]] = &[
    &names::<{ GRID_SLIPS.len() }, _>(GRID_SLIPS),
    &names::<{ MAKER_SLIPS.len() }, _>(MAKER_SLIPS),
    SIZES[0],
    SIZES[1],
    &[
        "2 before 1",
        "4 before 1",
        "5 before 1",
        "6 before 1",
        "9 before 1",
        "4 before 2",
        "5 before 2",
        "6 before 2",
        "9 before 2",
        "5 before 4",
        "6 before 4",
        "9 before 4",
        "6 before 5",
        "9 before 5",
        "9 before 6",
        "mask one too short",
        "mask one too long",
        "frame one too short",
        "frame one too long",
        "totals one too short",
        "totals one too long",
        "counts one too short",
        "counts one too long",
        "junk changed",
        "junk changed and refused",
    ],
];

/// What a case tells of how a table is made.
pub fn told_of_table(window: Window, lent: &Table) -> Vec<String> {
    let mut made = lent.clone();
    let answer = shading_table(Making {
        window,
        totals: &mut made.totals,
        counts: &mut made.counts,
    });
    let mut told = table_refusals(window, lent, answer.number);
    if answer.number != 0 {
        return told;
    }
    assert_eq!(
        MAKER.table(window, lent),
        made,
        "the parts make up the call"
    );
    let mut tell = |name: &str, wrong: Maker| {
        if wrong.table(window, lent) != made {
            told.push(name.to_string());
        }
    };
    for (name, slip) in GRID_SLIPS {
        let mut wrong = MAKER;
        slip(&mut wrong.grid);
        tell(name, wrong);
    }
    for (name, slip) in MAKER_SLIPS {
        let mut wrong = MAKER;
        slip(&mut wrong);
        tell(name, wrong);
    }
    told
}

/// What a case tells of the refusals alone, `number` being the right one.
pub fn table_refusals(window: Window, lent: &Table, number: u64) -> Vec<String> {
    let sides = Sides {
        width: window.width,
        height: window.height,
    };
    let buffers = window_lengths(sides, window.mask.len(), window.frame.len(), lent);
    let codes_and_samples = || window.mask.iter().zip(window.frame);
    let is_over =
        |(&code, &sample): (&u8, &u16)| code == 0 && u64::from(sample) > window.full_scale;
    let tests = [
        (1, sides.are_illegal()),
        (2, is_bad_scale(window.full_scale)),
        (4, buffers.iter().any(|one| one.lent != one.needed)),
        (5, window.mask.iter().any(|code| *code > 3)),
        (6, codes_and_samples().any(is_over)),
        (9, sides.are_small()),
    ];
    told_of_refusals(&tests, &buffers, sides, lent, number)
}

fn is_bad_scale(full_scale: u64) -> bool {
    full_scale == 0 || full_scale > 4095
}

fn window_lengths(sides: Sides, mask: usize, frame: usize, table: &Table) -> [Length; 4] {
    let (sites, entries) = (sides.sites(), sides.entries());
    [
        ("mask", mask, sites),
        ("frame", frame, sites),
        ("totals", table.totals.len(), entries),
        ("counts", table.counts.len(), entries),
    ]
    .map(|(buffer, lent, needed)| Length {
        buffer,
        lent,
        needed,
    })
}

fn told_of_refusals(
    tests: &[Test],
    buffers: &[Length; 4],
    sides: Sides,
    table: &Table,
    number: u64,
) -> Vec<String> {
    let first = tests.iter().find(|test| test.1).map_or(0, |test| test.0);
    assert_eq!(first, number, "the tests make up the refusals");
    let mut told = orders(tests);
    told.extend(lengths(buffers, number));
    if buffers[0].lent == buffers[0].needed && buffers[1].lent == buffers[1].needed {
        let table = [table.totals.len(), table.counts.len()];
        told.extend(sizes(sides, table, number));
    }
    told
}

/// What changing one code is lent.
#[derive(Clone, Copy)]
pub struct Recode<'a> {
    pub window: Window<'a>,
    pub site: usize,
    pub code: u64,
    pub table: &'a Table,
}

impl Recode<'_> {
    /// The code at the site, 0 where there is none.
    fn old(&self) -> u64 {
        self.at(self.site).0
    }

    /// Code and sample of a site; both 0 outside.
    fn at(&self, site: usize) -> (u64, u64) {
        match (self.window.mask.get(site), self.window.frame.get(site)) {
            (Some(&code), Some(&sample)) => (code.into(), sample.into()),
            _ => (0, 0),
        }
    }

    fn sites(&self) -> usize {
        self.window.width * self.window.height
    }

    fn spot(&self) -> Spot {
        Spot::of(self.window.width, self.window.height, self.site)
    }

    fn is_over(&self, site: usize) -> bool {
        let (code, sample) = self.at(site);
        code == 0 && sample > self.window.full_scale
    }
}

/// What a call comes to: its answer, the mask's new code, and the table.
#[derive(PartialEq)]
struct Recoded {
    answer: Answer,
    /// Site and code that are written.
    written: Option<(usize, u8)>,
    table: Table,
}

/// How one code is changed, in parts.
struct Recoder {
    grid: Grid,
    /// The site, as it is read.
    site: fn(usize) -> usize,
    /// The new code, as it is read.
    code: fn(u64) -> u64,
    is_outside: fn(&Recode) -> bool,
    /// Refusal 5, by its place.
    bad_code: fn(&Recode) -> Option<usize>,
    /// Refusal 6, by its place and count.
    over: fn(&Recode) -> Option<(usize, u64)>,
    /// Place at 3.
    outside: fn(&Recode) -> usize,
    /// Refusal 11, which is not asked here.
    is_impossible: fn(&Recode) -> bool,
    sample: fn(&Recode) -> u64,
    spot: fn(&Recode) -> Spot,
    old: fn(&Recode) -> u64,
    /// How often the site counts now, less how often it did, of old code and new.
    step: fn(u64, u64) -> i64,
    /// An entry of totals, or of counts, and what is added to it.
    add_total: fn(u32, i64) -> u32,
    add_count: fn(u32, i64) -> u32,
    /// What is written for the new code.
    written: fn(&Recode) -> Option<(usize, u8)>,
}

const RECODER: Recoder = Recoder {
    grid: GRID,
    site: |site| site,
    code: |code| code,
    is_outside: |lent| lent.site >= lent.sites(),
    bad_code: |lent| (lent.old() > 3 || lent.code > 3).then_some(lent.site),
    over: |lent| {
        let (old, sample) = lent.at(lent.site);
        let is_over = sample > lent.window.full_scale && (old == 0 || lent.code == 0);
        is_over.then_some((lent.site, 1))
    },
    outside: |_| 0,
    is_impossible: |_| false,
    sample: |lent| lent.at(lent.site).1,
    spot: |lent| lent.spot(),
    old: |lent| lent.old(),
    step: |old, new| i64::from(new == 0) - i64::from(old == 0),
    add_total: wrapped,
    add_count: wrapped,
    written: |lent| Some((lent.site, lent.code as u8)),
};

fn wrapped(entry: u32, by: i64) -> u32 {
    entry.wrapping_add(by as u32)
}

fn held(entry: u32, by: i64) -> u32 {
    (i64::from(entry) + by).clamp(0, u32::MAX.into()) as u32
}

fn in_31_bits(entry: u32, by: i64) -> u32 {
    (i64::from(entry) + by).rem_euclid(1 << 31) as u32
}

type RecoderSlip = fn(&mut Recoder);

const RECODER_SLIPS: &[(&str, RecoderSlip)] = &[
    // What is added.
    ("adds where it takes off", |wrong| {
        wrong.step = |old, new| i64::from((new == 0) != (old == 0))
    }),
    ("takes off where it adds", |wrong| {
        wrong.step = |old, new| -i64::from((new == 0) != (old == 0))
    }),
    ("adds and takes off exchanged", |wrong| {
        wrong.step = |old, new| i64::from(old == 0) - i64::from(new == 0)
    }),
    ("never takes off", |wrong| {
        wrong.step = |old, new| i64::from(new == 0 && old != 0)
    }),
    ("never adds", |wrong| {
        wrong.step = |old, new| -i64::from(old == 0 && new != 0)
    }),
    ("adds for 0 to 0", |wrong| {
        wrong.step = |old, new| match new {
            0 => 1,
            _ => -i64::from(old == 0),
        }
    }),
    ("takes off for 0 to 0", |wrong| {
        wrong.step = |old, new| match old {
            0 => -1,
            _ => i64::from(new == 0),
        }
    }),
    ("takes off for any code but 0", |wrong| {
        wrong.step = |old, new| match new {
            0 => i64::from(old != 0),
            _ => -1,
        }
    }),
    ("takes off for a gap alone", |wrong| {
        wrong.step = |old, new| i64::from(new == 0 && old != 0) - i64::from(old == 0 && new == 1)
    }),
    ("takes off for a defect alone", |wrong| {
        wrong.step = |old, new| i64::from(new == 0 && old != 0) - i64::from(old == 0 && new == 2)
    }),
    ("no gap to 0", |wrong| {
        wrong.step = |old, new| i64::from(new == 0 && old > 1) - i64::from(old == 0 && new != 0)
    }),
    ("no defect to 0", |wrong| {
        wrong.step = |old, new| {
            let adds = new == 0 && matches!(old, 1 | 3);
            i64::from(adds) - i64::from(old == 0 && new != 0)
        }
    }),
    ("no filled site to 0", |wrong| {
        wrong.step = |old, new| {
            let adds = new == 0 && matches!(old, 1 | 2);
            i64::from(adds) - i64::from(old == 0 && new != 0)
        }
    }),
    ("total left unamended", |wrong| {
        wrong.add_total = |total, _| total
    }),
    ("count left unamended", |wrong| {
        wrong.add_count = |count, _| count
    }),
    ("total by 1", |wrong| {
        wrong.add_total = |total, by| wrapped(total, by.signum())
    }),
    ("totals held at their ends", |wrong| wrong.add_total = held),
    ("counts held at their ends", |wrong| wrong.add_count = held),
    ("totals modulo 2^31", |wrong| wrong.add_total = in_31_bits),
    ("counts modulo 2^31", |wrong| wrong.add_count = in_31_bits),
    ("counts modulo 2^16", |wrong| {
        wrong.add_count = |count, by| match by {
            0 => count,
            _ => wrapped(count, by) % (1 << 16),
        }
    }),
    // Another site.
    ("sample of the next site", |wrong| {
        wrong.sample = |lent| lent.at(lent.site + 1).1
    }),
    ("sample of the site before", |wrong| {
        wrong.sample = |lent| lent.at(lent.site.wrapping_sub(1)).1
    }),
    ("sample of the first site", |wrong| {
        wrong.sample = |lent| lent.at(0).1
    }),
    ("old code of the next site", |wrong| {
        wrong.old = |lent| lent.at(lent.site + 1).0
    }),
    ("old code of the first site", |wrong| {
        wrong.old = |lent| lent.at(0).0
    }),
    ("5 of the whole mask", |wrong| {
        wrong.bad_code = |lent| {
            let mut sites = 0..lent.sites();
            let other = sites.find(|site| lent.at(*site).0 > 3);
            (RECODER.bad_code)(lent).or(other)
        }
    }),
    ("5 of the next site", |wrong| {
        wrong.bad_code = |lent| {
            let is_bad = lent.at(lent.site + 1).0 > 3;
            (RECODER.bad_code)(lent).or(is_bad.then_some(lent.site + 1))
        }
    }),
    ("6 of the whole frame", |wrong| {
        wrong.over = |lent| {
            let other = (0..lent.sites()).find(|site| lent.is_over(*site));
            (RECODER.over)(lent).or(other.map(|site| (site, 1)))
        }
    }),
    ("6 counted over the frame", |wrong| {
        wrong.over = |lent| {
            let (place, _) = (RECODER.over)(lent)?;
            let others = (0..lent.sites()).filter(|site| *site != place && lent.is_over(*site));
            Some((place, 1 + others.count() as u64))
        }
    }),
    ("6 of the next site", |wrong| {
        wrong.over = |lent| {
            let is_over = lent.is_over(lent.site + 1);
            (RECODER.over)(lent).or(is_over.then_some((lent.site + 1, 1)))
        }
    }),
    ("height for width", |wrong| {
        wrong.spot = |lent| {
            let (width, height) = (lent.window.width, lent.window.height);
            let (row, column) = (lent.site / height, lent.site % height);
            Spot {
                width,
                height,
                row,
                column,
            }
        }
    }),
    ("row and column exchanged", |wrong| {
        wrong.spot = |lent| {
            let spot = lent.spot();
            Spot {
                row: spot.column,
                column: spot.row,
                ..spot
            }
        }
    }),
    ("code written at the first site", |wrong| {
        wrong.written = |lent| Some((0, lent.code as u8))
    }),
    ("code not written", |wrong| wrong.written = |_| None),
    ("code written only where the table is amended", |wrong| {
        wrong.written = |lent| {
            let is_amended = (lent.code == 0) != (lent.old() == 0);
            is_amended.then_some((lent.site, lent.code as u8))
        }
    }),
    ("gap never recoded", |wrong| {
        wrong.written = |lent| (lent.old() != 1).then_some((lent.site, lent.code as u8))
    }),
    // Refusals 3, 5 and 6.
    ("site at the window's end accepted", |wrong| {
        wrong.is_outside = |lent| lent.site > lent.sites()
    }),
    ("last site refused", |wrong| {
        wrong.is_outside = |lent| lent.site >= lent.sites() - 1
    }),
    ("site in 16 bits", |wrong| {
        wrong.site = |site| site % (1 << 16)
    }),
    ("site in 32 bits", |wrong| {
        wrong.site = |site| site % (1 << 32)
    }),
    ("site as place at 3", |wrong| {
        wrong.outside = |lent| lent.site
    }),
    ("code in 2 bits", |wrong| wrong.code = |code| code % 4),
    ("code in 8 bits", |wrong| {
        wrong.code = |code| code % (1 << 8)
    }),
    ("code in 32 bits", |wrong| {
        wrong.code = |code| code % (1 << 32)
    }),
    ("code of 4 accepted", |wrong| {
        wrong.bad_code = |lent| (lent.old() > 4 || lent.code > 4).then_some(lent.site)
    }),
    ("code of 3 refused", |wrong| {
        wrong.bad_code = |lent| (lent.old() > 2 || lent.code > 2).then_some(lent.site)
    }),
    ("no 5 of the old code", |wrong| {
        wrong.bad_code = |lent| (lent.code > 3).then_some(lent.site)
    }),
    ("no 5 of the new code", |wrong| {
        wrong.bad_code = |lent| (lent.old() > 3).then_some(lent.site)
    }),
    ("gap refused", |wrong| {
        wrong.bad_code =
            |lent| (lent.old() > 3 || lent.old() == 1 || lent.code > 3).then_some(lent.site)
    }),
    ("place 0 at 5", |wrong| {
        wrong.bad_code = |lent| (RECODER.bad_code)(lent).map(|_| 0)
    }),
    ("no 6 by the old code", |wrong| {
        wrong.over = |lent| (RECODER.over)(lent).filter(|_| lent.code == 0)
    }),
    ("no 6 by the new code", |wrong| {
        wrong.over = |lent| (RECODER.over)(lent).filter(|_| lent.old() == 0)
    }),
    ("6 by both codes alone", |wrong| {
        wrong.over = |lent| (RECODER.over)(lent).filter(|_| lent.old() == lent.code)
    }),
    ("no 6 for 0 to 0", |wrong| {
        wrong.over = |lent| (RECODER.over)(lent).filter(|_| lent.old() != lent.code)
    }),
    ("6 at any code", |wrong| {
        wrong.over =
            |lent| (lent.at(lent.site).1 > lent.window.full_scale).then_some((lent.site, 1))
    }),
    ("6 at full scale", |wrong| {
        wrong.over = |lent| {
            let (old, sample) = lent.at(lent.site);
            let is_over = sample >= lent.window.full_scale && (old == 0 || lent.code == 0);
            is_over.then_some((lent.site, 1))
        }
    }),
    ("place 0 at 6", |wrong| {
        wrong.over = |lent| (RECODER.over)(lent).map(|(_, count)| (0, count))
    }),
    ("no count at 6", |wrong| {
        wrong.over = |lent| (RECODER.over)(lent).map(|(place, _)| (place, 0))
    }),
    ("11 of the table", |wrong| {
        wrong.is_impossible = |lent| {
            let blocks = lent.spot().blocks();
            let mut entries = lent.table.totals.iter().zip(&lent.table.counts).enumerate();
            entries.any(|(entry, (&total, &count))| {
                let most = u64::from(count) * lent.window.full_scale;
                count as usize > sites_in(entry, blocks) || u64::from(total) > most
            })
        }
    }),
    ("11 where an entry wraps", |wrong| {
        wrong.is_impossible = |lent| {
            let step = (RECODER.step)(lent.old(), lent.code);
            let by = step * lent.at(lent.site).1 as i64;
            let mut entries = GRID.entries(&lent.spot()).into_iter().flatten();
            entries.any(|entry| {
                let (total, count) = (lent.table.totals[entry], lent.table.counts[entry]);
                held(total, by) != wrapped(total, by) || held(count, step) != wrapped(count, step)
            })
        }
    }),
];

impl Recoder {
    /// Where no refusal comes before 3, and lengths and planes are right.
    fn recoded(&self, lent: Recode) -> Recoded {
        let lent = Recode {
            site: (self.site)(lent.site),
            code: (self.code)(lent.code),
            ..lent
        };
        let mut table = lent.table.clone();
        if let Err(refusal) = self.judged(&lent) {
            return Recoded {
                answer: settle(Err(refusal), 0),
                written: None,
                table,
            };
        }
        let step = (self.step)((self.old)(&lent), lent.code);
        let by = step * (self.sample)(&lent) as i64;
        for entry in self.grid.entries(&(self.spot)(&lent)).into_iter().flatten() {
            table.amend(entry, |total, count| {
                *total = (self.add_total)(*total, by);
                *count = (self.add_count)(*count, step);
            });
        }
        Recoded {
            answer: settle(Ok(vec![]), 0),
            // The same code is no change.
            written: (self.written)(&lent)
                .filter(|(site, code)| lent.at(*site).0 != u64::from(*code)),
            table,
        }
    }

    fn judged(&self, lent: &Recode) -> Result<(), Refusal> {
        if (self.is_outside)(lent) {
            return Err(Refusal::new(3, (self.outside)(lent) as u64));
        }
        if let Some(place) = (self.bad_code)(lent) {
            return Err(Refusal::new(5, place as u64));
        }
        if let Some((place, over)) = (self.over)(lent) {
            return Err(Refusal {
                number: 6,
                place: place as u64,
                over,
            });
        }
        match (self.is_impossible)(lent) {
            true => Err(Refusal::new(11, 0)),
            false => Ok(()),
        }
    }
}

/// All that cases of changing a code can tell, and the relations; a run has to meet each.
pub const RECODE_KINDS: &[&[&str]] = &[
    &names::<{ GRID_SLIPS.len() }, _>(GRID_SLIPS),
    &names::<{ RECODER_SLIPS.len() }, _>(RECODER_SLIPS),
    SIZES[0],
    SIZES[1],
    &[
        "2 before 1",
        "3 before 1",
        "4 before 1",
        "5 before 1",
        "6 before 1",
        "9 before 1",
        "3 before 2",
        "4 before 2",
        "5 before 2",
        "6 before 2",
        "9 before 2",
        "4 before 3",
        "5 before 3",
        "6 before 3",
        "9 before 3",
        "5 before 4",
        "6 before 4",
        "9 before 4",
        "6 before 5",
        "9 before 5",
        "9 before 6",
        "mask one too short",
        "mask one too long",
        "frame one too short",
        "frame one too long",
        "totals one too short",
        "totals one too long",
        "counts one too short",
        "counts one too long",
        "in a block alone",
        "in the centre alone",
        "in both",
        "in neither",
        "made afresh",
        "recoded and back",
        "other sites changed",
        "other sites changed and refused",
        "unsurveyed sample changed",
    ],
];

/// What a case tells of how one code is changed.
pub fn told_of_recode(lent: Recode) -> Vec<String> {
    let (mut mask, mut table) = (lent.window.mask.to_vec(), lent.table.clone());
    let answer = shading_recode(Recoding {
        width: lent.window.width,
        height: lent.window.height,
        full_scale: lent.window.full_scale,
        site: lent.site,
        code: lent.code,
        mask: &mut mask,
        frame: lent.window.frame,
        totals: &mut table.totals,
        counts: &mut table.counts,
    });
    let mut told = recode_refusals(lent, answer.number);
    if matches!(answer.number, 1 | 2 | 4 | 9) {
        return told;
    }
    let sides = Sides {
        width: lent.window.width,
        height: lent.window.height,
    };
    // At 3, 5 and 6 a length may be wrong, or a plane small, besides.
    let [mask_len, frame_len] = [lent.window.mask.len(), lent.window.frame.len()];
    let buffers = window_lengths(sides, mask_len, frame_len, lent.table);
    if sides.are_small() || buffers.iter().any(|one| one.lent != one.needed) {
        return told;
    }
    let written = (0..mask.len()).find(|site| mask[*site] != lent.window.mask[*site]);
    let right = Recoded {
        answer,
        written: written.map(|site| (site, mask[site])),
        table,
    };
    let is_right = RECODER.recoded(lent) == right;
    assert!(is_right, "the parts make up the call");
    let mut tell = |name: &str, wrong: Recoder| {
        if wrong.recoded(lent) != right {
            told.push(name.to_string());
        }
    };
    for (name, slip) in GRID_SLIPS {
        let mut wrong = RECODER;
        slip(&mut wrong.grid);
        tell(name, wrong);
    }
    for (name, slip) in RECODER_SLIPS {
        let mut wrong = RECODER;
        slip(&mut wrong);
        tell(name, wrong);
    }
    if right.answer.number == 0 {
        told.push(lies(&lent.spot()).to_string());
    }
    told
}

/// In which areas a site lies.
fn lies(at: &Spot) -> &'static str {
    match ((GRID.block)(at), (GRID.is_central)(at)) {
        (Some(_), false) => "in a block alone",
        (None, true) => "in the centre alone",
        (Some(_), true) => "in both",
        (None, false) => "in neither",
    }
}

fn recode_refusals(lent: Recode, number: u64) -> Vec<String> {
    let window = lent.window;
    let sides = Sides {
        width: window.width,
        height: window.height,
    };
    let buffers = window_lengths(sides, window.mask.len(), window.frame.len(), lent.table);
    let tests = [
        (1, sides.are_illegal()),
        (2, is_bad_scale(window.full_scale)),
        (3, lent.site >= sides.sites()),
        (4, buffers.iter().any(|one| one.lent != one.needed)),
        (5, (RECODER.bad_code)(&lent).is_some()),
        (6, (RECODER.over)(&lent).is_some()),
        (9, sides.are_small()),
    ];
    told_of_refusals(&tests, &buffers, sides, lent.table, number)
}

const UNREAD: &str = "with other samples at unsurveyed sites the table is not the same";
const AFRESH: &str = "the recoded table is not the one made afresh";
const BACK: &str = "recoded and back, mask and table are not as they were";
const UNMOVED: &str = "what is not to be read changes what is done";

/// Samples at codes 1 to 3 change nothing.
pub fn unread(one: (&Answer, &Table), other: (&Answer, &Table)) -> Law {
    keep(one == other, UNREAD)
}

/// A table made under the old mask, and then recoded, is the new mask's; both are accepted.
pub fn afresh(recoded: (&Answer, &Table), made: (&Answer, &Table)) -> Law {
    let are_accepted = recoded.0.number == 0 && made.0.number == 0;
    keep(are_accepted && recoded.1 == made.1, AFRESH)
}

/// The way back is accepted too, and leaves what was lent on the way there.
pub fn back(before: (&[u8], &Table), there: &Answer, back: &Answer, after: (&[u8], &Table)) -> Law {
    let are_accepted = there.number == 0 && back.number == 0;
    keep(are_accepted && before == after, BACK)
}

/// What a change of code answers, and leaves at its site and in the table.
#[derive(Clone, PartialEq, Eq)]
pub struct Found {
    pub answer: Answer,
    pub code: u8,
    pub table: Table,
}

/// What other sites hold was changed, or the site's own sample under two codes that are not 0.
pub fn unmoved(one: &Found, other: &Found) -> Law {
    keep(one == other, UNMOVED)
}

#[cfg(test)]
mod tests {
    use super::*;
    use crate::shading::entries_of;

    /// Those of the slips that are told.
    fn among<'a>(slips: &[&'a str], told: &[String]) -> Vec<&'a str> {
        let is_told = |slip: &&&str| told.iter().any(|told| told == *slip);
        slips.iter().filter(is_told).copied().collect()
    }

    fn of(total: u32, count: u32, width: usize, height: usize) -> Table {
        let entries = entries_of(width, height);
        Table {
            totals: vec![total; entries],
            counts: vec![count; entries],
        }
    }

    fn window<'a>(width: usize, height: usize, mask: &'a [u8], frame: &'a [u16]) -> Window<'a> {
        Window {
            width,
            height,
            full_scale: 1023,
            mask,
            frame,
        }
    }

    /// What a window tells that has one surveyed site, in plane (0,0), and gaps.
    fn told_alone(width: usize, height: usize, row: usize, column: usize) -> Vec<String> {
        let mut mask = vec![1; width * height];
        let mut frame = vec![0; width * height];
        let site = 2 * row * width + 2 * column;
        (mask[site], frame[site]) = (0, 500);
        let lent = of(0, 0, width, height);
        told_of_table(window(width, height, &mask, &frame), &lent)
    }

    #[test]
    fn no_two_kinds_have_one_name() {
        for kinds in [TABLE_KINDS, RECODE_KINDS] {
            let mut names: Vec<&str> = kinds.concat();
            names.sort();
            let all = names.len();
            names.dedup();
            assert_eq!(names.len(), all);
        }
    }

    /// Planes of 49 x 37 with a column and a row left over, and the centre from (6, 8) to (29, 39).
    #[test]
    fn sites_at_edges_tell_where_blocks_end() {
        let slips = [
            "block 12 wide and 16 high",
            "block 12 wide",
            "block 16 high",
            "left-over column in the last block",
            "left-over row in the last block",
            "left-over column in the next row of blocks",
            "left-over row behind the blocks",
            "centre left out",
            "centre or block, the centre first",
            "centre a column long",
        ];
        for (row, column, told) in [
            (0, 0, &[][..]),
            (0, 12, &slips[..2]),
            (12, 0, &[slips[0], slips[2]]),
            (0, 48, &[slips[3], slips[5]]),
            (36, 0, &[slips[0], slips[2], slips[4], slips[6]]),
            (6, 8, &slips[7..9]),
            (6, 40, &[slips[0], slips[1], slips[9]]),
        ] {
            assert_eq!(among(&slips, &told_alone(98, 74, row, column)), told);
        }
    }

    /// Planes of 33 x 25: the centre begins at (0, 0).
    #[test]
    fn odd_rests_tell_how_the_centre_is_rounded() {
        let slips = [
            "centre from a column rounded up",
            "centre from a row rounded up",
            "centre by window columns",
            "centre a row long",
        ];
        for (row, column, told) in [
            (0, 0, &slips[..3]),
            (1, 1, &[]),
            (24, 1, &[slips[1], slips[3]]),
            (1, 32, &[slips[0], slips[2]]),
        ] {
            assert_eq!(among(&slips, &told_alone(66, 50, row, column)), told);
        }
    }

    #[test]
    fn lent_tables_tell_whether_they_are_cleared() {
        let slips = [
            "added to what was lent",
            "entries without a site left as lent",
            "last entry left as lent",
        ];
        let (mask, frame) = ([0; 64 * 48], [100; 64 * 48]);
        let full = window(64, 48, &mask, &frame);
        let told = told_of_table(full, &of(7, 7, 64, 48));
        assert_eq!(among(&slips, &told), [slips[0], slips[2]]);
        let gaps = [1; 64 * 48];
        let empty = window(64, 48, &gaps, &frame);
        assert_eq!(
            among(&slips, &told_of_table(empty, &of(7, 7, 64, 48))),
            slips
        );
        let told = told_of_table(empty, &of(0, 0, 64, 48));
        assert_eq!(among(&slips, &told), [""; 0]);
    }

    #[test]
    fn codes_tell_what_is_counted() {
        let slips = [
            "gaps too",
            "defects too",
            "filled too",
            "totals of all sites",
        ];
        for code in 0..4 {
            let mut mask = [0; 64 * 48];
            mask[5] = code;
            let frame = [100; 64 * 48];
            let told = told_of_table(window(64, 48, &mask, &frame), &of(0, 0, 64, 48));
            let told = among(&slips, &told);
            match code {
                0 => assert_eq!(told, [""; 0]),
                code => assert_eq!(told, [slips[code as usize - 1], slips[3]]),
            }
        }
    }

    /// 98 x 74, at a site of block (1,1) of plane (0,0) that is in the centre too.
    const SITE: usize = 98 * 24 + 32;

    /// What is told by a site that goes from one code to another, its sample being 500, in this
    /// table; all other sites are surveyed and hold 500 too, but for the next one.
    fn told_by(old: u8, code: u64, next: (u8, u16), table: &Table) -> Vec<String> {
        let (mut mask, mut frame) = (vec![0; 98 * 74], vec![500; 98 * 74]);
        mask[SITE] = old;
        (mask[SITE + 1], frame[SITE + 1]) = next;
        told_of_recode(Recode {
            window: window(98, 74, &mask, &frame),
            site: SITE,
            code,
            table,
        })
    }

    #[test]
    fn pairs_of_codes_tell_what_is_amended() {
        let slips = [
            "adds where it takes off",
            "takes off where it adds",
            "adds for 0 to 0",
            "takes off for 0 to 0",
            "takes off for any code but 0",
            "code not written",
            "centre left out",
        ];
        let table = of(50_000, 100, 98, 74);
        for (old, code, told) in [
            (0, 0, &slips[2..4]),
            (0, 1, &[slips[0], slips[5], slips[6]]),
            (1, 0, &[slips[1], slips[5], slips[6]]),
            (1, 2, &slips[4..6]),
            (3, 3, &slips[4..5]),
        ] {
            assert_eq!(among(&slips, &told_by(old, code, (0, 500), &table)), told);
        }
    }

    #[test]
    fn the_next_site_tells_where_it_is_read() {
        let slips = [
            "sample of the next site",
            "old code of the next site",
            "5 of the whole mask",
            "5 of the next site",
            "6 of the whole frame",
            "6 of the next site",
        ];
        let table = of(50_000, 100, 98, 74);
        for (next, told) in [
            ((0, 500), &[][..]),
            ((0, 501), &slips[..1]),
            ((1, 500), &slips[1..2]),
            ((4, 500), &slips[1..4]),
            ((0, 1024), &[slips[0], slips[4], slips[5]]),
        ] {
            assert_eq!(among(&slips, &told_by(0, 1, next, &table)), told);
        }
    }

    #[test]
    fn ends_of_the_table_tell_how_it_wraps() {
        let slips = [
            "totals held at their ends",
            "counts held at their ends",
            "totals modulo 2^31",
            "counts modulo 2^16",
            "11 of the table",
            "11 where an entry wraps",
        ];
        for (old, code, table, told) in [
            (0, 1, of(50_000, 100, 98, 74), &[][..]),
            (0, 1, of(499, 1, 98, 74), &[0, 2, 5]),
            (0, 1, of(500, 0, 98, 74), &[1, 3, 4, 5]),
            (0, 1, of(0, 0, 98, 74), &[0, 1, 2, 3, 5]),
            (0, 0, of(0, 0, 98, 74), &[]),
            (1, 0, of(u32::MAX, u32::MAX, 98, 74), &[0, 1, 4, 5]),
        ] {
            let told: Vec<&str> = told.iter().map(|at| slips[*at]).collect();
            assert_eq!(among(&slips, &told_by(old, code, (0, 500), &table)), told);
        }
    }

    #[test]
    fn areas_are_met() {
        let frame = vec![500; 94 * 70];
        let mask = vec![0; 94 * 70];
        let table = of(0, 0, 94, 70);
        // Planes of 47 x 35: blocks to column 31 and row 23, the centre from (5, 7) to (28, 38).
        for (row, column, kind) in [
            (0, 0, "in a block alone"),
            (5, 7, "in both"),
            (28, 38, "in the centre alone"),
            (34, 46, "in neither"),
        ] {
            let told = told_of_recode(Recode {
                window: window(94, 70, &mask, &frame),
                site: 2 * row * 94 + 2 * column,
                code: 1,
                table: &table,
            });
            assert!(told.iter().any(|told| told == kind));
        }
    }

    #[test]
    fn two_refusals_tell_their_order() {
        let (mut mask, mut frame) = (vec![0; 62 * 48], vec![500; 62 * 48]);
        (mask[9], frame[7]) = (4, 1024);
        let table = of(0, 0, 62, 48);
        let told = told_of_table(window(62, 48, &mask, &frame), &table);
        let orders = ["6 before 5", "9 before 5", "9 before 6", "5 before 4"];
        assert_eq!(among(&orders, &told), orders[..2]);
        let lent = Recode {
            window: window(62, 48, &mask, &frame),
            site: 7,
            code: 1,
            table: &table,
        };
        assert_eq!(among(&orders, &told_of_recode(lent)), orders[2..3]);
        let lent = Recode { code: 4, ..lent };
        assert_eq!(among(&orders, &told_of_recode(lent)), orders[..2]);
    }

    #[test]
    fn laws_that_are_kept_and_broken() {
        let (one, other) = (of(500, 1, 64, 48), of(501, 1, 64, 48));
        let (yes, no) = (settle(Ok(vec![]), 0), settle(Err(Refusal::new(9, 0)), 0));
        assert_eq!(unread((&yes, &one), (&yes, &one)), Ok(()));
        assert_eq!(unread((&yes, &one), (&yes, &other)), Err(UNREAD));
        assert_eq!(unread((&yes, &one), (&no, &one)), Err(UNREAD));
        assert_eq!(afresh((&yes, &one), (&yes, &one)), Ok(()));
        assert_eq!(afresh((&yes, &one), (&yes, &other)), Err(AFRESH));
        assert_eq!(afresh((&no, &one), (&no, &one)), Err(AFRESH));
        let (mask, changed): (&[u8], &[u8]) = (&[0, 1], &[1, 1]);
        assert_eq!(back((mask, &one), &yes, &yes, (mask, &one)), Ok(()));
        assert_eq!(back((mask, &one), &yes, &no, (mask, &one)), Err(BACK));
        assert_eq!(back((mask, &one), &yes, &yes, (changed, &one)), Err(BACK));
        assert_eq!(back((mask, &one), &yes, &yes, (mask, &other)), Err(BACK));
        let found = Found {
            answer: yes,
            code: 1,
            table: one,
        };
        assert_eq!(unmoved(&found, &found.clone()), Ok(()));
        for broken in [
            Found {
                answer: no,
                ..found.clone()
            },
            Found {
                code: 2,
                ..found.clone()
            },
            Found {
                table: other,
                ..found.clone()
            },
        ] {
            assert_eq!(unmoved(&found, &broken), Err(UNMOVED));
        }
    }
}
