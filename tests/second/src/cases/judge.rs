//! Cases of judging a block table (document 02, j).

use reference::colour::{plane_of, Colour};
use reference::shades::{self, Judged};
use reference::shading::{self, blocks_of, sites_in, Judging, Verdicts};
use reference::shared::Answer;

use super::dice::Dice;
use super::recode::Recode;
use super::shapes::{self, Shape};
use super::spoil;
use super::tables::{self, Table, LEAST};
use super::tally::{Asked, Case, Tally};
use super::windows::{self, Window};
use crate::library::{self, Lent};

#[derive(Clone, Debug, PartialEq)]
struct Judge {
    width: usize,
    height: usize,
    full_scale: u64,
    black_level: u64,
    bayer_order: u64,
    limit: u64,
    totals: Lent<u32>,
    counts: Lent<u32>,
    numerators: Lent<u64>,
    denominators: Lent<u64>,
    refusals: Lent<u8>,
    fails: Lent<u8>,
}

impl Case for Judge {
    fn reference(&mut self) -> Answer {
        let lent = Judging {
            width: self.width,
            height: self.height,
            full_scale: self.full_scale,
            black_level: self.black_level,
            bayer_order: self.bayer_order,
            limit: self.limit,
            totals: &self.totals,
            counts: &self.counts,
            lengths: self.lengths(),
        };
        let written = Verdicts {
            numerators: &mut self.numerators,
            denominators: &mut self.denominators,
            refusals: &mut self.refusals,
            fails: &mut self.fails,
        };
        shading::shading_judge(lent, written)
    }

    fn library(&mut self) -> Answer {
        library::shading::shading_judge(library::shading::Judging {
            width: self.width,
            height: self.height,
            full_scale: self.full_scale,
            black_level: self.black_level,
            bayer_order: self.bayer_order,
            limit: self.limit,
            table: library::shading::Table {
                totals: &mut self.totals,
                counts: &mut self.counts,
            },
            numerators: &mut self.numerators,
            denominators: &mut self.denominators,
            refusals: &mut self.refusals,
            fails: &mut self.fails,
        })
    }
}

impl Judge {
    /// What is written holds any numbers before.
    fn of_table(
        shape: Shape,
        full_scale: u64,
        totals: Vec<u32>,
        counts: Vec<u32>,
        dice: &mut Dice,
    ) -> Self {
        let places = totals.len() / 2 - 2;
        let any = dice.between(0, full_scale.min(4095));
        let wide: Vec<u64> = (0..places).map(|_| dice.draw()).collect();
        let bytes: Vec<u8> = (0..places).map(|_| dice.draw() as u8).collect();
        Judge {
            width: shape.width,
            height: shape.height,
            full_scale,
            black_level: dice.among(&[0, 64.min(full_scale), full_scale, any]),
            bayer_order: dice.between(0, 3),
            limit: dice.between(1, 16),
            totals: Lent::new("totals", totals),
            counts: Lent::new("counts", counts),
            numerators: Lent::new("numerators", wide.clone()),
            denominators: Lent::new("denominators", wide),
            refusals: Lent::new("refusals", bytes.clone()),
            fails: Lent::new("fails", bytes),
        }
    }

    /// Entries that a frame can give, mostly above the black level, for any shape.
    fn of_shape(shape: Shape, dice: &mut Dice) -> Self {
        let length = tables::entries(shape);
        let full_scale = windows::full_scale(dice);
        let empty = vec![0; length];
        let mut case = Judge::of_table(shape, full_scale, empty.clone(), empty, dice);
        let style = dice.below(4);
        for entry in 0..length {
            case.redraw(entry, style, dice);
        }
        case
    }

    /// Another entry that a frame can give.
    fn redraw(&mut self, entry: usize, style: usize, dice: &mut Dice) {
        let sites = sites_in(entry, self.totals.len() / 4 - 1) as u64;
        let any = dice.between(1, sites);
        let count = match style {
            0 => sites,
            1 => any,
            _ => dice.among(&[sites, sites, sites - 1, any, any, 1, 0]),
        };
        let most = count * self.full_scale;
        let black = (count * self.black_level).min(most);
        let (anywhere, above) = (dice.between(0, most), dice.between(black, most));
        let total = match style {
            3 => dice.among(&[anywhere, black, most, 0]),
            _ => dice.among(&[above, above, above, above, black.saturating_sub(1)]),
        };
        (self.totals[entry], self.counts[entry]) = (total as u32, count as u32);
    }

    fn legal(dice: &mut Dice) -> Self {
        let shape = tables::shape(dice);
        Judge::of_shape(shape, dice)
    }

    fn lengths(&self) -> [usize; 4] {
        [
            self.numerators.len(),
            self.denominators.len(),
            self.refusals.len(),
            self.fails.len(),
        ]
    }

    fn blocks(&self) -> usize {
        blocks_of(self.width, self.height)
    }

    /// The entry of a plane's area.
    fn entry(&self, plane: usize, area: usize) -> usize {
        plane * (self.blocks() + 1) + area
    }

    fn spoil_length(&mut self, dice: &mut Dice) {
        match dice.below(6) {
            0 => spoil::length(&mut self.totals, dice),
            1 => spoil::length(&mut self.counts, dice),
            2 => spoil::length(&mut self.numerators, dice),
            3 => spoil::length(&mut self.denominators, dice),
            4 => spoil::length(&mut self.refusals, dice),
            _ => spoil::length(&mut self.fails, dice),
        }
    }
}

pub fn shading_judge(tally: &mut Tally, dice: &mut Dice) {
    shapes_and_scales(tally, dice);
    parameters(tally, dice);
    lengths(tally, dice);
    impossible_entries(tally, dice);
    empty_and_dark(tally, dice);
    limits(tally, dice);
    greatest(tally, dice);
    great_and_odd(tally, dice);
    handed_scenes(tally, dice);
    framed_scenes(tally, dice);
    for _ in 0..2 {
        let cases: Vec<Judge> = spoil::sets(dice, Judge::legal, SPOILERS).collect();
        for case in cases {
            tell(tally, case);
        }
    }
    for _ in 0..60 {
        tell(tally, Judge::legal(dice));
    }
    for _ in 0..20 {
        higher_limit(tally, dice);
        others_changed(tally, dice);
        another_order(tally, dice);
        own_table(tally, dice);
        equal_samples(tally, dice);
    }
}

const SPOILERS: &[spoil::Spoiler<Judge>] = &[
    |case, dice| *case = Judge::of_shape(tables::small(dice), dice),
    |case, dice| {
        let entry = dice.below(case.totals.len());
        match dice.below(2) {
            0 => case.totals[entry] = u32::MAX,
            _ => case.counts[entry] = dice.among(&[769, u32::MAX]),
        }
    },
    |case, dice| case.spoil_length(dice),
    |case, dice| match dice.below(3) {
        0 => case.black_level = spoil::beyond(case.full_scale, dice),
        1 => case.bayer_order = spoil::beyond(3, dice),
        _ => {
            let high = spoil::beyond(16, dice);
            case.limit = dice.among(&[0, high]);
        }
    },
    |case, dice| case.full_scale = spoil::full_scale(dice),
    |case, dice| spoil::side(&mut case.width, &mut case.height, dice),
];

/// Asks a case, and counts it for all that it tells.
fn tell(tally: &mut Tally, case: Judge) -> Asked<Judge> {
    let told = shades::told(Judging {
        width: case.width,
        height: case.height,
        full_scale: case.full_scale,
        black_level: case.black_level,
        bayer_order: case.bayer_order,
        limit: case.limit,
        totals: &case.totals,
        counts: &case.counts,
        lengths: case.lengths(),
    });
    told.iter().for_each(|kind| tally.meet(kind));
    tally.ask(case)
}

/// What the library answered and wrote.
fn judged(asked: &Asked<Judge>) -> Judged {
    Judged {
        answer: asked.answers.found.clone(),
        numerators: asked.case.numerators.to_vec(),
        denominators: asked.case.denominators.to_vec(),
        refusals: asked.case.refusals.to_vec(),
        fails: asked.case.fails.to_vec(),
    }
}

fn shapes_and_scales(tally: &mut Tally, dice: &mut Dice) {
    for shape in shapes::illegal() {
        tell(tally, Judge::of_shape(shape, dice));
    }
    for width in [2, 32, 48, 62, 64, 66, 94, 96, 98, 126, 128] {
        for height in [2, 24, 46, 48, 50, 72, 74, 128] {
            tell(tally, Judge::of_shape(Shape { width, height }, dice));
        }
    }
    for &full_scale in windows::FULL_SCALES {
        let mut case = Judge::of_shape(LEAST, dice);
        (case.full_scale, case.black_level) = (full_scale, 0);
        for (total, count) in case.totals.iter_mut().zip(case.counts.iter()) {
            *total = *count;
        }
        tell(tally, case);
    }
}

/// Both sides of the limits of black level, Bayer order and limit.
fn parameters(tally: &mut Tally, dice: &mut Dice) {
    for limit in (0..=18).chain([
        17,
        0,
        255,
        256,
        259,
        1 << 32,
        (1 << 32) + 3,
        1 << 63,
        u64::MAX,
    ]) {
        let case = Judge::legal(dice);
        tell(tally, Judge { limit, ..case });
    }
    for bayer_order in [
        0,
        1,
        2,
        3,
        4,
        5,
        7,
        255,
        256,
        1 << 32,
        (1 << 32) + 1,
        u64::MAX,
    ] {
        let case = Judge::legal(dice);
        tell(
            tally,
            Judge {
                bayer_order,
                ..case
            },
        );
    }
    for turn in 0..8 {
        let case = Judge::legal(dice);
        let full_scale = case.full_scale;
        let black_level = [
            0,
            1,
            full_scale - 1,
            full_scale,
            full_scale + 1,
            4096,
            1 << 32,
            u64::MAX,
        ][turn];
        tell(
            tally,
            Judge {
                black_level,
                ..case
            },
        );
    }
}

fn lengths(tally: &mut Tally, dice: &mut Dice) {
    for (width, height) in [(64, 48), (62, 48), (94, 70)] {
        let shape = Shape { width, height };
        let entries = tables::entries(shape);
        for turn in 0..6 {
            let case = Judge::of_shape(shape, dice);
            let mut cases = vec![case; 7];
            let length = spoil::wrong_lengths(entries)[turn];
            cases[0].totals.resize(length, 0);
            cases[1].counts.resize(length, 0);
            let length = spoil::wrong_lengths(entries / 2 - 2)[turn];
            cases[2].numerators.resize(length, 0);
            cases[3].denominators.resize(length, 0);
            cases[4].refusals.resize(length, 0);
            cases[5].fails.resize(length, 0);
            let length = [4, 12, 20, 8, 36, 40][turn];
            cases[6].totals.resize(length, 0);
            cases[6].counts.resize(length, 0);
            for case in cases {
                tell(tally, case);
            }
        }
    }
}

/// Each arm of 11 on both sides, in each plane, in blocks and at the centre.
fn impossible_entries(tally: &mut Tally, dice: &mut Dice) {
    for plane in 0..4 {
        for turn in 0..3 {
            let shape = tables::shape(dice);
            let case = Judge::of_shape(shape, dice);
            let blocks = case.blocks();
            let area = [0, dice.below(blocks), blocks][turn];
            let entry = case.entry(plane, area);
            let sites = sites_in(entry, blocks) as u32;
            let full_scale = case.full_scale as u32;
            let any = dice.between(1, sites.into()) as u32;
            for (total, count) in [
                (0, sites),
                (0, sites + 1),
                (0, sites + 2),
                (sites * full_scale, sites),
                (sites * full_scale + 1, sites),
                (any * full_scale, any),
                (any * full_scale + 1, any),
                (any * full_scale + 2, any),
                (0, 0),
                (1, 0),
                (u32::MAX, 0),
                (0, u32::MAX),
                (u32::MAX, u32::MAX),
            ] {
                let mut case = case.clone();
                (case.totals[entry], case.counts[entry]) = (total, count);
                tell(tally, case);
            }
        }
    }
}

/// A table of four levels, by the planes: all sites surveyed.
fn level(shape: Shape, full_scale: u64, levels: [u64; 4], dice: &mut Dice) -> Judge {
    let length = tables::entries(shape);
    let sites = |entry| sites_in(entry, length / 4 - 1) as u64;
    let total = |entry| (sites(entry) * levels[entry / (length / 4)]) as u32;
    let totals = (0..length).map(total).collect();
    let counts = (0..length).map(|entry| sites(entry) as u32).collect();
    Judge::of_table(shape, full_scale, totals, counts, dice)
}

/// Each plane in turn without a site, and just below, at and just above the black level, in a block
/// and at the centre, in each order.
fn empty_and_dark(tally: &mut Tally, dice: &mut Dice) {
    for bayer_order in 0..4 {
        for plane in 0..4 {
            for is_central in [false, true] {
                let shape = tables::shape(dice);
                let levels = [0; 4].map(|_| dice.between(66, 300));
                let mut case = level(shape, 1023, levels, dice);
                (case.black_level, case.bayer_order) = (64, bayer_order);
                let blocks = case.blocks();
                let block = dice.below(blocks);
                let area = if is_central { blocks } else { block };
                let entry = case.entry(plane, area);
                let sites = case.counts[entry];
                let any = dice.between(1, sites.into()) as u32;
                for (total, count) in [
                    (0, 0),
                    (64, 1),
                    (65, 1),
                    (0, any),
                    (64 * any - 1, any),
                    (64 * any, any),
                    (64 * any + 1, any),
                    (64 * any + 2, any),
                ] {
                    let mut case = case.clone();
                    (case.totals[entry], case.counts[entry]) = (total, count);
                    tell(tally, case);
                }
                // Two at once: 7 comes before 10, whichever plane each is in.
                let other = case.entry(dice.below(4), dice.among(&[block, blocks]));
                (case.totals[other], case.counts[other]) = (0, 0);
                if other != entry {
                    case.totals[entry] = 64 * sites;
                }
                tell(tally, case);
            }
        }
    }
}

/// 16 x numerator at limit x denominator, and one grey level off, on either side of the centre.
fn limits(tally: &mut Tally, dice: &mut Dice) {
    for limit in 1..=16 {
        for (colour, green) in [(Colour::R, Colour::Gr), (Colour::B, Colour::Gb)] {
            let shape = tables::shape(dice);
            let step = dice.between(1, 30);
            let green_level = dice.between(65, 1023);
            let mut case = level(shape, 1023, [64 + 16 * step; 4], dice);
            (case.black_level, case.limit) = (64, limit);
            let [colour, green] = [colour, green].map(|colour| plane_of(colour, case.bayer_order));
            for area in 0..=case.blocks() {
                let entry = case.entry(green, area);
                case.totals[entry] = case.counts[entry] * green_level as u32;
            }
            let entry = case.entry(colour, dice.below(case.blocks()));
            let off = 192 * (step * limit) as u32;
            let right = case.totals[entry];
            for total in [
                right + off,
                right + off + 1,
                right + off - 1,
                right - off,
                (right - off).saturating_sub(1),
                right - off + 1,
            ] {
                case.totals[entry] = total;
                tell(tally, case.clone());
            }
        }
    }
}

/// The greatest numbers, and what is near them.
fn greatest(tally: &mut Tally, dice: &mut Dice) {
    for shape in [LEAST, shapes::GREAT[0]] {
        for black_level in [0, 1, 4094, 4095] {
            let mut case = level(shape, 4095, [4095; 4], dice);
            case.black_level = black_level;
            tell(tally, case.clone());
            for colour in [Colour::R, Colour::Gr, Colour::B, Colour::Gb] {
                let plane = plane_of(colour, case.bayer_order);
                let (block, centre) = (case.entry(plane, 0), case.entry(plane, case.blocks()));
                for (entry, total) in [(block, 0), (block, 192 * 4095 - 1), (centre, 1)] {
                    let mut case = case.clone();
                    case.totals[entry] = total;
                    tell(tally, case);
                }
            }
        }
    }
}

/// Odd counts and great totals: products that no float holds.
fn great_and_odd(tally: &mut Tally, dice: &mut Dice) {
    for _ in 0..4 {
        let mut case = level(tables::shape(dice), 4095, [4095; 4], dice);
        case.black_level = dice.between(0, 64);
        for entry in 0..case.totals.len() {
            let count = u64::from(case.counts[entry] - 1);
            case.counts[entry] = count as u32;
            case.totals[entry] = dice.between(4000 * count, 4095 * count) as u32;
        }
        tell(tally, case);
    }
}

/// The scenes: R 164, Gr and Gb 264, B 114 in order 0, at black 64 and full scale 1,023.
const LEVELS: [u64; 4] = [164, 264, 264, 114];

const LIMITS: [u64; 5] = [1, 2, 3, 4, 16];

fn scene(dice: &mut Dice) -> Judge {
    let case = level(LEAST, 1023, LEVELS, dice);
    Judge {
        black_level: 64,
        bayer_order: 0,
        ..case
    }
}

/// Block (0,0) of R at 184.
fn bright(dice: &mut Dice) -> Judge {
    let mut case = scene(dice);
    case.totals[0] += 192 * 20;
    case.totals[4] += 192 * 20;
    case
}

/// A block with no surveyed R.
fn without_r(block: usize, dice: &mut Dice) -> Judge {
    let mut case = scene(dice);
    (case.totals[block], case.counts[block]) = (0, 0);
    case.totals[4] -= 192 * 164;
    case.counts[4] -= 192;
    case
}

/// Gr of a block at the black level.
fn dark_gr(block: usize, dice: &mut Dice) -> Judge {
    let mut case = scene(dice);
    case.totals[5 + block] = 192 * 64;
    case.totals[9] -= 192 * 200;
    case
}

/// As tables that are handed in.
fn handed_scenes(tally: &mut Tally, dice: &mut Dice) {
    for limit in LIMITS {
        let block = dice.below(4);
        let mut scenes = vec![
            scene(dice),
            bright(dice),
            without_r(block, dice),
            dark_gr(block, dice),
        ];
        let mut impossible = scene(dice);
        impossible.counts[block] = 193;
        scenes.push(impossible);
        for case in scenes {
            tell(tally, Judge { limit, ..case });
        }
    }
}

/// A frame of the four levels, all surveyed.
fn frame() -> Window {
    let sample = |site: usize| LEVELS[2 * (site / 64 % 2) + site % 2] as u16;
    let frame = (0..LEAST.sites()).map(sample).collect();
    Window::of(LEAST, 1023, vec![0; LEAST.sites()], frame)
}

/// The sites of one of its blocks.
fn sites_of_block(plane: usize, block: usize) -> impl Iterator<Item = usize> {
    let (top, left) = (12 * (block / 2), 16 * (block % 2));
    let sites = (0..192).map(move |at| (top + at / 16, left + at % 16));
    sites.map(move |(row, column)| tables::site(LEAST, plane, row, column))
}

/// The same as frames, through all three calls: the tables have to be those that are handed in.
fn framed_scenes(tally: &mut Tally, dice: &mut Dice) {
    let block = dice.below(4);
    let plain = tally.ask(Table::of_window(frame(), dice));
    let mut window = frame();
    for site in sites_of_block(0, 0) {
        window.frame[site] = 184;
    }
    let light = tally.ask(Table::of_window(window, dice));
    let mut window = frame();
    for site in sites_of_block(1, block) {
        window.frame[site] = 64;
    }
    let dark = tally.ask(Table::of_window(window, dice));
    // Each R of the block becomes a gap, a defect or a filled site.
    let mut recoded = plain.case.clone();
    for site in sites_of_block(0, block) {
        let code = dice.between(1, 3);
        let table = recoded;
        recoded = tally.run(Recode { site, code, table }).table;
    }
    let tables = [plain.case, light.case, dark.case, recoded];
    let handed = [
        scene(dice),
        bright(dice),
        dark_gr(block, dice),
        without_r(block, dice),
    ];
    for (table, handed) in tables.into_iter().zip(handed) {
        for limit in LIMITS {
            let one = tally.ask(Judge {
                limit,
                ..handed.clone()
            });
            let other = tally.ask(Judge {
                limit,
                totals: table.totals.clone(),
                counts: table.counts.clone(),
                ..handed.clone()
            });
            let is_same =
                (&one.case.totals, &one.case.counts) == (&other.case.totals, &other.case.counts);
            let law = shades::framed(is_same, &judged(&one), &judged(&other));
            tally.compare("as a table and as a frame", law, &one, &other);
        }
    }
}

fn higher_limit(tally: &mut Tally, dice: &mut Dice) {
    let case = Judge::legal(dice);
    let limits = [dice.between(1, 16), dice.between(1, 16)];
    let low = tell(
        tally,
        Judge {
            limit: limits[0].min(limits[1]),
            ..case.clone()
        },
    );
    let high = tell(
        tally,
        Judge {
            limit: limits[0].max(limits[1]),
            ..case
        },
    );
    let law = shades::higher(&judged(&low), &judged(&high));
    tally.compare("higher limit", law, &low, &high);
}

/// All entries of other blocks; then all entries of the other ratio's planes.
fn others_changed(tally: &mut Tally, dice: &mut Dice) {
    let case = Judge::legal(dice);
    let blocks = case.blocks();
    let one = tell(tally, case.clone());
    let block = dice.below(blocks);
    let mut other = case.clone();
    for entry in 0..other.totals.len() {
        let area = entry % (blocks + 1);
        if area != block && area != blocks {
            other.redraw(entry, 3, dice);
        }
    }
    let other = tell(tally, other);
    let places = [block, blocks + block];
    let law = shades::local(&judged(&one), &judged(&other), &places);
    tally.compare("other blocks changed", law, &one, &other);

    let ratio = dice.below(2);
    let changed = [[Colour::B, Colour::Gb], [Colour::R, Colour::Gr]][ratio];
    let mut other = case;
    for colour in changed {
        let plane = plane_of(colour, other.bayer_order);
        for area in 0..=blocks {
            other.redraw(other.entry(plane, area), 3, dice);
        }
    }
    let other = tell(tally, other);
    let places: Vec<usize> = (ratio * blocks..(ratio + 1) * blocks).collect();
    let law = shades::local(&judged(&one), &judged(&other), &places);
    tally.compare("other ratio changed", law, &one, &other);
}

/// Each colour's entries are moved to the plane that it has in another order.
fn another_order(tally: &mut Tally, dice: &mut Dice) {
    let case = Judge::legal(dice);
    let one = tell(tally, case.clone());
    let mut other = case.clone();
    other.bayer_order = (case.bayer_order + dice.between(1, 3)) % 4;
    for colour in [Colour::R, Colour::Gr, Colour::B, Colour::Gb] {
        let [from, to] = [&case, &other].map(|case| plane_of(colour, case.bayer_order));
        for area in 0..=case.blocks() {
            let (from, to) = (case.entry(from, area), case.entry(to, area));
            other.totals[to] = case.totals[from];
            other.counts[to] = case.counts[from];
        }
    }
    let other = tell(tally, other);
    let law = shades::turned(&judged(&one), &judged(&other));
    tally.compare("another order", law, &one, &other);
}

/// Judges a table as the library made it, with its own sides and full scale.
fn judge_own(table: &Table, dice: &mut Dice) -> Judge {
    let full_scale = table.window.full_scale;
    let (totals, counts) = (table.totals.to_vec(), table.counts.to_vec());
    Judge::of_table(table.shape(), full_scale, totals, counts, dice)
}

fn own_table(tally: &mut Tally, dice: &mut Dice) {
    let table = tally.ask(Table::legal(dice));
    let case = judge_own(&table.case, dice);
    let other = tell(tally, case);
    let law = shades::own(&judged(&other));
    tally.compare("own table", law, &table, &other);
}

/// One level a plane, above the black level, at all surveyed sites.
fn equal_samples(tally: &mut Tally, dice: &mut Dice) {
    let shape = tables::shape(dice);
    let mut window = Window::of_shape(shape, dice);
    window.full_scale = dice.between(2, 4095);
    let black_level = dice.between(0, window.full_scale - 1);
    let levels = [0; 4].map(|_| dice.between(black_level + 1, window.full_scale));
    let Window { mask, frame, .. } = &mut window;
    for (site, (code, sample)) in mask.iter().zip(frame.iter_mut()).enumerate() {
        if *code == 0 {
            let plane = 2 * (site / shape.width % 2) + site % 2;
            *sample = levels[plane] as u16;
        }
    }
    let table = tally.ask(Table::of_window(window, dice));
    let case = judge_own(&table.case, dice);
    let other = tell(
        tally,
        Judge {
            black_level,
            ..case
        },
    );
    let law = shades::equal(&judged(&other));
    tally.compare("equal samples", law, &table, &other);
}
