//! Cases of changing one mask code, with the block table amended (document 02, j).

use reference::blocks;
use reference::shading::{self, Recoding};
use reference::shared::Answer;

use super::dice::Dice;
use super::shapes::{self, Shape};
use super::spoil;
use super::tables::{self, Table, LEAST};
use super::tally::{Asked, Case, Tally};
use super::windows::{self, Window};
use crate::library;

#[derive(Clone, Debug, PartialEq)]
pub struct Recode {
    pub site: usize,
    pub code: u64,
    pub table: Table,
}

impl Case for Recode {
    fn reference(&mut self) -> Answer {
        let Table {
            window,
            totals,
            counts,
        } = &mut self.table;
        shading::shading_recode(Recoding {
            width: window.width,
            height: window.height,
            full_scale: window.full_scale,
            site: self.site,
            code: self.code,
            mask: &mut window.mask,
            frame: &window.frame,
            totals,
            counts,
        })
    }

    fn library(&mut self) -> Answer {
        let Table {
            window,
            totals,
            counts,
        } = &mut self.table;
        let table = library::shading::Table { totals, counts };
        library::shading::shading_recode(window.lend(), self.site, self.code, table)
    }
}

impl Recode {
    /// A site and a code of the four, any.
    fn of_table(table: Table, dice: &mut Dice) -> Self {
        let sites = table.shape().sites();
        let any = dice.below(sites.max(1));
        Recode {
            site: dice.among(&[any, any, 0, sites.saturating_sub(1)]),
            code: dice.between(0, 3),
            table,
        }
    }

    /// At an edge, with no sample above full scale.
    fn legal(dice: &mut Dice) -> Self {
        let shape = tables::shape(dice);
        let mut table = Table::of_shape(shape, dice);
        let site = tables::edge(shape, dice);
        table.window.frame[site] = dice.between(0, table.window.full_scale) as u16;
        Recode {
            site,
            code: dice.between(0, 3),
            table,
        }
    }

    fn old(&mut self) -> &mut u8 {
        &mut self.table.window.mask[self.site]
    }

    fn sample(&mut self) -> &mut u16 {
        &mut self.table.window.frame[self.site]
    }
}

pub fn shading_recode(tally: &mut Tally, dice: &mut Dice) {
    sequence(200, tally, dice);
    sequence(60, tally, dice);
    windows::common(tally, dice, LEAST, |window, dice| {
        Recode::of_table(Table::of_window(window, dice), dice)
    });
    wrapped_tables(tally, dice);
    codes(tally, dice);
    outside(tally, dice);
    samples_over(tally, dice);
    lengths(tally, dice);
    sizes(tally, dice);
    let cases: Vec<Recode> = spoil::sets(dice, Recode::legal, SPOILERS).collect();
    for case in cases {
        tell(tally, case);
    }
    for _ in 0..30 {
        there_and_back(tally, dice);
        elsewhere(tally, dice);
        unsurveyed_sample(tally, dice);
    }
}

const SPOILERS: &[spoil::Spoiler<Recode>] = &[
    |case, dice| {
        let shape = tables::small(dice);
        case.table = Table::of_shape(shape, dice);
        case.site = dice.below(shape.sites());
        *case.sample() = 0;
    },
    |case, dice| {
        *case.sample() = spoil::above(case.table.window.full_scale, u16::MAX, dice);
        match dice.below(2) {
            0 => *case.old() = 0,
            _ => case.code = 0,
        }
    },
    |case, dice| {
        let bad = dice.between(4, 255) as u8;
        match dice.below(2) {
            // An old 0 stays, so that the sample is still judged.
            0 => case.code = spoil::beyond(3, dice),
            _ if *case.old() > 0 => *case.old() = bad,
            _ => case.code = bad.into(),
        }
    },
    |case, dice| case.table.spoil_length(dice),
    |case, dice| {
        let sites = case.table.shape().sites();
        case.site = dice.among(&[sites, sites + 1, (1 << 32) + case.site, usize::MAX]);
    },
    |case, dice| case.table.window.spoil_full_scale(dice),
    |case, dice| case.table.window.spoil_sides(dice),
];

/// Asks a case, and counts it for all that it tells.
fn tell(tally: &mut Tally, case: Recode) -> Asked<Recode> {
    let told = blocks::told_of_recode(blocks::Recode {
        window: case.table.window.lent(),
        site: case.site,
        code: case.code,
        table: &case.table.contents(),
    });
    told.iter().for_each(|kind| tally.meet(kind));
    tally.ask(case)
}

/// One code after another from a made table, each time beside a table made afresh.
fn sequence(steps: usize, tally: &mut Tally, dice: &mut Dice) {
    let shape = tables::shape(dice);
    let mut window = Window::of_shape(shape, dice);
    for sample in window.frame.iter_mut() {
        // A few stay above full scale, at codes 1 to 3: their sites cannot be surveyed.
        if !dice.one_in(50) {
            *sample = (u64::from(*sample) % (window.full_scale + 1)) as u16;
        }
    }
    let mut table = tally.run(Table::of_window(window, dice));
    for _ in 0..steps {
        let recoded = tell(
            tally,
            Recode {
                site: tables::edge(shape, dice),
                code: dice.among(&[0, 0, 1, 2, 3]),
                table,
            },
        );
        table = recoded.case.table.clone();
        let made = tally.ask(Table::of_window(table.window.clone(), dice));
        if recoded.accepted() {
            let law = blocks::afresh(
                (&recoded.answers.found, &recoded.case.table.contents()),
                (&made.answers.found, &made.case.contents()),
            );
            tally.compare("made afresh", law, &recoded, &made);
        }
    }
}

/// Every old code with every new one, in tables that no frame gives, all other sites being junk.
fn wrapped_tables(tally: &mut Tally, dice: &mut Dice) {
    for old in 0..4 {
        for code in 0..4 {
            for entry in [Some(0), Some(1), Some(u32::MAX), None] {
                let mut case = Recode::legal(dice);
                case.code = code;
                spread_junk(&mut case, dice);
                *case.old() = old;
                if let Some(entry) = entry {
                    case.table.totals.fill(entry);
                    case.table.counts.fill(entry);
                }
                tell(tally, case);
            }
        }
    }
}

/// Codes 4 to 255, and samples that are mostly 65,535, at every other site.
fn spread_junk(case: &mut Recode, dice: &mut Dice) {
    let (old, sample) = (*case.old(), *case.sample());
    let Window { mask, frame, .. } = &mut case.table.window;
    for (code, sample) in mask.iter_mut().zip(frame.iter_mut()) {
        *code = dice.between(4, 255) as u8;
        *sample = windows::unsurveyed(dice);
    }
    (*case.old(), *case.sample()) = (old, sample);
}

const CODES: &[u64] = &[
    0,
    1,
    2,
    3,
    4,
    5,
    255,
    256,
    257,
    1 << 32,
    (1 << 32) + 1,
    1 << 63,
    u64::MAX,
];

/// Both sides of the limit, old and new.
fn codes(tally: &mut Tally, dice: &mut Dice) {
    for old in [0, 1, 2, 3, 4, 5, 255] {
        for &code in CODES {
            let mut case = Recode::legal(dice);
            case.code = code;
            *case.old() = old;
            tell(tally, case);
        }
    }
}

/// The last site, and sites outside, some with low bits that are inside.
fn outside(tally: &mut Tally, dice: &mut Dice) {
    for shape in [LEAST, tables::shape(dice), shapes::GREAT[0]] {
        let sites = shape.sites();
        for site in [
            0,
            1,
            sites - 2,
            sites - 1,
            sites,
            sites + 1,
            (1 << 16) + 5,
            (1 << 32) + 5,
            1 << 63,
            usize::MAX,
        ] {
            let mut case = Recode::of_table(Table::of_shape(shape, dice), dice);
            case.site = site;
            tell(tally, case);
        }
    }
    // The buffers reach as far as the site, which is outside the window.
    let mut case = Recode::of_table(Table::of_shape(LEAST, dice), dice);
    let sites = LEAST.sites();
    case.table.window.mask.resize(sites + 4, 0);
    case.table.window.frame.resize(sites + 4, 65535);
    (case.site, case.code) = (sites, 0);
    tell(tally, case);
}

/// Full scale, one above it and 65,535 under every old code and new code.
fn samples_over(tally: &mut Tally, dice: &mut Dice) {
    for old in 0..4 {
        for code in 0..4 {
            for above in [0, 1, u16::MAX] {
                let mut case = Recode::legal(dice);
                case.code = code;
                *case.old() = old;
                *case.sample() = (case.table.window.full_scale as u16).saturating_add(above);
                tell(tally, case.clone());
                // The next site is surveyed, and its sample above full scale too.
                let next = (case.site + 1) % case.table.window.frame.len();
                case.table.window.frame[next] = 65535;
                case.table.window.mask[next] = 0;
                tell(tally, case);
            }
        }
    }
}

fn lengths(tally: &mut Tally, dice: &mut Dice) {
    for (width, height) in [(64, 48), (62, 48), (94, 70)] {
        let shape = Shape { width, height };
        let (sites, entries) = (shape.sites(), tables::entries(shape));
        for turn in 0..6 {
            let case = Recode::of_table(Table::of_shape(shape, dice), dice);
            let mut cases = [case.clone(), case.clone(), case.clone(), case.clone(), case];
            let length = spoil::wrong_lengths(sites)[turn];
            cases[0].table.window.mask.resize(length, 0);
            cases[1].table.window.frame.resize(length, 0);
            let length = spoil::wrong_lengths(entries)[turn];
            cases[2].table.totals.resize(length, 0);
            cases[3].table.counts.resize(length, 0);
            let length = [4, 12, 20, 8, 36, 40][turn];
            cases[4].table.totals.resize(length, 0);
            cases[4].table.counts.resize(length, 0);
            for case in cases {
                tell(tally, case);
            }
        }
    }
}

/// Around the smallest plane, and far below it.
fn sizes(tally: &mut Tally, dice: &mut Dice) {
    for width in [2, 30, 32, 48, 62, 64, 66] {
        for height in [2, 22, 24, 46, 48, 50, 64] {
            let shape = Shape { width, height };
            let mut case = Recode::of_table(Table::of_shape(shape, dice), dice);
            *case.sample() = 0;
            tell(tally, case);
        }
    }
}

/// A code is changed and changed back, in any table.
fn there_and_back(tally: &mut Tally, dice: &mut Dice) {
    let mut case = Recode::legal(dice);
    if dice.one_in(2) {
        spread_junk(&mut case, dice);
        *case.old() = dice.below(4) as u8;
    }
    let (before, old) = (case.table.clone(), *case.old());
    let there = tell(tally, case);
    let back = tell(
        tally,
        Recode {
            code: old.into(),
            ..there.case.clone()
        },
    );
    let after = &back.case.table;
    let law = blocks::back(
        (&before.window.mask, &before.contents()),
        &there.answers.found,
        &back.answers.found,
        (&after.window.mask, &after.contents()),
    );
    tally.compare("recoded and back", law, &there, &back);
}

/// What the library answered, and left at the site and in the table.
fn found(asked: &Asked<Recode>) -> blocks::Found {
    let Recode { site, table, .. } = &asked.case;
    blocks::Found {
        answer: asked.answers.found.clone(),
        code: table.window.mask[*site],
        table: table.contents(),
    }
}

/// What all other sites hold is changed.
fn elsewhere(tally: &mut Tally, dice: &mut Dice) {
    let mut case = Recode::legal(dice);
    if dice.one_in(3) {
        SPOILERS[1 + dice.below(2)](&mut case, dice);
    }
    let one = tell(tally, case.clone());
    spread_junk(&mut case, dice);
    let other = tell(tally, case);
    let law = blocks::unmoved(&found(&one), &found(&other));
    let relation = match one.accepted() {
        true => "other sites changed",
        false => "other sites changed and refused",
    };
    tally.compare(relation, law, &one, &other);
}

/// Neither the old code nor the new one is 0, and the site's own sample is changed.
fn unsurveyed_sample(tally: &mut Tally, dice: &mut Dice) {
    let mut case = Recode::legal(dice);
    (*case.old(), case.code) = (dice.between(1, 3) as u8, dice.between(1, 3));
    let one = tell(tally, case.clone());
    *case.sample() = windows::unsurveyed(dice);
    let other = tell(tally, case);
    let law = blocks::unmoved(&found(&one), &found(&other));
    tally.compare("unsurveyed sample changed", law, &one, &other);
}
