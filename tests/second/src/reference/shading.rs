//! Colour shading (document 02, j): a table of totals and counts for the blocks and the centre of
//! each plane, one mask code changed and the table amended, and every block judged by the centre.

use crate::colour::{centre_of, check_planes, plane_of, Colour};
use crate::shared::{
    check_full_scale, check_lengths, refuse_if, settle, sites_of, Answer, Outcome, Refusal, Window,
};

const WIDE: usize = 16;
const HIGH: usize = 12;

/// How many blocks a plane has; what is left over on the right and below is in none.
pub fn blocks_of(width: usize, height: usize) -> usize {
    (width / 2 / WIDE) * (height / 2 / HIGH)
}

/// How long totals and counts are: the blocks of each plane, and its centre.
pub fn entries_of(width: usize, height: usize) -> usize {
    4 * (blocks_of(width, height) + 1)
}

/// The sites of a block, or of a centre.
pub fn sites_in(entry: usize, blocks: usize) -> usize {
    match entry % (blocks + 1) {
        area if area == blocks => 32 * 24,
        _ => WIDE * HIGH,
    }
}

/// A rectangle of a plane, by the plane's columns and rows.
struct Area {
    left: usize,
    top: usize,
    wide: usize,
    high: usize,
}

/// A plane's blocks in row order, then its centre.
fn areas(width: usize, height: usize) -> Vec<Area> {
    let mut areas = vec![];
    for row in 0..height / 2 / HIGH {
        for column in 0..width / 2 / WIDE {
            areas.push(Area {
                left: WIDE * column,
                top: HIGH * row,
                wide: WIDE,
                high: HIGH,
            });
        }
    }
    let (left, top) = centre_of(width, height);
    areas.push(Area {
        left,
        top,
        wide: 32,
        high: 24,
    });
    areas
}

/// What making a table is lent.
pub struct Making<'a> {
    pub window: Window<'a>,
    pub totals: &'a mut [u32],
    pub counts: &'a mut [u32],
}

/// What changing one code is lent.
pub struct Recoding<'a> {
    pub width: usize,
    pub height: usize,
    pub full_scale: u64,
    pub site: usize,
    pub code: u64,
    pub mask: &'a mut [u8],
    pub frame: &'a [u16],
    pub totals: &'a mut [u32],
    pub counts: &'a mut [u32],
}

/// What judging a table is lent, but for what it writes.
#[derive(Clone, Copy)]
pub struct Judging<'a> {
    pub width: usize,
    pub height: usize,
    pub full_scale: u64,
    pub black_level: u64,
    pub bayer_order: u64,
    pub limit: u64,
    pub totals: &'a [u32],
    pub counts: &'a [u32],
    /// Of numerators, denominators, refusals and fails.
    pub lengths: [usize; 4],
}

/// What judging writes: all blocks of R/Gr, then all of B/Gb.
pub struct Verdicts<'a> {
    pub numerators: &'a mut [u64],
    pub denominators: &'a mut [u64],
    pub refusals: &'a mut [u8],
    pub fails: &'a mut [u8],
}

/// What is said of one block and ratio.
#[derive(Clone, Copy, Debug, PartialEq, Eq)]
pub struct Verdict {
    pub numerator: u64,
    pub denominator: u64,
    pub refusal: u8,
    pub fails: u8,
}

pub fn shading_table(lent: Making) -> Answer {
    settle(table(lent), 0)
}

pub fn shading_recode(lent: Recoding) -> Answer {
    settle(recode(lent), 0)
}

pub fn shading_judge(lent: Judging, written: Verdicts) -> Answer {
    let verdicts = match judge(lent) {
        Ok(verdicts) => verdicts,
        Err(refusal) => return settle(Err(refusal), 0),
    };
    for (place, verdict) in verdicts.into_iter().enumerate() {
        written.numerators[place] = verdict.numerator;
        written.denominators[place] = verdict.denominator;
        written.refusals[place] = verdict.refusal;
        written.fails[place] = verdict.fails;
    }
    settle(Ok(vec![]), 0)
}

fn table(lent: Making) -> Outcome {
    let Making {
        window,
        totals,
        counts,
    } = lent;
    window.check_scale()?;
    let entries = entries_of(window.width, window.height);
    window.check_contents(&[(totals.len(), entries), (counts.len(), entries)])?;
    check_planes(window.width, window.height)?;
    let mut entry = 0;
    for plane in 0..4 {
        for area in areas(window.width, window.height) {
            let (total, count) = survey(&window, plane, &area);
            totals[entry] = u32::try_from(total).expect("at most 768 x 4095");
            counts[entry] = u32::try_from(count).expect("at most 768");
            entry += 1;
        }
    }
    Ok(vec![])
}

/// The sum of an area's surveyed samples, and their count.
fn survey(window: &Window, plane: usize, area: &Area) -> (u128, u128) {
    let (mut total, mut count) = (0, 0);
    for plane_row in area.top..area.top + area.high {
        for plane_column in area.left..area.left + area.wide {
            let (row, column) = (2 * plane_row + plane / 2, 2 * plane_column + plane % 2);
            let site = row * window.width + column;
            if window.mask[site] == 0 {
                total += u128::from(window.frame[site]);
                count += 1;
            }
        }
    }
    (total, count)
}

fn recode(lent: Recoding) -> Outcome {
    let sites = sites_of(lent.width, lent.height)?;
    check_full_scale(lent.full_scale)?;
    refuse_if(lent.site >= sites, 3)?;
    let entries = entries_of(lent.width, lent.height);
    check_lengths(&[
        (lent.mask.len(), sites),
        (lent.frame.len(), sites),
        (lent.totals.len(), entries),
        (lent.counts.len(), entries),
    ])?;
    let (old, new) = (u64::from(lent.mask[lent.site]), lent.code);
    let place = lent.site as u64;
    if old > 3 || new > 3 {
        return Err(Refusal::new(5, place));
    }
    let sample = lent.frame[lent.site];
    if u64::from(sample) > lent.full_scale && (old == 0 || new == 0) {
        return Err(Refusal {
            number: 6,
            place,
            over: 1,
        });
    }
    check_planes(lent.width, lent.height)?;
    lent.mask[lent.site] = new as u8;
    // How often the site counts now, less how often it did.
    let step = i128::from(new == 0) - i128::from(old == 0);
    let (row, column) = (lent.site / lent.width, lent.site % lent.width);
    let areas = areas(lent.width, lent.height);
    for (at, area) in areas.iter().enumerate() {
        let is_in = (area.top..area.top + area.high).contains(&(row / 2))
            && (area.left..area.left + area.wide).contains(&(column / 2));
        if is_in {
            let entry = (2 * (row % 2) + column % 2) * areas.len() + at;
            lent.totals[entry] = amended(lent.totals[entry], step * i128::from(sample));
            lent.counts[entry] = amended(lent.counts[entry], step);
        }
    }
    Ok(vec![])
}

/// Modulo 2^32.
fn amended(entry: u32, by: i128) -> u32 {
    (i128::from(entry) + by).rem_euclid(1 << 32) as u32
}

/// An area's total, less the black level of each of its surveyed sites, and their count.
#[derive(Clone, Copy)]
struct Light {
    total: i128,
    count: i128,
}

pub fn judge(lent: Judging) -> Result<Vec<Verdict>, Refusal> {
    sites_of(lent.width, lent.height)?;
    check_full_scale(lent.full_scale)?;
    let is_out = lent.black_level > lent.full_scale || lent.bayer_order > 3;
    refuse_if(is_out || !(1..=16).contains(&lent.limit), 3)?;
    let (width, height) = (lent.width, lent.height);
    let (blocks, entries) = (blocks_of(width, height), entries_of(width, height));
    check_lengths(&[(lent.totals.len(), entries), (lent.counts.len(), entries)])?;
    check_lengths(&lent.lengths.map(|length| (length, 2 * blocks)))?;
    check_planes(width, height)?;
    for entry in 0..entries {
        let [total, count] = [lent.totals[entry], lent.counts[entry]].map(u128::from);
        let most = count * u128::from(lent.full_scale);
        let is_high = count > sites_in(entry, blocks) as u128;
        refuse_if(is_high || total > most, 11)?;
    }
    let light = |colour, area| {
        let entry = plane_of(colour, lent.bayer_order) * (blocks + 1) + area;
        let count = i128::from(lent.counts[entry]);
        let total = i128::from(lent.totals[entry]) - i128::from(lent.black_level) * count;
        Light { total, count }
    };
    let mut verdicts = vec![];
    for (colour, green) in [(Colour::R, Colour::Gr), (Colour::B, Colour::Gb)] {
        for block in 0..blocks {
            let in_block = [light(colour, block), light(green, block)];
            let at_centre = [light(colour, blocks), light(green, blocks)];
            verdicts.push(verdict(in_block, at_centre, lent.limit));
        }
    }
    Ok(verdicts)
}

/// Of the colour and its green, in a block and at the centre.
fn verdict(in_block: [Light; 2], at_centre: [Light; 2], limit: u64) -> Verdict {
    let refused = |refusal| Verdict {
        numerator: 0,
        denominator: 0,
        refusal,
        fails: 0,
    };
    if in_block
        .iter()
        .chain(&at_centre)
        .any(|light| light.count == 0)
    {
        return refused(7);
    }
    if in_block[1].total <= 0 || at_centre[1].total <= 0 || at_centre[0].total <= 0 {
        return refused(10);
    }
    let (a, b) = fraction(in_block);
    let (c, d) = fraction(at_centre);
    let (numerator, denominator) = ((a * d - c * b).abs(), c * b);
    Verdict {
        numerator: u64::try_from(numerator).expect("below 2^60"),
        denominator: u64::try_from(denominator).expect("below 2^60"),
        refusal: 0,
        fails: (16 * numerator > i128::from(limit) * denominator).into(),
    }
}

fn fraction([colour, green]: [Light; 2]) -> (i128, i128) {
    (colour.total * green.count, green.total * colour.count)
}

#[cfg(test)]
mod tests {
    use super::*;

    /// A made table.
    #[derive(Clone, PartialEq, Debug)]
    struct Table {
        totals: Vec<u32>,
        counts: Vec<u32>,
    }

    fn made(width: usize, height: usize, mask: &[u8], frame: &[u16]) -> (u64, Table) {
        let entries = entries_of(width, height);
        let mut table = Table {
            totals: vec![7; entries],
            counts: vec![7; entries],
        };
        let window = Window {
            width,
            height,
            full_scale: 1023,
            mask,
            frame,
        };
        let answer = shading_table(Making {
            window,
            totals: &mut table.totals,
            counts: &mut table.counts,
        });
        (answer.number, table)
    }

    /// The entries that count anything.
    fn counted(table: &Table) -> Vec<(usize, u32, u32)> {
        let entries = table.totals.iter().zip(&table.counts).enumerate();
        let entries = entries.map(|(entry, (&total, &count))| (entry, total, count));
        entries
            .filter(|(_, total, count)| total + count > 0)
            .collect()
    }

    /// Where the one surveyed site of a window is counted, its sample being 500.
    fn places(width: usize, height: usize, row: usize, column: usize) -> Vec<usize> {
        let mut mask = vec![1; width * height];
        mask[row * width + column] = 0;
        let mut frame = vec![65535; width * height];
        frame[row * width + column] = 500;
        let (number, table) = made(width, height, &mask, &frame);
        assert_eq!(number, 0);
        let counted = counted(&table);
        assert!(counted
            .iter()
            .all(|(_, total, count)| (*total, *count) == (500, 1)));
        counted.iter().map(|(entry, _, _)| *entry).collect()
    }

    /// 64 x 48: four blocks a plane, and the centre is all four.
    #[test]
    fn blocks_in_row_order_and_the_centre_behind() {
        for (row, column, block) in [
            (0, 0, 0),
            (22, 30, 0),
            (22, 32, 1),
            (24, 30, 2),
            (46, 62, 3),
        ] {
            for (plane, parity) in [(0, 0), (0, 1), (1, 0), (1, 1)].into_iter().enumerate() {
                let places = places(64, 48, row + parity.0, column + parity.1);
                assert_eq!(places, [5 * plane + block, 5 * plane + 4]);
            }
        }
    }

    /// 98 x 74: planes of 49 x 37, nine blocks, the centre from column 8 and row 6, one column and
    /// one row left over.
    #[test]
    fn blocks_and_the_centre_need_not_meet() {
        for (plane_row, plane_column, expected) in [
            (0, 0, &[0][..]),
            (5, 8, &[0]),
            (6, 7, &[0]),
            (6, 8, &[0, 9]),
            (29, 39, &[8, 9]),
            (30, 39, &[8]),
            (29, 40, &[8]),
            (35, 47, &[8]),
            (35, 48, &[]),
            (36, 47, &[]),
            (36, 48, &[]),
        ] {
            assert_eq!(places(98, 74, 2 * plane_row, 2 * plane_column), expected);
        }
    }

    /// 90 x 54: planes of 45 x 27. The centre is in columns 6 to 37 and rows 1 to 24, the blocks in
    /// columns 0 to 31 and rows 0 to 23.
    #[test]
    fn a_site_may_be_in_the_centre_alone() {
        assert_eq!(places(90, 54, 48, 74), [4]);
        assert_eq!(places(90, 54, 46, 62), [3, 4]);
        assert_eq!(places(90, 54, 0, 62), [1]);
        assert_eq!(places(90, 54, 50, 74), []);
    }

    #[test]
    fn tables_of_small_planes() {
        for (width, height, entries, number) in [
            (64, 48, 20, 0),
            (62, 48, 12, 9),
            (64, 46, 12, 9),
            (2, 2, 4, 9),
            (128, 128, 84, 0),
        ] {
            assert_eq!(entries_of(width, height), entries);
            let sites = width * height;
            assert_eq!(
                made(width, height, &vec![0; sites], &vec![1; sites]).0,
                number
            );
        }
    }

    /// Recodes a site of this window, its table being made before.
    fn recoded(
        mask: &mut [u8],
        frame: &[u16],
        table: &mut Table,
        site: usize,
        code: u64,
    ) -> Answer {
        shading_recode(Recoding {
            width: 98,
            height: 74,
            full_scale: 1023,
            site,
            code,
            mask,
            frame,
            totals: &mut table.totals,
            counts: &mut table.counts,
        })
    }

    #[test]
    fn a_recoded_table_is_one_made_afresh() {
        let sites = 98 * 74;
        let mut mask: Vec<u8> = (0..sites).map(|site| (site % 5 % 4) as u8).collect();
        let frame: Vec<u16> = (0..sites).map(|site| (site * 37 % 1024) as u16).collect();
        let (_, mut table) = made(98, 74, &mask, &frame);
        for step in 0..500 {
            let site = step * 4099 % sites;
            let answer = recoded(&mut mask, &frame, &mut table, site, step as u64 % 4);
            assert_eq!(answer, settle(Ok(vec![]), 0));
            assert_eq!(made(98, 74, &mask, &frame).1, table);
        }
    }

    /// All other codes are illegal and all other samples above full scale.
    #[test]
    fn recode_reads_and_writes_one_site_and_wraps() {
        let site = 98 * 24 + 32;
        for (old, new, total, count) in [
            (0, 2, u32::MAX - 499, u32::MAX),
            (2, 0, 500, 1),
            (0, 0, 0, 0),
            (1, 3, 0, 0),
        ] {
            let mut mask = vec![255; 98 * 74];
            let mut frame = vec![65535; 98 * 74];
            (mask[site], frame[site]) = (old, 500);
            let mut table = Table {
                totals: vec![0; 40],
                counts: vec![0; 40],
            };
            let answer = recoded(&mut mask, &frame, &mut table, site, new);
            assert_eq!(answer, settle(Ok(vec![]), 0));
            for entry in 0..40 {
                let expected = match entry {
                    4 | 9 => (total, count),
                    _ => (0, 0),
                };
                assert_eq!((table.totals[entry], table.counts[entry]), expected);
            }
            assert_eq!(u64::from(mask[site]), new);
            mask[site] = 255;
            assert_eq!(mask, [255; 98 * 74]);
        }
    }

    #[test]
    fn refusals_of_one_site() {
        let (mask, frame) = (vec![0; 98 * 74], vec![1023; 98 * 74]);
        let (_, table) = made(98, 74, &mask, &frame);
        for (old, sample, site, code, expected) in [
            (0, 1023, 3, 3, (0, 0, 0)),
            (0, 1023, 3, 4, (5, 3, 0)),
            (4, 1023, 3, 0, (5, 3, 0)),
            (4, 1023, 3, 255, (5, 3, 0)),
            (0, 1023, 3, 256, (5, 3, 0)),
            (0, 1024, 3, 0, (6, 3, 1)),
            (0, 1024, 3, 1, (6, 3, 1)),
            (1, 65535, 3, 0, (6, 3, 1)),
            (1, 65535, 3, 2, (0, 0, 0)),
            (0, 1024, 3, 4, (5, 3, 0)),
            (0, 1023, 98 * 74, 4, (3, 0, 0)),
            (0, 1023, usize::MAX, 0, (3, 0, 0)),
        ] {
            let (mut mask, mut frame, mut table) = (mask.clone(), frame.clone(), table.clone());
            (mask[3], frame[3]) = (old, sample);
            let before = (mask.clone(), table.clone());
            let answer = recoded(&mut mask, &frame, &mut table, site, code);
            assert_eq!((answer.number, answer.place, answer.over), expected);
            assert_eq!((mask, table) == before, expected.0 > 0);
        }
    }

    /// The table: 64 x 48, full scale 1,023, order 0, black 64, all sites surveyed, with
    /// these means in the planes R, Gr, Gb and B.
    fn level(means: [u32; 4]) -> Table {
        let sites = |entry| sites_in(entry, 4) as u32;
        Table {
            totals: (0..20)
                .map(|entry| sites(entry) * means[entry / 5])
                .collect(),
            counts: (0..20).map(sites).collect(),
        }
    }

    const MEANS: [u32; 4] = [164, 264, 264, 114];

    fn judging(table: &Table, limit: u64) -> Judging<'_> {
        Judging {
            width: 64,
            height: 48,
            full_scale: 1023,
            black_level: 64,
            bayer_order: 0,
            limit,
            totals: &table.totals,
            counts: &table.counts,
            lengths: [8; 4],
        }
    }

    fn refusals(table: &Table) -> Vec<u8> {
        let verdicts = judge(judging(table, 3)).expect("accepted");
        for verdict in verdicts.iter().filter(|verdict| verdict.refusal > 0) {
            assert_eq!(
                (verdict.numerator, verdict.denominator, verdict.fails),
                (0, 0, 0)
            );
        }
        verdicts.iter().map(|verdict| verdict.refusal).collect()
    }

    #[test]
    fn equal_samples_give_numerators_of_0() {
        for verdict in judge(judging(&level(MEANS), 1)).expect("accepted") {
            assert_eq!(
                (verdict.numerator, verdict.refusal, verdict.fails),
                (0, 0, 0)
            );
            assert!(verdict.denominator > 0);
        }
    }

    /// Block (0,0) of R at 184, and so the centre of R at 169: 1/7 there, 1/21 in the others.
    #[test]
    fn one_bright_block() {
        let mut table = level(MEANS);
        table.totals[0] = 192 * 184;
        table.totals[4] = 192 * (184 + 3 * 164);
        for (limit, fails) in [(1, 1), (2, 1), (3, 0), (16, 0)] {
            let verdicts = judge(judging(&table, limit)).expect("accepted");
            for (place, verdict) in verdicts.iter().enumerate() {
                let (numerator, denominator) = (verdict.numerator, verdict.denominator);
                match place {
                    0 => assert_eq!(7 * numerator, denominator),
                    1..=3 => assert_eq!(21 * numerator, denominator),
                    _ => assert_eq!(numerator, 0),
                }
                assert_eq!(verdict.fails, if place == 0 { fails } else { 0 });
            }
        }
    }

    /// A block of R without a site, a block of Gr at the black level, and what they leave alone.
    #[test]
    fn refused_blocks_stand_alone() {
        let mut table = level(MEANS);
        (table.totals[1], table.counts[1]) = (0, 0);
        assert_eq!(refusals(&table), [0, 7, 0, 0, 0, 0, 0, 0]);
        table.totals[5] = 192 * 64;
        assert_eq!(refusals(&table), [10, 7, 0, 0, 0, 0, 0, 0]);
        table.totals[6] = 192 * 64;
        assert_eq!(refusals(&table), [10, 7, 0, 0, 0, 0, 0, 0]);
        // R in a block may be at the black level or below it.
        (table.totals[2], table.totals[3]) = (192 * 64, 0);
        assert_eq!(refusals(&table), [10, 7, 0, 0, 0, 0, 0, 0]);
        // At the centre it may not.
        table.totals[4] = 768 * 64;
        assert_eq!(refusals(&table), [10, 7, 10, 10, 0, 0, 0, 0]);
        (table.totals[14], table.counts[14]) = (0, 0);
        assert_eq!(refusals(&table), [10, 7, 10, 10, 7, 7, 7, 7]);
    }

    #[test]
    fn entries_that_no_frame_gives() {
        for entry in 0..20 {
            let sites = sites_in(entry, 4) as u32;
            assert_eq!(sites, if entry % 5 == 4 { 768 } else { 192 });
            for (total, count, number) in [
                (0, sites, 0),
                (0, sites + 1, 11),
                (0, u32::MAX, 11),
                (1023 * sites, sites, 0),
                (1023 * sites + 1, sites, 11),
                (u32::MAX, sites, 11),
                (0, 0, 0),
                (1, 0, 11),
                (1023, 1, 0),
                (1024, 1, 11),
            ] {
                let mut table = level(MEANS);
                (table.totals[entry], table.counts[entry]) = (total, count);
                let refusal =
                    judge(judging(&table, 3)).map_or_else(|refusal| refusal.number, |_| 0);
                assert_eq!(refusal, number);
            }
        }
    }

    /// Each order's R, Gr, Gb and B, by plane: the same verdicts.
    #[test]
    fn the_four_orders() {
        let mut right = level(MEANS);
        right.totals[0] = 192 * 184;
        right.counts[18] = 191;
        let verdicts = judge(judging(&right, 3)).expect("accepted");
        for (order, planes) in [[0, 1, 2, 3], [1, 0, 3, 2], [3, 2, 1, 0], [2, 3, 0, 1]]
            .into_iter()
            .enumerate()
        {
            let turned = |entries: &[u32]| -> Vec<u32> {
                let planes = planes.iter();
                let planes = planes.map(|plane| &entries[5 * plane..5 * plane + 5]);
                planes.flatten().copied().collect()
            };
            let table = Table {
                totals: turned(&right.totals),
                counts: turned(&right.counts),
            };
            let lent = Judging {
                bayer_order: order as u64,
                ..judging(&table, 3)
            };
            assert_eq!(judge(lent), Ok(verdicts.clone()));
        }
    }

    /// 16 x numerator at limit x denominator passes, one grey level more fails, on either side.
    #[test]
    fn the_limit_itself_passes() {
        for limit in 1..=16 {
            for (total, fails) in [
                (192 * 160 + 192 * 6 * limit, 0),
                (192 * 160 + 192 * 6 * limit + 1, 1),
                (192 * 160 - 192 * 6 * limit, 0),
                (192 * 160 - 192 * 6 * limit - 1, 1),
            ] {
                let mut table = level([160, 264, 264, 114]);
                table.totals[2] = total as u32;
                let verdicts = judge(judging(&table, limit)).expect("accepted");
                assert_eq!(verdicts[2].fails, fails);
            }
        }
    }

    /// The greatest numerator and denominator, at full scale 4,095.
    #[test]
    fn the_greatest_numbers() {
        let greatest = (192u64 * 4095 * 192) * (768 * 4095 * 768);
        assert!(greatest < 1 << 60);
        for (total, numerator) in [(192 * 4095, 0), (0, greatest)] {
            let mut table = level([4095; 4]);
            table.totals[0] = total;
            let lent = Judging {
                full_scale: 4095,
                black_level: 0,
                ..judging(&table, 1)
            };
            let verdict = judge(lent).expect("accepted")[0];
            let found = (verdict.numerator, verdict.denominator);
            assert_eq!(found, (numerator, greatest));
        }
    }

    #[test]
    fn parameters_and_lengths_of_judging() {
        let table = level(MEANS);
        let lent = judging(&table, 3);
        let number = |lent| judge(lent).map_or_else(|refusal| refusal.number, |_| 0);
        for (limit, refusal) in [(0, 3), (1, 0), (16, 0), (17, 3), (u64::MAX, 3)] {
            assert_eq!(number(Judging { limit, ..lent }), refusal);
        }
        for (black_level, refusal) in [(0, 0), (1023, 0), (1024, 3)] {
            assert_eq!(
                number(Judging {
                    black_level,
                    ..lent
                }),
                refusal
            );
        }
        for at in 0..4 {
            let mut lengths = [8; 4];
            lengths[at] = 7;
            assert_eq!(number(Judging { lengths, ..lent }), 4);
        }
        let bad = Judging {
            bayer_order: 4,
            ..lent
        };
        assert_eq!(number(bad), 3);
        // 62 x 48: two blocks a plane, 12 entries.
        let small = Judging { width: 62, ..lent };
        assert_eq!(number(small), 4);
        let small = Judging {
            totals: &table.totals[..12],
            counts: &table.counts[..12],
            lengths: [4; 4],
            ..small
        };
        assert_eq!(number(small), 9);
    }
}
