//! Finding defects by running totals (document 02, b): slips that such a search could make, and
//! which cases tell them. What its totals would hold is summed directly, at each site anew.

use std::ops::{Add, RangeInclusive, Sub};

use crate::shared::{names, surveyed, Window};
use crate::sites::find_defects;

/// A search that is accepted.
pub struct Search<'a> {
    window: Window<'a>,
    /// From 1: what 0 stands for is no matter of the totals.
    threshold: i64,
    /// The window that was searched before this one.
    before: Option<Window<'a>>,
    out_mask: Vec<u8>,
}

impl<'a> Search<'a> {
    pub fn new(window: Window<'a>, threshold: u64, before: Option<Window<'a>>) -> Self {
        let mut out_mask = vec![0; window.mask.len()];
        let answer = find_defects(window, threshold, &mut out_mask);
        assert!(answer.number == 0 && threshold > 0);
        Search {
            window,
            threshold: threshold as i64,
            before,
            out_mask,
        }
    }

    fn has_code(&self, site: usize, code: u8) -> bool {
        self.window.mask[site] == code
    }

    fn is_found(&self, site: usize) -> bool {
        self.has_code(site, 0) && self.out_mask[site] == 2
    }
}

/// How many sites, and the sum of their samples.
#[derive(Clone, Copy)]
struct Totals {
    count: i64,
    sum: i64,
}

const NOTHING: Totals = Totals { count: 0, sum: 0 };

impl Totals {
    fn exchanged(self) -> Self {
        Totals {
            count: self.sum,
            sum: self.count,
        }
    }
}

impl Add for Totals {
    type Output = Totals;

    fn add(self, other: Totals) -> Totals {
        Totals {
            count: self.count + other.count,
            sum: self.sum + other.sum,
        }
    }
}

impl Sub for Totals {
    type Output = Totals;

    fn sub(self, other: Totals) -> Totals {
        Totals {
            count: self.count - other.count,
            sum: self.sum - other.sum,
        }
    }
}

/// Parity of the rows, and of the columns.
type Plane = (usize, usize);

/// Rows or columns of a plane, which may reach beyond it.
type Lines = RangeInclusive<i64>;

fn line(at: i64) -> Lines {
    at..=at
}

/// The rows or columns of the box around `at`.
fn near(at: i64) -> Lines {
    at - 15..=at + 15
}

/// A line, where the box around `at` has it.
fn line_near(at: i64, line: i64) -> Lines {
    line.max(at - 15)..=line.min(at + 15)
}

/// Those lines that are in the plane, of a window with this side.
fn cut(lines: Lines, side: usize) -> impl Iterator<Item = usize> {
    let last = side as i64 / 2 - 1;
    let lines = *lines.start().max(&0)..=*lines.end().min(&last);
    lines.map(|line| line as usize)
}

/// Totals of a plane's sites on these rows and columns, of those that are taken.
fn totals(
    window: &Window,
    plane: Plane,
    rows: Lines,
    columns: Lines,
    is_taken: impl Fn(usize) -> bool,
) -> Totals {
    let mut totals = NOTHING;
    for row in cut(rows, window.height) {
        for column in cut(columns.clone(), window.width) {
            let site = (2 * row + plane.0) * window.width + 2 * column + plane.1;
            if is_taken(site) {
                totals.count += 1;
                totals.sum += i64::from(window.frame[site]);
            }
        }
    }
    totals
}

/// A site by its plane, and by its row and column there.
#[derive(Clone, Copy)]
struct Spot<'a> {
    search: &'a Search<'a>,
    plane: Plane,
    row: i64,
    column: i64,
}

impl<'a> Spot<'a> {
    fn of(search: &'a Search, site: usize) -> Self {
        let (row, column) = (site / search.window.width, site % search.window.width);
        Spot {
            search,
            plane: (row % 2, column % 2),
            row: row as i64 / 2,
            column: column as i64 / 2,
        }
    }

    /// Another site of the plane.
    fn moved_to(&self, row: i64, column: i64) -> Self {
        Spot {
            row,
            column,
            ..*self
        }
    }

    fn site(&self) -> usize {
        let (row, column) = (2 * self.row as usize, 2 * self.column as usize);
        (row + self.plane.0) * self.search.window.width + column + self.plane.1
    }

    fn is_surveyed(&self) -> bool {
        self.search.has_code(self.site(), 0)
    }

    /// How many rows the plane has.
    fn height(&self) -> i64 {
        self.search.window.height as i64 / 2
    }

    /// How many columns.
    fn width(&self) -> i64 {
        self.search.window.width as i64 / 2
    }

    /// The rows that the box has left behind.
    fn above(&self) -> Lines {
        0..=self.row - 16
    }

    /// The columns that it has left behind.
    fn left(&self) -> Lines {
        0..=self.column - 16
    }

    /// The surveyed sites of a plane on these rows and columns.
    fn surveyed(&self, plane: Plane, rows: Lines, columns: Lines) -> Totals {
        let is_surveyed = |site| self.search.has_code(site, 0);
        totals(&self.search.window, plane, rows, columns, is_surveyed)
    }

    /// The right totals.
    fn around(&self) -> Totals {
        self.around_in(self.plane)
    }

    /// Those at the same row and column of another plane.
    fn around_in(&self, plane: Plane) -> Totals {
        self.surveyed(plane, near(self.row), near(self.column))
    }

    /// These rows, as wide as the box.
    fn rows(&self, rows: Lines) -> Totals {
        self.surveyed(self.plane, rows, near(self.column))
    }

    /// These columns, as high as the box.
    fn columns(&self, columns: Lines) -> Totals {
        self.surveyed(self.plane, near(self.row), columns)
    }

    fn row_away(&self, away: i64) -> Totals {
        self.rows(line(self.row + away))
    }

    fn column_away(&self, away: i64) -> Totals {
        self.columns(line(self.column + away))
    }

    /// How the totals change when the box comes down to a row.
    fn step_down(&self, row: i64) -> Totals {
        self.rows(line(row + 15)) - self.rows(line(row - 16))
    }

    /// How they change when it comes along to a column.
    fn step_along(&self, column: i64) -> Totals {
        self.columns(line(column + 15)) - self.columns(line(column - 16))
    }

    /// The sites of these rows, as wide as the box, that are taken.
    fn taken(&self, rows: Lines, is_taken: impl Fn(usize) -> bool) -> Totals {
        let (window, columns) = (&self.search.window, near(self.column));
        totals(window, self.plane, rows, columns, is_taken)
    }

    fn coded(&self, code: u8, rows: Lines) -> Totals {
        self.taken(rows, |site| self.search.has_code(site, code))
    }

    /// Of columns that the plane has not, what lies there in the buffer: another row's sites.
    fn run_on(&self, columns: Lines) -> Totals {
        let window = &self.search.window;
        let mut totals = NOTHING;
        for row in cut(near(self.row), window.height) {
            let first = ((2 * row + self.plane.0) * window.width + self.plane.1) as i64;
            for column in columns.clone() {
                // Before the buffer this is a number far beyond its end.
                let site = (first + 2 * column) as usize;
                if window.mask.get(site) == Some(&0) {
                    totals.count += 1;
                    totals.sum += i64::from(window.frame[site]);
                }
            }
        }
        totals
    }

    /// What the totals of the plane before hold in the end.
    fn left_by_plane_before(&self) -> Totals {
        let end = self.moved_to(self.height() - 1, self.column);
        match self.plane {
            (0, 0) => NOTHING,
            (1, 0) => end.around_in((0, 1)),
            (row, _) => end.around_in((row, 0)),
        }
    }

    /// What the totals of the window before hold in the end.
    fn left_by_window_before(&self) -> Totals {
        let Some(before) = &self.search.before else {
            return NOTHING;
        };
        let (rows, columns) = (near(before.height as i64 / 2 - 1), near(self.column));
        totals(before, (1, 1), rows, columns, |site| before.mask[site] == 0)
    }

    /// How far the site is beyond the threshold by these totals, below 0 where it is not found.
    fn beyond(&self, totals: Totals) -> i64 {
        let p = i64::from(self.search.window.frame[self.site()]);
        (p * totals.count - totals.sum).abs() - self.search.threshold * totals.count
    }

    /// The totals lead to another decision than the right one.
    fn differs(&self, totals: Totals) -> bool {
        (self.beyond(totals) >= 0) != self.search.is_found(self.site())
    }
}

/// What the totals of a search with the slip hold at a site, where the right ones are so.
type Slip = fn(&Spot, Totals) -> Totals;

/// Slips that a search can make in its counts, in its sums, and in both.
const SLIPS: &[(&str, Slip)] = &[
    // A line dropped too early or too late, added too late or too early.
    ("a row short above", |at, right| right - at.row_away(-15)),
    ("a row long above", |at, right| right + at.row_away(-16)),
    ("a row short below", |at, right| right - at.row_away(15)),
    ("a row long below", |at, right| right + at.row_away(16)),
    ("a column short on the left", |at, right| {
        right - at.column_away(-15)
    }),
    ("a column long on the left", |at, right| {
        right + at.column_away(-16)
    }),
    ("a column short on the right", |at, right| {
        right - at.column_away(15)
    }),
    ("a column long on the right", |at, right| {
        right + at.column_away(16)
    }),
    // As many lines as there should be, but one step off.
    ("a row too high", |at, right| {
        right + at.row_away(-16) - at.row_away(15)
    }),
    ("a row too low", |at, right| {
        right + at.row_away(16) - at.row_away(-15)
    }),
    ("a column too far left", |at, right| {
        right + at.column_away(-16) - at.column_away(15)
    }),
    ("a column too far right", |at, right| {
        right + at.column_away(16) - at.column_away(-15)
    }),
    // The plane's first and last lines.
    ("first row left out", |at, right| {
        right - at.rows(line_near(at.row, 0))
    }),
    ("last row left out", |at, right| {
        right - at.rows(line_near(at.row, at.height() - 1))
    }),
    ("first column left out", |at, right| {
        right - at.columns(line_near(at.column, 0))
    }),
    ("last column left out", |at, right| {
        right - at.columns(line_near(at.column, at.width() - 1))
    }),
    ("first row never dropped", |at, right| {
        right + at.rows(0..=(at.row - 16).min(0))
    }),
    ("first column never dropped", |at, right| {
        right + at.columns(0..=(at.column - 16).min(0))
    }),
    ("no row dropped", |at, right| right + at.rows(at.above())),
    ("no column dropped", |at, right| {
        right + at.columns(at.left())
    }),
    // In a summed table, what is both above and to the left is taken off twice.
    ("table's corner left out", |at, right| {
        right - at.surveyed(at.plane, at.above(), at.left())
    }),
    // The line with which the first box ends, once too seldom or too often.
    ("row 15 left out", |at, right| right - at.rows(line(15))),
    ("row 15 twice", |at, right| right + at.rows(line(15))),
    ("column 15 left out", |at, right| {
        right - at.columns(line(15))
    }),
    ("column 15 twice", |at, right| right + at.columns(line(15))),
    // Past the plane's edge, or short of it.
    ("into the next row", |at, right| {
        right + at.run_on(at.width()..=at.column + 15)
    }),
    ("into the row before", |at, right| {
        right + at.run_on(at.column - 15..=-1)
    }),
    ("rows cut by the width", |at, right| {
        right - at.rows(at.width().max(at.row - 15)..=at.row + 15)
    }),
    ("columns cut by the height", |at, right| {
        right - at.columns(at.height().max(at.column - 15)..=at.column + 15)
    }),
    // The box stays behind where nothing is judged.
    ("no step at unsurveyed sites", |at, right| {
        let is_passed = |column: &i64| !at.moved_to(at.row, *column).is_surveyed();
        let passed = (1..=at.column).filter(is_passed);
        passed.fold(right, |wrong, column| wrong - at.step_along(column))
    }),
    ("no step at unsurveyed rows", |at, right| {
        let is_seen = |row, column| at.moved_to(row, column).is_surveyed();
        let is_passed = |row: &i64| !(0..at.width()).any(|column| is_seen(*row, column));
        let passed = (1..=at.row).filter(is_passed);
        passed.fold(right, |wrong, row| wrong - at.step_down(row))
    }),
    // Another plane, or two in one.
    ("other column parity", |at, _| {
        at.around_in((at.plane.0, 1 - at.plane.1))
    }),
    ("other row parity", |at, _| {
        at.around_in((1 - at.plane.0, at.plane.1))
    }),
    ("both parities other", |at, _| {
        at.around_in((1 - at.plane.0, 1 - at.plane.1))
    }),
    ("parities exchanged", |at, _| {
        at.around_in((at.plane.1, at.plane.0))
    }),
    ("either column parity", |at, right| {
        right + at.around_in((at.plane.0, 1 - at.plane.1))
    }),
    ("either row parity", |at, right| {
        right + at.around_in((1 - at.plane.0, at.plane.1))
    }),
    // Totals that do not begin at 0.
    ("row before kept", |at, right| match at.row {
        0 => right,
        row => right + at.moved_to(row - 1, at.width() - 1).around(),
    }),
    ("column before kept", |at, right| match at.column {
        0 => right,
        column => right + at.moved_to(at.height() - 1, column - 1).around(),
    }),
    ("plane before kept", |at, right| {
        right + at.left_by_plane_before()
    }),
    ("window before kept", |at, right| {
        right + at.left_by_window_before()
    }),
    // Counts for sums, and sums for counts.
    ("exchanged", |_, right| right.exchanged()),
    ("exchanged when added", |at, right| {
        let added = at.rows(16..=at.row + 15);
        right - added + added.exchanged()
    }),
    ("exchanged when dropped", |at, right| {
        let dropped = at.rows(at.above());
        right + dropped - dropped.exchanged()
    }),
    // Sites that are not surveyed; dropped, though they were never added.
    ("gaps too", |at, right| right + at.coded(1, near(at.row))),
    ("defects too", |at, right| right + at.coded(2, near(at.row))),
    ("filled too", |at, right| right + at.coded(3, near(at.row))),
    ("gaps dropped", |at, right| right - at.coded(1, at.above())),
    ("defects dropped", |at, right| {
        right - at.coded(2, at.above())
    }),
    ("filled dropped", |at, right| {
        right - at.coded(3, at.above())
    }),
    // Sites that the search itself has found. Until it first decides wrongly by this, it has found
    // what the right search finds.
    ("found left out", |at, right| {
        let is_out = |site| site < at.site() && at.search.is_found(site);
        right - at.taken(near(at.row), is_out)
    }),
    ("found never dropped", |at, right| {
        right + at.taken(at.above(), |site| at.search.is_found(site))
    }),
];

/// Slips that only the counts or only the sums can have: those of one row or column of a box are
/// up to 31 and 126,945, those of a box up to 961 and 3,935,295.
const NARROW: &[(&str, Slip)] = &[
    ("counts in 8 bits", |_, right| Totals {
        count: right.count % (1 << 8),
        ..right
    }),
    ("counts in 9 bits", |_, right| Totals {
        count: right.count % (1 << 9),
        ..right
    }),
    ("sums in 16 bits", |_, right| Totals {
        sum: right.sum % (1 << 16),
        ..right
    }),
    ("sums in 21 bits", |_, right| Totals {
        sum: right.sum % (1 << 21),
        ..right
    }),
    ("sums to 65535", |_, right| Totals {
        sum: right.sum.min(65535),
        ..right
    }),
    ("sums of rows in 16 bits", |at, right| Totals {
        sum: near(at.row)
            .map(|row| at.rows(line(row)).sum % (1 << 16))
            .sum(),
        ..right
    }),
    ("sums of columns in 16 bits", |at, right| Totals {
        sum: near(at.column)
            .map(|column| at.columns(line(column)).sum % (1 << 16))
            .sum(),
        ..right
    }),
];

/// Both sides of the threshold: with 1 more or less in a sum the decision is another one.
const EXACT: &[(&str, i64)] = &[("threshold met exactly", 0), ("threshold missed by 1", -1)];

/// All that cases can tell, and a run has to.
pub const KINDS: &[&[&str]] = &[
    &names::<{ SLIPS.len() }, _>(SLIPS),
    &names::<{ NARROW.len() }, _>(NARROW),
    &names::<{ EXACT.len() }, _>(EXACT),
];

/// A surveyed site, and the right totals there.
type Judged<'a> = (Spot<'a>, Totals);

fn judged<'a>(search: &'a Search) -> Vec<Judged<'a>> {
    surveyed(search.window.mask)
        .map(|site| Spot::of(search, site))
        .map(|spot| (spot, spot.around()))
        .collect()
}

/// What a case tells from the right search: by a slip, some site of it is decided otherwise.
pub fn told(search: &Search) -> Vec<&'static str> {
    let judged = judged(search);
    let mut told = vec![];
    for &(name, slip) in SLIPS {
        if tells_every_way(&judged, slip) {
            told.push(name);
        }
    }
    for &(name, slip) in NARROW {
        if tells(&judged, slip) {
            told.push(name);
        }
    }
    for &(name, beyond) in EXACT {
        if judged.iter().any(|(at, right)| at.beyond(*right) == beyond) {
            told.push(name);
        }
    }
    told
}

/// Whether the slip makes a wrong decision.
fn tells(judged: &[Judged], slip: Slip) -> bool {
    judged
        .iter()
        .any(|(at, right)| at.differs(slip(at, *right)))
}

/// Whether it makes one in both totals, in the counts alone, and in the sums alone.
fn tells_every_way(judged: &[Judged], slip: Slip) -> bool {
    let mut told = [false; 3];
    for (at, right) in judged {
        let wrong = slip(at, *right);
        if wrong.count == 0 {
            // A plane of one line, left out: all its sites are found, which is easy to tell.
            continue;
        }
        let Totals { count, sum } = wrong;
        let ways = [wrong, Totals { count, ..*right }, Totals { sum, ..*right }];
        for (told, way) in told.iter_mut().zip(ways) {
            *told |= at.differs(way);
        }
        if told == [true; 3] {
            return true;
        }
    }
    false
}

#[cfg(test)]
mod tests {
    use super::*;

    fn window<'a>(width: usize, mask: &'a [u8], frame: &'a [u16]) -> Window<'a> {
        Window {
            width,
            height: mask.len() / width,
            full_scale: 4095,
            mask,
            frame,
        }
    }

    fn told_by(width: usize, mask: &[u8], frame: &[u16]) -> Vec<&'static str> {
        told(&Search::new(window(width, mask, frame), 1, None))
    }

    /// A window of one level, but for one site of plane (0,0): lying, and upright.
    fn told_along(lines: usize, level: u16, line: usize, sample: u16) -> [Vec<&'static str>; 2] {
        [(2 * lines, 2 * line), (2, 4 * line)].map(|(width, site)| {
            let mut frame = vec![level; 4 * lines];
            frame[site] = sample;
            told_by(width, &vec![0; 4 * lines], &frame)
        })
    }

    /// Of those told, the slips in how far the box reaches.
    fn reaches(told: &[&'static str]) -> Vec<&'static str> {
        let reaches = told.iter().filter(|name| name.starts_with("a "));
        reaches.copied().collect()
    }

    #[test]
    fn no_two_kinds_have_one_name() {
        let mut names: Vec<&str> = KINDS.concat();
        names.sort();
        let all = names.len();
        names.dedup();
        assert_eq!(names.len(), all);
    }

    /// From the first line: it is to be left at line 16, and at no line of shorter planes.
    #[test]
    fn a_bright_site_tells_how_far_a_box_reaches() {
        for (lines, columns, rows) in [
            (15, &[][..], &[][..]),
            (
                16,
                &["a column short on the left", "a column too far right"],
                &["a row short above", "a row too low"],
            ),
            (
                17,
                &[
                    "a column short on the left",
                    "a column long on the left",
                    "a column too far left",
                    "a column too far right",
                ],
                &[
                    "a row short above",
                    "a row long above",
                    "a row too high",
                    "a row too low",
                ],
            ),
        ] {
            let [lying, upright] = told_along(lines, 1000, 0, 4095);
            assert_eq!(reaches(&lying), columns);
            assert_eq!(reaches(&upright), rows);
        }
    }

    #[test]
    fn a_bright_last_line_tells_the_other_ends() {
        let [lying, upright] = told_along(17, 1000, 16, 4095);
        for end in ["a column short on the right", "a column long on the right"] {
            assert!(lying.contains(&end));
        }
        for end in ["a row short below", "a row long below"] {
            assert!(upright.contains(&end));
        }
    }

    /// R21, as columns and as rows.
    #[test]
    fn the_example_meets_the_threshold_exactly() {
        for (line, columns, rows) in [
            (
                15,
                ["a column short on the right", "a column too far left"],
                ["a row short below", "a row too high"],
            ),
            (
                16,
                ["a column short on the left", "a column too far right"],
                ["a row short above", "a row too low"],
            ),
        ] {
            let [lying, upright] = told_along(32, 0, line, 16);
            assert_eq!(reaches(&lying), columns);
            assert_eq!(reaches(&upright), rows);
            for told in [lying, upright] {
                assert!(told.contains(&"threshold met exactly"));
            }
            for told in told_along(32, 0, line, 15) {
                assert_eq!(reaches(&told), [""; 0]);
                assert!(!told.contains(&"threshold met exactly"));
                assert!(told.contains(&"threshold missed by 1"));
            }
        }
    }

    #[test]
    fn lines_that_are_never_met_or_never_left() {
        let [lying, upright] = told_along(17, 1000, 0, 4095);
        for slip in [
            "first column left out",
            "first column never dropped",
            "no column dropped",
            "columns cut by the height",
            "column before kept",
        ] {
            assert!(lying.contains(&slip), "{slip}");
        }
        for slip in [
            "first row left out",
            "first row never dropped",
            "no row dropped",
            "rows cut by the width",
            "row before kept",
        ] {
            assert!(upright.contains(&slip), "{slip}");
        }
        let [lying, upright] = told_along(17, 1000, 15, 4095);
        assert!(lying.contains(&"column 15 left out"));
        assert!(upright.contains(&"row 15 left out"));
        assert!(!lying.contains(&"first column left out"));
        assert!(!upright.contains(&"first row left out"));
    }

    /// Where a slip is in both totals, the mean of one level stays.
    #[test]
    fn a_level_window_tells_little() {
        assert_eq!(told_by(8, &[0; 64], &[1000; 64]), ["exchanged"]);
    }

    #[test]
    fn planes_of_other_levels_tell_parities() {
        let frame = [1000, 1500, 1000, 1500, 2000, 2500, 2000, 2500].repeat(2);
        let told = told_by(4, &[0; 16], &frame);
        for slip in [
            "either column parity",
            "either row parity",
            "plane before kept",
            "into the next row",
            "into the row before",
        ] {
            assert!(told.contains(&slip), "{slip}");
        }
        // Counts are alike in all planes.
        assert!(!told.contains(&"other column parity"));
        let mut mask = [0; 16];
        (mask[0], mask[5], mask[7]) = (1, 1, 1);
        let told = told_by(4, &mask, &frame);
        for slip in ["other column parity", "both parities other"] {
            assert!(told.contains(&slip), "{slip}");
        }
    }

    #[test]
    fn unsurveyed_samples_tell_their_own_code() {
        let too = ["gaps too", "defects too", "filled too"];
        let dropped = ["gaps dropped", "defects dropped", "filled dropped"];
        for code in 1..=3 {
            let (mut mask, mut frame) = ([0; 68], [1000; 68]);
            (mask[0], frame[0]) = (code as u8, 65535);
            let mut told = told_by(2, &mask, &frame);
            told.retain(|name| too.contains(name) || dropped.contains(name));
            assert_eq!(told, [too[code - 1], dropped[code - 1]]);
        }
    }

    #[test]
    fn the_window_before_tells_what_it_left() {
        let (mask, frame) = ([0; 16], [4095; 16]);
        let before = window(4, &mask, &frame);
        let kept = |frame: &[u16]| {
            let search = Search::new(window(2, &[0; 4], frame), 1, Some(before));
            told(&search).contains(&"window before kept")
        };
        assert!(kept(&[1000; 4]));
        // The same level, so the same mean.
        assert!(!kept(&[4095; 4]));
        assert!(!told_by(2, &[0; 4], &[1000; 4]).contains(&"window before kept"));
    }

    #[test]
    fn totals_that_need_many_bits() {
        let told = |width: usize, height: usize| -> Vec<&str> {
            let (mask, frame) = (vec![0; width * height], vec![4095; width * height]);
            let search = Search::new(window(width, &mask, &frame), 1, None);
            let judged = judged(&search);
            let told = NARROW.iter().filter(|(_, slip)| tells(&judged, *slip));
            told.map(|(name, _)| *name).collect()
        };
        let sums = ["sums in 16 bits", "sums to 65535"];
        assert_eq!(told(32, 2), [""; 0]);
        assert_eq!(told(34, 2), [sums[0], sums[1], "sums of rows in 16 bits"]);
        assert_eq!(
            told(2, 34),
            [sums[0], sums[1], "sums of columns in 16 bits"]
        );
        assert_eq!(told(32, 30), sums);
        assert_eq!(told(32, 32), ["counts in 8 bits", sums[0], sums[1]]);
        assert_eq!(told(62, 34).len(), NARROW.len());
    }
}
