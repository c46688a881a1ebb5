//! Colour shading: a window that turns from red to blue towards its corners, its blocks judged by its centre, and some
//! sites recoded.
//! The camera is simulated in whole numbers, so the text is the same on every machine: `shading.txt`.

use std::process::ExitCode;
use tippovrain::{
    BayerOrder, Refusal, Shading, ShadingRatio, ShadingTable, Window, DEFECT, GAP, SURVEYED,
};

/// Samples of 10 bits. Each plane is 64 wide and 48 high: four rows of four blocks.
const WINDOW: Window = Window {
    width: 128,
    height: 96,
    full_scale: 1023,
};
const SITES: usize = WINDOW.width * WINDOW.height;

const BLACK_LEVEL: u64 = 64;
/// Two sixteenths: a block fails where its ratio is more than an eighth off.
const LIMIT: u64 = 2;

fn main() -> ExitCode {
    match shading() {
        Ok(()) => ExitCode::SUCCESS,
        Err(refusal) => {
            eprintln!("{refusal}");
            ExitCode::FAILURE
        }
    }
}

fn shading() -> Result<(), Refusal> {
    let mut frame: Vec<u16> = (0..SITES).map(sample).collect();
    let mut mask = [SURVEYED; SITES];
    // Every B of the block in row 1, column 2 is a gap.
    let gaps: Vec<usize> = block_sites(B, 1, 2).collect();
    for &site in &gaps {
        mask[site] = GAP;
    }
    // Hot sites: one R in 13 of the block in row 2, column 1.
    let hot: Vec<usize> = block_sites(R, 2, 1).step_by(13).collect();
    for &site in &hot {
        frame[site] = 1023;
    }

    let mut table = ShadingTable::new(WINDOW, &mask, &frame)?;
    println!(
        "how far each block's ratio is off, as a part of the centre's; * above {LIMIT}/16; (7) refused"
    );
    println!();
    println!("as it came:");
    print(&table.judge(BLACK_LEVEL, BayerOrder::R, LIMIT)?);

    for &site in &hot {
        table.recode(site, DEFECT, &mut mask, &frame)?;
    }
    let seen = &gaps[..96];
    for &site in seen {
        table.recode(site, SURVEYED, &mut mask, &frame)?;
    }
    println!();
    println!(
        "{} hot sites recoded as defects, {} gaps as surveyed:",
        hot.len(),
        seen.len()
    );
    print(&table.judge(BLACK_LEVEL, BayerOrder::R, LIMIT)?);

    let afresh = ShadingTable::new(WINDOW, &mask, &frame)?;
    println!();
    println!(
        "the table equals one made afresh: {}",
        if table == afresh { "yes" } else { "no" }
    );
    Ok(())
}

/// The blocks as a grid for each ratio: how far each is off, a star where it fails; a refusal by its number.
fn print(shading: &Shading) {
    for (name, ratio) in [("R/Gr", ShadingRatio::RGr), ("B/Gb", ShadingRatio::BGb)] {
        for row in 0..shading.rows() {
            print!("{}", if row == 0 { name } else { "    " });
            for column in 0..shading.columns() {
                match shading.block(ratio, row, column) {
                    Ok(block) => {
                        let off = block.off.numerator as f64 / block.off.denominator as f64;
                        print!("  {}{off:.3}", if block.fails { '*' } else { ' ' });
                    }
                    Err(refusal) => print!("  {:>6}", format!("({})", refusal.number)),
                }
            }
            println!();
        }
    }
}

/// The parity of row and column of R, and of B.
const R: (usize, usize) = (0, 0);
const B: (usize, usize) = (1, 1);

/// The sites of a block of a plane, by the row and the column of the block.
fn block_sites(
    (row_parity, column_parity): (usize, usize),
    row: usize,
    column: usize,
) -> impl Iterator<Item = usize> {
    (0..12 * 16).map(move |i| {
        let (y, x) = (12 * row + i / 16, 16 * column + i % 16);
        (2 * y + row_parity) * WINDOW.width + 2 * x + column_parity
    })
}

/// Light falls off from the middle, red faster than green, blue more slowly.
fn sample(site: usize) -> u16 {
    let (y, x) = (site / WINDOW.width, site % WINDOW.width);
    let away = y.abs_diff(WINDOW.height / 2).pow(2) + x.abs_diff(WINDOW.width / 2).pow(2);
    let (bright, fall) = match (y % 2, x % 2) {
        R => (300, 55),
        B => (250, 15),
        _ => (500, 25),
    };
    // the corner is 6,400 away
    (64 + bright - bright * away * fall / 640_000) as u16
}
