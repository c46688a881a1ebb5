//! A first noise figure: two frames of one scene with a gap in the window, and what a refusal says.
//! `examples/noise.c` is the same program in C.

use std::process::ExitCode;
use tippovrain::{dark_level, pair_figures, Refusal, Window, GAP, SURVEYED};

fn main() -> ExitCode {
    match figures() {
        Ok(()) => ExitCode::SUCCESS,
        Err(refusal) => {
            eprintln!("{refusal}");
            ExitCode::FAILURE
        }
    }
}

fn figures() -> Result<(), Refusal> {
    // Four sites wide, two high; samples of 10 bits, so a full scale of 1023 grey levels.
    let window = Window {
        width: 4,
        height: 2,
        full_scale: 1023,
    };
    // The sample of a gap is never read: it may be any number.
    let first = [100, 101, 102, 103, 100, 65535, 102, 103];
    let second = [101, 101, 102, 104, 100, 65535, 103, 103];
    let mut mask = [SURVEYED; 8];
    mask[5] = GAP;

    let pair = pair_figures(window, &mask, &first, &second)?;
    let dark = dark_level(window, 64, &mask, &first)?;
    println!("sites: {} of {} surveyed", pair.n, mask.len());
    println!(
        "variance: {} = {:.6} grey levels squared",
        pair.variance.exact, pair.variance.figure
    );
    println!(
        "noise: {}/{} = {:.6} grey levels",
        pair.r,
        64 * pair.n,
        pair.noise
    );
    println!("dark level: {dark} grey levels above black");

    // Were the gap surveyed, its sample would count, and is above full scale in both frames.
    mask[5] = SURVEYED;
    match pair_figures(window, &mask, &first, &second) {
        Ok(pair) => println!("without the gap: {:.6} grey levels", pair.noise),
        Err(refusal) => println!("without the gap: {refusal}"),
    }
    Ok(())
}
