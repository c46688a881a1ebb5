//! Times each call of the library at 128 x 128 (the job at 64 x 64, photon transfer on 64 points) beside the same work
//! in plain Rust; the search for defects also at 64 x 64 and 32 x 32, and at 128 x 128 with mostly gaps and with only
//! gaps; recoding also at 64 x 48, two recodings of one site, there and back.
//!
//! `bench` prints the least nanoseconds of many rounds, the library's over plain Rust's, and the library's for a site,
//! for a point, or for a recoding.
//! `bench --smoke` times nothing: it runs each form once on each input and sees that all give the same answer and the
//! same buffers.
//!
//! The library is what tools/native-lib makes: the archive of `rt lib`.

mod calls;
mod contest;

use std::process::ExitCode;

fn main() -> ExitCode {
    let words: Vec<String> = std::env::args().skip(1).collect();
    match words.iter().map(String::as_str).collect::<Vec<_>>()[..] {
        [] => {
            println!(
                "{:<22} {:<12} {:<14} {:>12} {:>9} {:>12} {:>8}",
                "call", "window", "plain Rust", "library ns", "ns a site", "plain ns", "ratio"
            );
            calls::all().iter().for_each(|contest| contest.time());
            ExitCode::SUCCESS
        }
        ["--smoke"] => {
            let differences: usize = calls::all().iter().map(|contest| contest.compare()).sum();
            ExitCode::from(u8::from(differences != 0))
        }
        _ => {
            eprintln!("usage: bench [--smoke]");
            ExitCode::from(2)
        }
    }
}
