//! Blinking sites: a stack of dark frames in which one site jumps between two levels, while its mean looks healthy.
//! The camera is simulated in whole numbers, so the text is the same on every machine: `blinking.txt`.

use std::process::ExitCode;
use tippovrain::{blinking_sites, find_defects, stack_add, Refusal, Stack, Window, GAP, SURVEYED};

/// Samples of 10 bits.
const WINDOW: Window = Window {
    width: 16,
    height: 12,
    full_scale: 1023,
};
const SITES: usize = WINDOW.width * WINDOW.height;

const FRAMES: usize = 32;
/// In row 5, column 6: half of the frames have it low, half of them high.
const JUMPING: usize = 5 * WINDOW.width + 6;
/// Nothing is seen here, and every frame holds another number.
const UNSEEN: usize = 20;
/// Grey levels.
const SPREADS: [u64; 8] = [1, 4, 8, 16, 32, 64, 96, 128];
/// Noise alone spreads no site so far: what counts here jumps.
const ABOVE_NOISE: u64 = 16;

fn main() -> ExitCode {
    match blinking() {
        Ok(()) => ExitCode::SUCCESS,
        Err(refusal) => {
            eprintln!("{refusal}");
            ExitCode::FAILURE
        }
    }
}

fn blinking() -> Result<(), Refusal> {
    let mut mask = [SURVEYED; SITES];
    mask[UNSEEN] = GAP;
    let mut camera = Camera { state: 1288 };
    let mut stack = Stack::new(WINDOW);
    for number in 0..FRAMES {
        stack_add(WINDOW, &mask, &camera.frame(number), &mut stack)?;
    }
    println!(
        "{} dark frames, {} by {} sites",
        stack.frames, WINDOW.width, WINDOW.height
    );
    println!();
    println!("site   mean  least  greatest  spread");
    for site in JUMPING - 3..=JUMPING + 3 {
        print(&stack, site);
    }

    let mean: Vec<u16> = stack.sums.iter().map(|sum| rounded(*sum)).collect();
    let found = find_defects(WINDOW, 0, &mask, &mean, &mut [0; SITES])?;
    println!();
    println!("defective sites in the mean of the frames: {found}");
    println!();
    println!("spread  blinking sites");
    for spread in SPREADS {
        let count = blinking_sites(WINDOW, spread, &mask, &stack)?;
        println!("{spread:>6}  {count:>14}");
    }
    println!();
    print_jumps(&mask, &stack);
    Ok(())
}

fn print(stack: &Stack, site: usize) {
    println!(
        "{site:>4}  {:>5.1}  {:>5}  {:>8}  {:>6}",
        f64::from(stack.sums[site]) / FRAMES as f64,
        stack.least[site],
        stack.greatest[site],
        spread(stack, site)
    );
}

/// What an operator reads from the counts.
fn print_jumps(mask: &[u8], stack: &Stack) {
    println!(
        "noise spreads no site by {ABOVE_NOISE} grey levels, so a site that counts there jumps:"
    );
    for site in (0..SITES).filter(|site| mask[*site] == SURVEYED) {
        if u64::from(spread(stack, site)) >= ABOVE_NOISE {
            println!("site {site}, by {} grey levels", spread(stack, site));
        }
    }
}

fn spread(stack: &Stack, site: usize) -> u16 {
    stack.greatest[site] - stack.least[site]
}

/// A sum of all frames' samples as one sample, half rounded up.
fn rounded(sum: u32) -> u16 {
    ((sum as usize + FRAMES / 2) / FRAMES) as u16
}

/// A camera with a black level of 64 and some noise.
struct Camera {
    state: u64,
}

impl Camera {
    fn frame(&mut self, number: usize) -> Vec<u16> {
        (0..SITES).map(|site| self.sample(number, site)).collect()
    }

    /// Of 16 coins 8 are heads on average. Each head more or less is a grey level: a noise of 2 grey levels.
    fn sample(&mut self, number: usize, site: usize) -> u16 {
        let heads = (self.coins() as u16).count_ones() as u16;
        match site {
            JUMPING if number / 4 % 2 == 0 => 64 - 40 + heads - 8,
            JUMPING => 64 + 40 + heads - 8,
            UNSEEN => self.coins() as u16,
            _ => 64 + heads - 8,
        }
    }

    /// 64 coins (xorshift).
    fn coins(&mut self) -> u64 {
        self.state ^= self.state << 13;
        self.state ^= self.state >> 7;
        self.state ^= self.state << 17;
        self.state
    }
}
