//! What the calls on a window share in plain Rust: the refusals of sides, scale, lengths, codes and samples, and
//! windows to time them on.

/// Refusal 1 of document 01: a side is odd or not in 2..128.
pub fn legal(side: usize) -> bool {
    side % 2 == 0 && (2..=128).contains(&side)
}

/// The number and the place of a refusal, and how many samples are over, which is 0 but for 6; 0 each where nothing is
/// refused.
pub type Refusal = (u64, u64, u64);

pub const ACCEPTED: Refusal = (0, 0, 0);

pub fn accepted(found: Refusal) -> Result<(), Refusal> {
    if found == ACCEPTED {
        Ok(())
    } else {
        Err(found)
    }
}

/// Refusals 1 to 4: `other` where another parameter is out of range, and the lengths that should be the window's.
pub fn shape(
    width: usize,
    height: usize,
    full_scale: u64,
    other: bool,
    lengths: &[usize],
) -> Refusal {
    if !legal(width) || !legal(height) {
        return (1, 0, 0);
    }
    if !(1..=4095).contains(&full_scale) {
        return (2, 0, 0);
    }
    if other {
        return (3, 0, 0);
    }
    if lengths.iter().any(|&long| long != width * height) {
        return (4, 0, 0);
    }
    ACCEPTED
}

/// Whether a test holds somewhere. With `WALK` it is asked of every site: a walk with no way out vectorises.
pub fn some<const WALK: bool>(sites: usize, test: impl Fn(usize) -> bool) -> bool {
    if !WALK {
        return (0..sites).any(test);
    }
    let mut found = false;
    for i in 0..sites {
        found |= test(i);
    }
    found
}

/// Refusal 5: the first code above 3. With `WALK` it is looked for only where there is one.
pub fn codes<const WALK: bool>(mask: &[u8]) -> Refusal {
    if WALK && !some::<WALK>(mask.len(), |i| mask[i] > 3) {
        return ACCEPTED;
    }
    for i in 0..mask.len() {
        if mask[i] > 3 {
            return (5, i as u64, 0);
        }
    }
    ACCEPTED
}

/// How many surveyed samples of a frame are above full scale.
fn over(full_scale: u64, mask: &[u8], frame: &[u16]) -> u64 {
    let surveyed = mask.iter().zip(frame).filter(|(code, _)| **code == 0);
    surveyed
        .filter(|(_, sample)| full_scale < **sample as u64)
        .count() as u64
}

/// Refusal 6: the first surveyed sample above full scale, and how many there are in all frames. With `WALK` it is looked
/// for only where there is one. They are counted only then: counting takes longer than telling whether there are any.
pub fn samples<const WALK: bool, const FRAMES: usize>(
    full_scale: u64,
    mask: &[u8],
    frames: [&[u16]; FRAMES],
) -> Refusal {
    let top = full_scale as u16;
    for frame in frames {
        let frame = &frame[..mask.len()];
        if WALK && !some::<WALK>(mask.len(), |i| (mask[i] == 0) & (top < frame[i])) {
            continue;
        }
        for i in 0..mask.len() {
            if mask[i] == 0 && full_scale < frame[i] as u64 {
                return (
                    6,
                    i as u64,
                    frames.map(|of| over(full_scale, mask, of)).iter().sum(),
                );
            }
        }
    }
    ACCEPTED
}

/// A mask with one gap in 32 sites.
pub fn mask(sites: usize) -> Vec<u8> {
    (0..sites).map(|i| u8::from(i % 32 == 7)).collect()
}

/// A frame around 512, of 10 bits, with a pattern of its own for each seed.
pub fn frame(sites: usize, seed: usize) -> Vec<u16> {
    (0..sites)
        .map(|i| 480 + ((i * 37 + i / 128 * 11 + seed * 29) % 64) as u16)
        .collect()
}
