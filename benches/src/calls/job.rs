use super::window::{accepted, codes, frame, legal, mask, samples, shape, Refusal, ACCEPTED};
use crate::contest::Contest;

extern "C" {
    fn tip_job(
        input: *const u8,
        input_len: usize,
        place: *mut u64,
        over: *mut u64,
        sites: *mut u64,
        p: *mut u64,
        q: *mut u64,
        r: *mut u64,
        dark: *mut i64,
    ) -> u64;
}

pub struct Input {
    stream: Vec<u8>,
}

#[derive(Debug, PartialEq)]
pub struct Output {
    number: u64,
    place: u64,
    over: u64,
    /// n, P, Q and r.
    whole: [u64; 4],
    dark: i64,
}

pub fn contest() -> Contest<Input, Output> {
    Contest {
        call: "tip_job",
        timed: &[64 * 64],
        inputs: vec![
            ("64 x 64", stream(64, 64, |_| {})),
            ("2 x 4", stream(2, 4, |_| {})),
            ("refused 1", stream(3, 4, |_| {})),
            // full scale 511, which both frames exceed
            ("refused 6", stream(4, 4, |bytes| bytes[13] = 1)),
            ("refused 20", stream(4, 4, |bytes| bytes.truncate(30))),
            ("refused 21", stream(4, 4, |bytes| bytes[10] = 4)),
            ("refused 22", stream(4, 4, |bytes| bytes[12] = 3)),
            ("refused 23", stream(4, 4, |bytes| bytes.push(0))),
            ("refused 24", stream(66, 4, |_| {})),
        ],
        lent: |_| Output {
            number: 77,
            place: 77,
            over: 77,
            whole: [77; 4],
            dark: 77,
        },
        library,
        plain: vec![("indexed", plain::<false>), ("walk first", plain::<true>)],
    }
}

/// Two frames of 10 bits with full scale 1023 and black level 64.
fn stream(width: usize, height: usize, spoil: fn(&mut Vec<u8>)) -> Input {
    let sites = width * height;
    let mut stream = Vec::new();
    let mut field = |tag: u8, body: &[u8]| {
        stream.push(tag);
        stream.extend((body.len() as u16).to_be_bytes());
        stream.extend(body);
    };
    field(1, &(width as u16).to_be_bytes());
    field(2, &(height as u16).to_be_bytes());
    field(3, &1023u16.to_be_bytes());
    field(4, &64u16.to_be_bytes());
    field(5, &mask(sites));
    field(6, &packed(&frame(sites, 0)));
    field(7, &packed(&frame(sites, 1)));
    field(0, &[]);
    spoil(&mut stream);
    Input { stream }
}

fn packed(samples: &[u16]) -> Vec<u8> {
    let mut bytes = Vec::new();
    for group in samples.chunks(4) {
        bytes.extend(group.iter().map(|sample| (sample >> 2) as u8));
        let low = |(j, sample): (usize, &u16)| (sample & 3) << (2 * j);
        bytes.push(group.iter().enumerate().map(low).sum::<u16>() as u8);
    }
    bytes
}

fn library(input: &Input, output: &mut Output) {
    let [sites, p, q, r] = &mut output.whole;
    // SAFETY: the pointers come from borrows, so they are aligned and nothing that is written overlaps.
    output.number = unsafe {
        tip_job(
            input.stream.as_ptr(),
            input.stream.len(),
            &mut output.place,
            &mut output.over,
            sites,
            p,
            q,
            r,
            &mut output.dark,
        )
    };
}

#[inline(never)]
fn plain<const WALK: bool>(input: &Input, output: &mut Output) {
    let (refusal, whole, dark) = match figures::<WALK>(&input.stream) {
        Ok((whole, dark)) => (ACCEPTED, whole, dark),
        Err(refusal) => (refusal, [0; 4], 0),
    };
    *output = Output {
        number: refusal.0,
        place: refusal.1,
        over: refusal.2,
        whole,
        dark,
    };
}

fn word(bytes: &[u8], at: usize) -> usize {
    u16::from_be_bytes([bytes[at], bytes[at + 1]]) as usize
}

/// The body of the field at an offset, or its fault.
fn field(bytes: &[u8], at: usize, tag: u8, long: usize) -> Result<&[u8], Refusal> {
    if bytes.len() <= at {
        return Err((20, at as u64, 0));
    }
    if bytes[at] != tag {
        return Err((21, at as u64, 0));
    }
    if bytes.len() < at + 3 {
        return Err((20, at as u64, 0));
    }
    if word(bytes, at + 1) != long {
        return Err((22, at as u64, 0));
    }
    if bytes.len() < at + 3 + long {
        return Err((20, at as u64, 0));
    }
    Ok(&bytes[at + 3..at + 3 + long])
}

fn unpacked(bytes: &[u8], out: &mut [u16]) {
    for i in 0..out.len() {
        let upper = (bytes[i / 4 * 5 + i % 4] as u16) << 2;
        let lower = (bytes[i / 4 * 5 + 4] >> (2 * (i % 4))) & 3;
        out[i] = upper | lower as u16;
    }
}

fn figures<const WALK: bool>(bytes: &[u8]) -> Result<([u64; 4], i64), Refusal> {
    let width = word(field(bytes, 0, 1, 2)?, 0);
    let height = word(field(bytes, 5, 2, 2)?, 0);
    if !legal(width) || !legal(height) {
        return Err((1, 0, 0));
    }
    if width > 64 || height > 64 {
        return Err((24, 0, 0));
    }
    let sites = width * height;
    let packed = sites * 5 / 4;
    let full_scale = word(field(bytes, 10, 3, 2)?, 0) as u64;
    let black_level = word(field(bytes, 15, 4, 2)?, 0) as i64;
    let mask = field(bytes, 20, 5, sites)?;
    let first_field = field(bytes, 23 + sites, 6, packed)?;
    let second_field = field(bytes, 26 + sites + packed, 7, packed)?;
    let last = 29 + sites + 2 * packed;
    field(bytes, last, 0, 0)?;
    if bytes.len() > last + 3 {
        return Err((23, last as u64 + 3, 0));
    }
    let (mut first, mut second) = ([0u16; 4096], [0u16; 4096]);
    let (first, second) = (&mut first[..sites], &mut second[..sites]);
    unpacked(first_field, first);
    unpacked(second_field, second);
    accepted(shape(width, height, full_scale, false, &[]))?;
    accepted(codes::<WALK>(mask))?;
    accepted(samples::<WALK, 2>(full_scale, mask, [first, second]))?;
    let (mut n, mut a, mut b, mut squares) = (0u64, 0u64, 0u64, 0u64);
    for i in 0..mask.len() {
        let surveyed = mask[i] == 0;
        let d = first[i].abs_diff(second[i]) as u32;
        n += u64::from(surveyed);
        a += if surveyed { first[i] as u64 } else { 0 };
        b += if surveyed { second[i] as u64 } else { 0 };
        squares += if surveyed { (d * d) as u64 } else { 0 };
    }
    if n < 2 {
        return Err((7, 0, 0));
    }
    if black_level as u64 > full_scale {
        return Err((3, 0, 0));
    }
    let d = a.abs_diff(b);
    let p = n * squares - d * d;
    Ok((
        [n, p, 2 * n * n, (2048 * p).isqrt()],
        a as i64 - black_level * n as i64,
    ))
}
