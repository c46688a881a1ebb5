use super::window::legal;
use crate::contest::Contest;

extern "C" {
    fn tip_unpack_raw10(
        width: usize,
        height: usize,
        bytes: *const u8,
        bytes_len: usize,
        out: *mut u16,
        out_len: usize,
        place: *mut u64,
    ) -> u64;
}

pub struct Input {
    width: usize,
    height: usize,
    bytes: Vec<u8>,
    out_len: usize,
}

#[derive(Debug, PartialEq)]
pub struct Output {
    number: u64,
    place: u64,
    out: Vec<u16>,
}

pub fn contest() -> Contest<Input, Output> {
    Contest {
        call: "tip_unpack_raw10",
        timed: &[128 * 128],
        inputs: vec![
            ("128 x 128", input(128, 128, 20480, 16384)),
            ("refused 1", input(128, 130, 20800, 16640)),
            ("refused 4, bytes", input(128, 128, 20479, 16384)),
            ("refused 4, out", input(128, 128, 20480, 16385)),
        ],
        lent: |input| Output {
            number: 77,
            place: 77,
            out: vec![0xffff; input.out_len],
        },
        library: |input, output| call(library, input, output),
        plain: vec![
            ("indexed", |input, output| call(indexed, input, output)),
            ("groups of four", |input, output| {
                call(grouped, input, output)
            }),
        ],
    }
}

fn input(width: usize, height: usize, bytes_len: usize, out_len: usize) -> Input {
    let bytes = (0..bytes_len).map(|i| (i * 37 + i / 256 * 11) as u8);
    Input {
        width,
        height,
        bytes: bytes.collect(),
        out_len,
    }
}

type Unpack = fn(usize, usize, &[u8], &mut [u16], &mut u64) -> u64;

fn call(unpack: Unpack, input: &Input, output: &mut Output) {
    let place = &mut output.place;
    output.number = unpack(
        input.width,
        input.height,
        &input.bytes,
        &mut output.out,
        place,
    );
}

fn library(width: usize, height: usize, bytes: &[u8], out: &mut [u16], place: &mut u64) -> u64 {
    let (bytes, bytes_len) = (bytes.as_ptr(), bytes.len());
    let (out, out_len) = (out.as_mut_ptr(), out.len());
    // SAFETY: the pointers come from borrows, so they are aligned and nothing that is written overlaps.
    unsafe { tip_unpack_raw10(width, height, bytes, bytes_len, out, out_len, place) }
}

fn refusal(width: usize, height: usize, bytes_len: usize, out_len: usize) -> u64 {
    if !legal(width) || !legal(height) {
        return 1;
    }
    if bytes_len != width * height * 5 / 4 || out_len != width * height {
        return 4;
    }
    0
}

#[inline(never)]
fn indexed(width: usize, height: usize, bytes: &[u8], out: &mut [u16], place: &mut u64) -> u64 {
    *place = 0;
    let number = refusal(width, height, bytes.len(), out.len());
    if number != 0 {
        return number;
    }
    for i in 0..out.len() {
        let upper = (bytes[i / 4 * 5 + i % 4] as u16) << 2;
        let lower = (bytes[i / 4 * 5 + 4] >> (2 * (i % 4))) & 3;
        out[i] = upper | lower as u16;
    }
    0
}

#[inline(never)]
fn grouped(width: usize, height: usize, bytes: &[u8], out: &mut [u16], place: &mut u64) -> u64 {
    *place = 0;
    let number = refusal(width, height, bytes.len(), out.len());
    if number != 0 {
        return number;
    }
    for (group, samples) in bytes.chunks_exact(5).zip(out.chunks_exact_mut(4)) {
        for j in 0..4 {
            samples[j] = ((group[j] as u16) << 2) | ((group[4] >> (2 * j)) & 3) as u16;
        }
    }
    0
}
