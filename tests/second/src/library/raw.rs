use reference::shared::Answer;

use super::{Lent, GARBAGE, NO_COUNT};

extern "C" {
    fn tip_unpack_raw10(
        width: usize,
        height: usize,
        bytes: *const u8,
        bytes_len: usize,
        out: *mut u16,
        out_len: usize,
        place: *mut u64,
    ) -> u64;
}

pub fn unpack_raw10(
    width: usize,
    height: usize,
    bytes: &mut Lent<u8>,
    out: &mut Lent<u16>,
) -> Answer {
    let mut place = GARBAGE;
    // SAFETY: each buffer is lent with its own length, and no two overlap.
    let number = unsafe {
        tip_unpack_raw10(
            width,
            height,
            bytes.address(),
            bytes.len(),
            out.address(),
            out.len(),
            &mut place,
        )
    };
    Answer {
        number,
        place,
        over: NO_COUNT,
        figures: vec![],
    }
}
