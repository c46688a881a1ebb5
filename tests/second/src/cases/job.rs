//! Cases of the job: streams, whole and damaged.

use std::fmt::{Debug, Formatter, Result};

use reference::counts::Exposure;
use reference::job;
use reference::shared::Answer;

use super::counts::{self, Exposed};
use super::dice::Dice;
use super::raw::packed;
use super::shapes::{self, Shape};
use super::spoil;
use super::tally::{Case, Tally};
use super::windows;
use crate::library::{self, Lent};

#[derive(Clone, Debug, PartialEq)]
struct Job {
    input: Lent<u8>,
}

impl Case for Job {
    fn reference(&mut self) -> Answer {
        job::job(&self.input)
    }

    fn library(&mut self) -> Answer {
        library::job::job(&mut self.input)
    }
}

impl Job {
    fn of(stream: Vec<u8>) -> Self {
        Job {
            input: Lent::new("input", stream),
        }
    }
}

#[derive(Clone)]
struct Field {
    tag: u8,
    length: u16,
    body: Vec<u8>,
}

impl Field {
    fn new(tag: u8, body: Vec<u8>) -> Self {
        Field {
            tag,
            length: body.len() as u16,
            body,
        }
    }
}

/// What a stream says, before it is damaged.
#[derive(Clone, PartialEq)]
struct Sheet {
    width: u16,
    height: u16,
    full_scale: u16,
    black_level: u16,
    mask: Vec<u8>,
    first: Vec<u16>,
    second: Vec<u16>,
    extra: Vec<u8>,
}

impl Sheet {
    fn fields(&self) -> Vec<Field> {
        vec![
            Field::new(1, self.width.to_be_bytes().to_vec()),
            Field::new(2, self.height.to_be_bytes().to_vec()),
            Field::new(3, self.full_scale.to_be_bytes().to_vec()),
            Field::new(4, self.black_level.to_be_bytes().to_vec()),
            Field::new(5, self.mask.clone()),
            Field::new(6, packed(&self.first)),
            Field::new(7, packed(&self.second)),
            Field::new(0, vec![]),
        ]
    }

    fn stream(&self) -> Vec<u8> {
        let mut stream = joined(&self.fields());
        stream.extend(&self.extra);
        stream
    }
}

/// The job of the sheet's stream.
impl Case for Sheet {
    fn reference(&mut self) -> Answer {
        Job::of(self.stream()).reference()
    }

    fn library(&mut self) -> Answer {
        Job::of(self.stream()).library()
    }
}

impl Debug for Sheet {
    fn fmt(&self, to: &mut Formatter) -> Result {
        Job::of(self.stream()).fmt(to)
    }
}

impl Exposed for Sheet {
    const FRAMES: usize = 2;
    const SIDE: usize = 64;
    const MOST: u16 = 1023;

    fn exposure(&self) -> Exposure<'_> {
        Exposure {
            width: self.width.into(),
            full_scale: self.full_scale.into(),
            mask: &self.mask,
            frames: vec![&self.first, &self.second],
        }
    }

    fn lent(&mut self, turn: usize) -> (&mut [u8], &mut [u16]) {
        let frame = match turn {
            0 => &mut self.first,
            _ => &mut self.second,
        };
        (&mut self.mask, frame)
    }
}

fn joined(fields: &[Field]) -> Vec<u8> {
    let mut stream = vec![];
    for field in fields {
        stream.push(field.tag);
        stream.extend(field.length.to_be_bytes());
        stream.extend(&field.body);
    }
    stream
}

fn run(stream: Vec<u8>, tally: &mut Tally) {
    tally.run(Job::of(stream));
}

/// Ten bits at most, surveyed samples up to full scale.
fn frame(mask: &[u8], full_scale: u16, dice: &mut Dice) -> Vec<u16> {
    let samples = windows::frame(mask, full_scale.min(1023).into(), dice);
    samples.iter().map(|sample| sample % 1024).collect()
}

fn of_mask(shape: Shape, mask: Vec<u8>, dice: &mut Dice) -> Sheet {
    let full_scale = windows::full_scale(dice) as u16;
    of_scale(shape, mask, full_scale, dice)
}

/// A full scale that ten bits can exceed.
fn of_low_scale(shape: Shape, mask: Vec<u8>, dice: &mut Dice) -> Sheet {
    let any = dice.between(1, 1022) as u16;
    let full_scale = dice.among(&[1, any, 1022]);
    of_scale(shape, mask, full_scale, dice)
}

fn of_scale(shape: Shape, mask: Vec<u8>, full_scale: u16, dice: &mut Dice) -> Sheet {
    let any = dice.between(0, full_scale.into()) as u16;
    Sheet {
        width: shape.width as u16,
        height: shape.height as u16,
        full_scale,
        black_level: dice.among(&[0, 64.min(full_scale), full_scale, any]),
        first: frame(&mask, full_scale, dice),
        second: frame(&mask, full_scale, dice),
        mask,
        extra: vec![],
    }
}

fn of_shape(shape: Shape, dice: &mut Dice) -> Sheet {
    let mask = windows::mask(shape.sites(), dice);
    of_mask(shape, mask, dice)
}

fn legal(dice: &mut Dice) -> Sheet {
    of_shape(shapes::legal(dice), dice)
}

fn k1() -> Sheet {
    Sheet {
        width: 2,
        height: 2,
        full_scale: 1023,
        black_level: 64,
        mask: vec![0; 4],
        first: vec![100, 101, 102, 103],
        second: vec![101, 101, 102, 104],
        extra: vec![],
    }
}

/// A stream of a small window: whole one time in four, or whole with samples over, else damaged.
pub fn damaged_stream(dice: &mut Dice) -> Vec<u8> {
    match dice.below(4) {
        0 => legal(dice).stream(),
        1 => with_samples_over(dice).stream(),
        _ => damaged(legal(dice).stream(), dice),
    }
}

/// In the first frame, in the second or in both.
fn with_samples_over(dice: &mut Dice) -> Sheet {
    let shape = shapes::legal(dice);
    let mask = windows::mask(shape.sites(), dice);
    let mut sheet = of_low_scale(shape, mask, dice);
    for turn in dice.among(&[[0, 0], [1, 1], [0, 1]]) {
        counts::expose(&mut sheet, turn, 4, dice);
    }
    sheet
}

pub fn job(tally: &mut Tally, dice: &mut Dice) {
    every_cut_and_every_byte(tally);
    numbers(tally, dice);
    sides(tally, dice);
    fields_at_fault(tally, dice);
    extra_bytes(tally, dice);
    refusals_together(tally, dice);
    few_surveyed(tally, dice);
    for _ in 0..150 {
        run(legal(dice).stream(), tally);
        run(damaged(legal(dice).stream(), dice), tally);
    }
    for shape in [(64, 64), (64, 2), (2, 64), (62, 64)] {
        let shape = Shape {
            width: shape.0,
            height: shape.1,
        };
        run(of_shape(shape, dice).stream(), tally);
        run(damaged(of_shape(shape, dice).stream(), dice), tally);
    }
}

pub fn counts(tally: &mut Tally, dice: &mut Dice) {
    counts::common(tally, dice, shapes::SQUARE, of_low_scale, SPOILERS);
    no_count_before_the_pair(tally, dice);
}

/// Samples over in streams with a fault after the frames, and beside sides and a full scale that
/// are refused.
fn no_count_before_the_pair(tally: &mut Tally, dice: &mut Dice) {
    for end in [
        &[][..],
        &[0],
        &[0, 0],
        &[1, 0, 0],
        &[0, 0, 1],
        &[0, 0, 0, 0],
    ] {
        let sheet = with_samples_over(dice);
        let mut stream = joined(&sheet.fields()[..7]);
        stream.extend(end);
        let asked = tally.ask(Job::of(stream));
        counts::meet(tally, &sheet.exposure(), &asked.answers.expected);
    }
    let refused_before: [fn(&mut Sheet); 3] = [
        |sheet| sheet.width = 3,
        |sheet| sheet.height = 66,
        |sheet| sheet.full_scale = 0,
    ];
    for spoil in refused_before {
        let mut sheet = with_samples_over(dice);
        spoil(&mut sheet);
        counts::ask(tally, sheet);
    }
}

/// K1 whole, cut at every byte, and with every value in every byte.
fn every_cut_and_every_byte(tally: &mut Tally) {
    let whole = k1().stream();
    for end in 0..=whole.len() {
        run(whole[..end].to_vec(), tally);
    }
    for at in 0..whole.len() {
        for value in 0..=255 {
            let mut stream = whole.clone();
            stream[at] = value;
            run(stream, tally);
        }
    }
}

/// Full scale and black level on both sides of each limit.
fn numbers(tally: &mut Tally, dice: &mut Dice) {
    for full_scale in [0, 1, 102, 103, 104, 1023, 4095, 4096, 5000, 65535u16] {
        let around = [
            full_scale.saturating_sub(1),
            full_scale,
            full_scale.saturating_add(1),
        ];
        for black_level in around.into_iter().chain([0, 64, 4096, 65535]) {
            run(
                Sheet {
                    full_scale,
                    black_level,
                    ..k1()
                }
                .stream(),
                tally,
            );
            run(
                Sheet {
                    full_scale,
                    black_level,
                    ..legal(dice)
                }
                .stream(),
                tally,
            );
        }
    }
}

/// Both sides of each limit of the sides, with field 2 whole, cut and of a wrong length.
fn sides(tally: &mut Tally, dice: &mut Dice) {
    let tried = [
        0, 1, 2, 3, 62, 63, 64, 65, 66, 67, 126, 128, 129, 130, 256, 514, 65534, 65535,
    ];
    for width in tried {
        for height in tried {
            let stream = Sheet {
                width,
                height,
                ..k1()
            }
            .stream();
            let mut wrong = stream.clone();
            wrong[7] = dice.draw() as u8;
            run(stream[..8 + dice.below(6)].to_vec(), tally);
            run(stream, tally);
            run(wrong, tally);
        }
    }
    for (width, height) in [
        (66, 2),
        (2, 66),
        (64, 66),
        (128, 128),
        (130, 2),
        (3, 4),
        (2, 0),
    ] {
        run(of_shape(Shape { width, height }, dice).stream(), tally);
    }
}

/// Each fault at each field: tags, lengths and bodies, with the stream going on or ending there.
fn fields_at_fault(tally: &mut Tally, dice: &mut Dice) {
    for turn in 0..3 {
        let sheet = if turn == 0 { k1() } else { legal(dice) };
        let fields = sheet.fields();
        for at in 0..fields.len() {
            let Field { tag, length, .. } = fields[at];
            let any = dice.draw() as u8;
            for other in [
                tag.wrapping_add(1),
                tag.wrapping_sub(1),
                tag | 128,
                0,
                7,
                255,
                any,
            ] {
                around_fault(&fields, at, |field| field.tag = other, tally, dice);
            }
            let wrong = [
                length.wrapping_add(1),
                length.wrapping_sub(1),
                length.swap_bytes(),
                length ^ 256,
                0,
                2,
                65535,
                dice.draw() as u16,
            ];
            for other in wrong {
                around_fault(&fields, at, |field| field.length = other, tally, dice);
                around_fault(&fields, at, |field| fit(field, other % 6000), tally, dice);
            }
            around_fault(
                &fields,
                at,
                |field| field.body.truncate(usize::from(length) / 2),
                tally,
                dice,
            );
            let mut swapped = fields.clone();
            swapped.swap(at, dice.below(fields.len()));
            run(joined(&swapped), tally);
            let mut doubled = fields.clone();
            doubled.insert(at, fields[at].clone());
            run(joined(&doubled), tally);
            let mut missing = fields.clone();
            missing.remove(at);
            run(joined(&missing), tally);
        }
    }
}

/// A body of another length, and the length that says so.
fn fit(field: &mut Field, length: u16) {
    field.body.resize(length.into(), 0);
    field.length = length;
}

/// The changed field in its stream, at its end, and cut within.
fn around_fault(
    fields: &[Field],
    at: usize,
    change: impl Fn(&mut Field),
    tally: &mut Tally,
    dice: &mut Dice,
) {
    let mut fields = fields.to_vec();
    change(&mut fields[at]);
    let before = joined(&fields[..at]).len();
    let ending = joined(&fields[..=at]);
    let cut = before + dice.below(ending.len() - before + 1);
    run(ending[..cut].to_vec(), tally);
    run(ending[..before + 2].to_vec(), tally);
    run(ending[..before + 3].to_vec(), tally);
    run(ending, tally);
    run(joined(&fields), tally);
}

/// From one byte to far more than any stream has, on streams good and bad.
fn extra_bytes(tally: &mut Tally, dice: &mut Dice) {
    for count in [1, 2, 3, 46, 1000, 15_000, 70_000] {
        for full_scale in [1023, 0, 103] {
            let any = dice.draw() as u8;
            let extra = vec![dice.among(&[0, 1, any]); count];
            run(
                Sheet {
                    full_scale,
                    extra,
                    ..k1()
                }
                .stream(),
                tally,
            );
        }
        let extra = vec![0; count];
        run(
            Sheet {
                extra,
                ..legal(dice)
            }
            .stream(),
            tally,
        );
    }
    let again = k1().stream();
    run(
        Sheet {
            extra: again,
            ..k1()
        }
        .stream(),
        tally,
    );
    let full = Shape {
        width: 64,
        height: 64,
    };
    run(
        Sheet {
            extra: vec![0],
            ..of_shape(full, dice)
        }
        .stream(),
        tally,
    );
}

const SPOILERS: &[spoil::Spoiler<Sheet>] = &[
    |sheet, dice| sheet.mask = windows::mask_surveying(dice.below(2), sheet.mask.len(), dice),
    |sheet, dice| above(&mut sheet.mask, &mut sheet.first, sheet.full_scale, dice),
    |sheet, dice| above(&mut sheet.mask, &mut sheet.second, sheet.full_scale, dice),
    |sheet, dice| spoil::code(&mut sheet.mask, dice),
    |sheet, _| sheet.black_level = sheet.full_scale + 1,
    |sheet, dice| sheet.full_scale = dice.among(&[0, 4096, 5000, 65535]),
    |sheet, dice| sheet.extra = vec![dice.draw() as u8],
    |sheet, dice| sheet.width = dice.among(&[0, 1, 3, 65, 66, 128, 130, 65535]),
];

/// Every set of the library's refusals with extra bytes and odd sides.
fn refusals_together(tally: &mut Tally, dice: &mut Dice) {
    for set in 0..1u32 << SPOILERS.len() {
        let mut sheet = legal(dice);
        sheet.full_scale = dice.among(&[1, 500, 1022]);
        sheet.black_level = dice.between(0, sheet.full_scale.into()) as u16;
        sheet.first = frame(&sheet.mask, sheet.full_scale, dice);
        sheet.second = frame(&sheet.mask, sheet.full_scale, dice);
        for (at, spoil) in SPOILERS.iter().enumerate() {
            if set >> at & 1 == 1 {
                spoil(&mut sheet, dice);
            }
        }
        run(sheet.stream(), tally);
    }
}

/// A surveyed sample above a full scale that ten bits can exceed.
fn above(mask: &mut [u8], frame: &mut [u16], full_scale: u16, dice: &mut Dice) {
    let site = dice.below(mask.len());
    mask[site] = 0;
    frame[site] = dice.among(&[full_scale + 1, 1023]);
}

fn few_surveyed(tally: &mut Tally, dice: &mut Dice) {
    for count in 0..4 {
        for _ in 0..4 {
            let shape = shapes::legal(dice);
            let mask = windows::mask_surveying(count, shape.sites(), dice);
            run(of_mask(shape, mask, dice).stream(), tally);
        }
    }
}

/// Flips, cuts, losses and additions at random places.
fn damaged(mut stream: Vec<u8>, dice: &mut Dice) -> Vec<u8> {
    for _ in 0..=dice.below(3) {
        let at = dice.below(stream.len());
        match dice.below(6) {
            0 => stream[at] ^= 1 << dice.below(8),
            1 => stream[at] = dice.draw() as u8,
            2 => stream.truncate(at + 1),
            3 => stream.insert(at, dice.draw() as u8),
            4 if stream.len() > 1 => drop(stream.remove(at)),
            _ => stream.push(dice.draw() as u8),
        }
    }
    stream
}
