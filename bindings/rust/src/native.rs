//! The C functions, and all `unsafe` of this crate. Each becomes a safe function of the same name over slices.

use crate::{Call, Point, Refusal};

/// What a refusal tells beside its number. `over` stays 0 where the C function does not write it.
#[derive(Default)]
struct Told {
    place: u64,
    over: u64,
}

/// A line declares a C function of include/tippovrain.h: the call that it is, the numbers it takes, a buffer that it
/// writes and that stands before those it reads, the buffers it reads, those it writes, numbers that stand after these,
/// what it tells of a refusal, and the numbers it answers with. C's own order is the same.
macro_rules! calls {
    ($(
        $name:ident: $call:ident($($number:ident: $number_type:ty),*)
            $(first($early:ident: $early_type:ty))?
            reads($($read:ident: $read_type:ty),*)
            writes($($written:ident: $written_type:ty),*)
            $(then($($later:ident: $later_type:ty),*))?
            tells($($told:ident),*)
            answers($($answer:ident: $answer_type:ty),*);
    )*) => {$(
        // as many as the C function has
        #[allow(clippy::too_many_arguments)]
        pub fn $call(
            $($number: $number_type,)*
            $($early: &mut [$early_type],)?
            $($read: &[$read_type],)*
            $($written: &mut [$written_type],)*
            $($($later: $later_type,)*)?
        ) -> Result<($($answer_type,)*), Refusal> {
            extern "C" {
                fn $call(
                    $($number: $number_type,)*
                    $($early: *mut $early_type, _: usize,)?
                    $($read: *const $read_type, _: usize,)*
                    $($written: *mut $written_type, _: usize,)*
                    $($($later: $later_type,)*)?
                    $($told: *mut u64,)*
                    $($answer: *mut $answer_type,)*
                ) -> u64;
            }
            let mut told = Told::default();
            $(let mut $answer = <$answer_type>::default();)*
            // SAFETY: each buffer goes with its own length, aligned and not NULL even where it is empty; what is
            // written is borrowed by `&mut`, so it overlaps nothing; any value of a number's type may be handed in.
            let number = unsafe {
                $call(
                    $($number,)*
                    $($early.as_mut_ptr(), $early.len(),)?
                    $($read.as_ptr(), $read.len(),)*
                    $($written.as_mut_ptr(), $written.len(),)*
                    $($($later,)*)?
                    $(&mut told.$told,)*
                    $(&mut $answer,)*
                )
            };
            match number {
                0 => Ok(($($answer,)*)),
                // a place is a site or an offset in a stream, both far below usize::MAX
                _ => Err(Refusal { call: Call::$name, number, place: told.place as usize, over: told.over }),
            }
        }
    )*};
}

calls! {
    UnpackRaw10: tip_unpack_raw10(width: usize, height: usize)
        reads(bytes: u8)
        writes(out: u16)
        tells(place)
        answers();
    PairFigures: tip_pair_figures(width: usize, height: usize, full_scale: u64)
        reads(mask: u8, first: u16, second: u16)
        writes()
        tells(place, over)
        answers(n: u64, p: u64, q: u64, r: u64, variance: f64, noise: f64);
    DarkLevel: tip_dark_level(width: usize, height: usize, full_scale: u64, black_level: u64)
        reads(mask: u8, frame: u16)
        writes()
        tells(place, over)
        answers(numerator: i64, denominator: u64);
    StackAdd: tip_stack_add(width: usize, height: usize, full_scale: u64, frames: u64)
        reads(mask: u8, frame: u16)
        writes(sums: u32, squares: u32, least: u16, greatest: u16)
        tells(place, over)
        answers(count: u64);
    StackVariance: tip_stack_variance(width: usize, height: usize, full_scale: u64, frames: u64)
        reads(mask: u8, sums: u32, squares: u32, least: u16, greatest: u16)
        writes()
        tells(place)
        answers(numerator: u64, denominator: u64, variance: f64);
    BlinkingSites: tip_blinking_sites(width: usize, height: usize, full_scale: u64, frames: u64, spread: u64)
        reads(mask: u8, sums: u32, squares: u32, least: u16, greatest: u16)
        writes()
        tells(place)
        answers(count: u64);
    PatternVertical: tip_pattern_vertical(width: usize, height: usize, full_scale: u64, frames: u64)
        reads(mask: u8, sums: u32)
        writes()
        tells(place)
        answers(level_numerator: u64, level_denominator: u64, max_numerator: u64, max_denominator: u64);
    PatternHorizontal: tip_pattern_horizontal(width: usize, height: usize, full_scale: u64, frames: u64)
        reads(mask: u8, sums: u32)
        writes()
        tells(place)
        answers(level_numerator: u64, level_denominator: u64, max_numerator: u64, max_denominator: u64);
    FindDefects: tip_find_defects(width: usize, height: usize, full_scale: u64, threshold: u64)
        reads(mask: u8, frame: u16)
        writes(out_mask: u8)
        tells(place, over)
        answers(count: u64);
    Repair: tip_repair(width: usize, height: usize, full_scale: u64)
        reads(mask: u8, frame: u16)
        writes(out_frame: u16, out_mask: u8)
        tells(place, over)
        answers(filled: u64);
    DefectiveRows: tip_defective_rows(width: usize, height: usize, full_scale: u64)
        reads(mask: u8, frame: u16)
        writes(marks: u8)
        tells(place, over)
        answers();
    DefectiveColumns: tip_defective_columns(width: usize, height: usize, full_scale: u64)
        reads(mask: u8, frame: u16)
        writes(marks: u8)
        tells(place, over)
        answers();
    ColourRatios: tip_colour_ratios(width: usize, height: usize, full_scale: u64, black_level: u64, bayer_order: u64)
        reads(mask: u8, frame: u16)
        writes()
        tells(place, over)
        answers(r_numerator: i64, r_denominator: u64, b_numerator: i64, b_denominator: u64, gb_numerator: i64, gb_denominator: u64);
    ShadingTable: tip_shading_table(width: usize, height: usize, full_scale: u64)
        reads(mask: u8, frame: u16)
        writes(totals: u32, counts: u32)
        tells(place, over)
        answers();
    ShadingRecode: tip_shading_recode(width: usize, height: usize, full_scale: u64, site: usize, code: u64)
        first(mask: u8)
        reads(frame: u16)
        writes(totals: u32, counts: u32)
        tells(place, over)
        answers();
    ShadingJudge: tip_shading_judge(width: usize, height: usize, full_scale: u64, black_level: u64, bayer_order: u64, limit: u64)
        reads(totals: u32, counts: u32)
        writes(numerators: u64, denominators: u64, refusals: u8, fails: u8)
        tells(place)
        answers();
    PhotonTransfer: tip_photon_transfer()
        reads(points: Point)
        writes()
        then(first: usize, last: usize)
        tells(place)
        answers(numerator: i64, denominator: u64, slope: f64, saturation: u64);
    Job: tip_job()
        reads(input: u8)
        writes()
        tells(place, over)
        answers(sites: u64, p: u64, q: u64, r: u64, dark: i64);
}
