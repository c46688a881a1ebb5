//! One call's forms, the library's and plain Rust's, run in turns on the same input and the same buffers.

use std::fmt::Debug;
use std::hint::black_box;
use std::time::Instant;

/// How a call is made on an input `I`; all that it writes, its answer included, goes into `O`.
pub type Form<I, O> = fn(&I, &mut O);

pub struct Contest<I, O> {
    pub call: &'static str,
    /// How many sites, points or recodings the inputs have that are timed: the first ones. The others, refusals among
    /// them, are only compared.
    pub timed: &'static [usize],
    pub inputs: Vec<(&'static str, I)>,
    /// What is lent to be written, as it stands before a call.
    pub lent: fn(&I) -> O,
    pub library: Form<I, O>,
    pub plain: Vec<(&'static str, Form<I, O>)>,
}

/// A contest of any input and output.
pub trait Contested {
    /// Runs every form once on every input; says and counts each form that differs from the library.
    fn compare(&self) -> usize;
    /// Prints the least time of a call, one line for each window and each plain form.
    fn time(&self);
}

const WARM_UP: usize = 40;
const ROUNDS: usize = 400;
/// A round makes as many calls as take about so long, so that reading the clock counts for nothing.
const ROUND_NS: f64 = 200_000.0;

impl<I, O: Debug + PartialEq> Contested for Contest<I, O> {
    fn compare(&self) -> usize {
        let mut differences = 0;
        for (input_name, input) in &self.inputs {
            let mut expected = (self.lent)(input);
            (self.library)(input, &mut expected);
            for (form_name, form) in &self.plain {
                let mut got = (self.lent)(input);
                form(input, &mut got);
                let same = got == expected;
                differences += usize::from(!same);
                println!(
                    "{} {}: {form_name}, {input_name}",
                    if same { "same" } else { "DIFFERENT" },
                    self.call
                );
            }
        }
        differences
    }

    fn time(&self) {
        for (sites, (window, input)) in self.timed.iter().zip(&self.inputs) {
            let least = self.least(input);
            let library = least[0];
            for ((form, _), plain) in self.plain.iter().zip(&least[1..]) {
                println!(
                    "{:<22} {:<12} {:<14} {:>12.1} {:>9.3} {:>12.1} {:>8.4}",
                    self.call,
                    window,
                    form,
                    library,
                    library / *sites as f64,
                    plain,
                    library / plain
                );
            }
        }
    }
}

impl<I, O> Contest<I, O> {
    /// The least nanoseconds of a call, the library's and then each plain form's.
    fn least(&self, input: &I) -> Vec<f64> {
        let mut output = (self.lent)(input);
        let forms: Vec<Form<I, O>> = std::iter::once(self.library)
            .chain(self.plain.iter().map(|(_, form)| *form))
            .collect();

        let mut round = |form: Form<I, O>, calls: usize| {
            let began = Instant::now();
            for _ in 0..calls {
                // neither what goes in nor what comes out is known to the compiler, so nothing can be left out
                form(black_box(input), black_box(&mut output));
            }
            began.elapsed().as_nanos() as f64 / calls as f64
        };

        let calls: Vec<usize> = forms
            .iter()
            .map(|form| (0..5).map(|_| round(*form, 4)).fold(ROUND_NS, f64::min))
            .map(|took| (ROUND_NS / took).ceil() as usize)
            .collect();
        let mut least = vec![f64::INFINITY; forms.len()];
        for turn in 0..WARM_UP + ROUNDS {
            for ((form, calls), least) in forms.iter().zip(&calls).zip(&mut least) {
                let took = round(*form, *calls);
                if turn >= WARM_UP {
                    *least = least.min(took);
                }
            }
        }
        least
    }
}
