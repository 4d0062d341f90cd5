//! Short runs by turns, and their medians.
use crate::inputs::Cube;
use std::time::{Duration, Instant};

/// How many short runs of each side, and how long one of the library takes at least.
const RUNS: usize = 201;
const LONG: Duration = Duration::from_micros(200);

/// The fields of an answer, those that it lacks 0.
pub type Fields = [u32; 5];

/// One call on some inputs: what the library does with input i and its buffers, what the other side does, and when the buffers are the same.
pub struct Case<'a, B, C> {
    pub cube: Cube,
    pub call: &'static str,
    pub input: String,
    pub inputs: usize,
    pub library: &'a dyn Fn(usize, &mut B) -> Fields,
    pub other: &'a dyn Fn(usize, &mut C) -> Fields,
    pub same: fn(&B, &C) -> bool,
}

/// What was seen of a case: the library's nanoseconds for one call, their ratio to the other side's, and between which ratios half of the pairs of
/// runs lie.
pub struct Row {
    pub cube: Cube,
    pub call: &'static str,
    pub input: String,
    pub library: f64,
    pub ratio: f64,
    pub spread: [f64; 2],
}

/// Has a value used, as far as the compiler can tell.
fn used<T>(value: T) {
    unsafe { std::ptr::read_volatile(&value) };
}

/// So many times all inputs.
fn short_run<B>(call: &dyn Fn(usize, &mut B) -> Fields, buffer: &mut B, inputs: usize, times: usize) -> Duration {
    let begun = Instant::now();
    for _ in 0..times {
        for i in 0..inputs {
            used(call(i, buffer));
        }
    }
    begun.elapsed()
}

/// The part of sorted numbers that lies below, as 0.5 for the median.
fn at(part: f64, numbers: impl Iterator<Item = f64>) -> f64 {
    let mut sorted: Vec<f64> = numbers.collect();
    sorted.sort_unstable_by(f64::total_cmp);
    sorted[(part * (sorted.len() - 1) as f64).round() as usize]
}

impl<B, C> Case<'_, B, C> {
    /// Compares the results, then times the two and prints a row of the table.
    pub fn run(&self, mut ours: B, mut theirs: C) -> Row {
        for i in 0..self.inputs {
            let (a, b) = ((self.library)(i, &mut ours), (self.other)(i, &mut theirs));
            if a != b || !(self.same)(&ours, &theirs) {
                println!("DISAGREE: {}, {}, input {i}: the library answers {a:?}, the other side {b:?}", self.call, self.input);
                std::process::exit(1);
            }
        }
        let mut times = 1;
        while short_run(self.library, &mut ours, self.inputs, times) < LONG {
            times *= 2;
        }
        let calls = (times * self.inputs) as f64;
        let mut runs = Vec::new();
        for _ in 0..RUNS {
            let library = short_run(self.library, &mut ours, self.inputs, times).as_nanos() as f64;
            let other = short_run(self.other, &mut theirs, self.inputs, times).as_nanos() as f64;
            runs.push((library / calls, other / calls));
        }
        let (library, other) = (at(0.5, runs.iter().map(|r| r.0)), at(0.5, runs.iter().map(|r| r.1)));
        let spread = [0.25, 0.75].map(|part| at(part, runs.iter().map(|r| r.0 / r.1)));
        let row = Row { cube: self.cube, call: self.call, input: self.input.clone(), library, ratio: library / other, spread };
        let [low, high] = spread;
        let digits = usize::from(library < 100.0);
        println!(
            "| `{}` | {} | {} | {library:.digits$} | {other:.digits$} | {:.2} | {low:.2} to {high:.2} |",
            row.call, row.cube, row.input, row.ratio
        );
        row
    }
}
