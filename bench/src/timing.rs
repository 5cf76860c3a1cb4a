//! How everything is timed: the sides by turns in one run, least and median.

use std::hint::black_box;
use std::time::Instant;

const TURNS: usize = 2001;

/// Microseconds a call, of one turn.
pub type Side<'a> = Box<dyn FnMut() -> f64 + 'a>;

/// A side whose turn is so many calls.
pub fn side<'a, A>(calls: usize, mut call: impl FnMut() -> A + 'a) -> Side<'a> {
    Box::new(move || {
        let start = Instant::now();
        for _ in 0..calls {
            black_box(&call());
        }
        start.elapsed().as_nanos() as f64 / 1000.0 / calls as f64
    })
}

#[derive(Clone, Copy)]
pub struct Times {
    pub least: f64,
    pub median: f64,
}

/// Every side has its turn, and then again.
pub fn by_turns<const N: usize>(mut sides: [Side; N]) -> [Times; N] {
    let mut times = [(); N].map(|()| Vec::with_capacity(TURNS));
    for _ in 0..TURNS {
        for (side, times) in sides.iter_mut().zip(&mut times) {
            times.push(side());
        }
    }
    times.map(|mut times| {
        times.sort_by(f64::total_cmp);
        Times {
            least: times[0],
            median: times[TURNS / 2],
        }
    })
}

pub fn head() {
    println!("| what | beside | ours, least | theirs | ratio | ours, median | theirs | ratio |");
    println!("|---|---|---|---|---|---|---|---|");
}

/// Microseconds and ratios of two sides.
pub fn row(what: &str, beside: &str, ours: Times, theirs: Times) {
    let (k, l, m, n) = (ours.least, theirs.least, ours.median, theirs.median);
    let (least, median) = (k / l, m / n);
    println!(
        "| {what} | {beside} | {k:.2} | {l:.2} | {least:.3} | {m:.2} | {n:.2} | {median:.3} |"
    );
}

/// Two sides, timed and printed.
pub fn compare(what: &str, beside: &str, sides: [Side; 2]) {
    let [ours, theirs] = by_turns(sides);
    row(what, beside, ours, theirs);
}
