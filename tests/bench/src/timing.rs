//! Several runs, in which the candidates take turns: their middle and their spread.

use std::array::from_fn;
use std::hint::black_box;
use std::time::{Duration, Instant};

/// How many runs there are: an odd number, so that one is in the middle.
pub const RUNS: usize = 9;
/// A run repeats its work until about this much time has passed.
const RUN: Duration = Duration::from_millis(2);

/// The time of one repetition over all runs, in nanoseconds.
#[derive(Clone, Copy)]
pub struct Timed {
    least: f64,
    middle: f64,
    most: f64,
}

impl Timed {
    fn of(mut runs: [f64; RUNS]) -> Timed {
        runs.sort_by(f64::total_cmp);
        Timed { least: runs[0], middle: runs[RUNS / 2], most: runs[RUNS - 1] }
    }

    /// By the middles.
    pub fn ratio(self, other: Timed) -> f64 {
        self.middle / other.middle
    }

    /// In microseconds.
    pub fn middle(self) -> String {
        self.micros(self.middle)
    }

    /// The least and the most, in microseconds.
    pub fn spread(self) -> String {
        format!("({}-{})", self.micros(self.least), self.micros(self.most))
    }

    /// With as many places as the middle makes sense with.
    fn micros(self, nanos: f64) -> String {
        let places = match self.middle / 1000.0 {
            middle if middle < 10.0 => 3,
            middle if middle < 100.0 => 2,
            middle if middle < 1000.0 => 1,
            _ => 0,
        };
        format!("{:.places$}", nanos / 1000.0)
    }
}

pub fn timed<const N: usize>(mut candidates: [&mut dyn FnMut(); N]) -> [Timed; N] {
    let repeats: [u32; N] = from_fn(|i| repeats_of(&mut candidates[i]));
    let runs: [[f64; N]; RUNS] =
        from_fn(|_| from_fn(|i| one_repetition(&mut candidates[i], repeats[i])));
    from_fn(|i| Timed::of(runs.map(|run| run[i])))
}

/// In nanoseconds.
fn one_repetition(work: &mut &mut dyn FnMut(), repeats: u32) -> f64 {
    time(work, repeats).as_nanos() as f64 / f64::from(repeats)
}

/// How often work is repeated in a run. It is tried often enough to be warm.
fn repeats_of(work: &mut &mut dyn FnMut()) -> u32 {
    let mut repeats = 1;
    loop {
        let tried = time(work, repeats);
        if tried >= RUN / 8 {
            let fitting = f64::from(repeats) * RUN.as_secs_f64() / tried.as_secs_f64();
            return (fitting as u32).max(1);
        }
        repeats *= 2;
    }
}

/// The compiler may not see that a result is not used.
pub fn keep<T>(result: T) {
    black_box(result);
}

fn time(work: &mut &mut dyn FnMut(), repeats: u32) -> Duration {
    let start = Instant::now();
    for _ in 0..repeats {
        work();
    }
    start.elapsed()
}

#[cfg(test)]
mod tests {
    use super::{from_fn, Timed, RUNS};

    /// Runs of one time each, the first being the slowest.
    fn falling(step: f64) -> Timed {
        Timed::of(from_fn(|i| (RUNS - i) as f64 * step))
    }

    #[test]
    fn the_middle_and_the_spread() {
        assert_eq!(falling(100.0).middle(), "0.500");
        assert_eq!(falling(100.0).spread(), "(0.100-0.900)");
        assert_eq!(falling(10_000.0).spread(), "(10.00-90.00)");
        assert_eq!(falling(300.0).ratio(falling(100.0)), 3.0);
    }
}
