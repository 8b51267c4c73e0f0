//! Times of both checkers, taken in turn so that a disturbance of the machine meets both.

use std::hint::black_box;
use std::time::Duration;

use crate::calls::{make_all, Buffers};
use crate::checkers::{Checker, KERNEL, SECOND};
use crate::clock;
use crate::rows::Row;

/// Least time of a run; a row with shorter calls makes them more than once in a run.
const RUN: Duration = Duration::from_millis(1);

/// Medians of a row, in nanoseconds for each of its calls.
pub struct Medians {
    pub kernel: f64,
    pub second: f64,
}

impl Medians {
    pub fn ratio(&self) -> f64 {
        self.kernel / self.second
    }
}

/// The row's calls with one checker, and the times of its runs.
struct Series<'a> {
    row: &'a Row,
    checker: &'a Checker,
    buffers: Buffers,
    /// How often a run makes the row's calls.
    rounds: u32,
    times: Vec<f64>,
}

impl<'a> Series<'a> {
    /// A first round, which is not counted, tells the number of rounds of a run.
    fn new(row: &'a Row, checker: &'a Checker) -> Series<'a> {
        let mut series = Series {
            row,
            checker,
            buffers: Buffers::filled(),
            rounds: 1,
            times: Vec::new(),
        };
        let once = series.elapsed().max(Duration::from_nanos(1));
        series.rounds = (RUN.as_nanos() / once.as_nanos()).clamp(1, 100_000) as u32;
        series
    }

    fn elapsed(&mut self) -> Duration {
        let start = clock::now();
        for _ in 0..self.rounds {
            make_all(&self.row.calls, self.checker, &mut self.buffers);
            black_box(&self.buffers.numbers);
        }
        clock::now() - start
    }

    fn run(&mut self) {
        let calls = f64::from(self.rounds) * self.row.calls.len() as f64;
        let time = self.elapsed().as_nanos() as f64 / calls;
        self.times.push(time);
    }

    fn median(mut self) -> f64 {
        self.times.sort_by(f64::total_cmp);
        self.times[self.times.len() / 2]
    }
}

/// Times a row: so many runs of each checker, in turn.
pub fn measure(row: &Row, runs: usize) -> Medians {
    let mut kernel = Series::new(row, &KERNEL);
    let mut second = Series::new(row, &SECOND);
    for _ in 0..runs {
        kernel.run();
        second.run();
    }
    Medians {
        kernel: kernel.median(),
        second: second.median(),
    }
}
