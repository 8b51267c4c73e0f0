//! Times the proved kernel, linked from its archive, beside the second checker. Before a row is timed, both make its calls and must
//! agree in every number and every written byte.

mod calls;
mod checkers;
mod clock;
mod inputs;
mod measure;
mod report;
mod rows;

use std::process::ExitCode;

use calls::Buffers;
use checkers::{Checker, KERNEL, SECOND};
use report::{Report, Timed};
use rows::Row;

/// Runs of each checker in a row.
const RUNS: usize = 31;

/// Runs of each checker with `--quick`.
const QUICK_RUNS: usize = 3;

const USAGE: &str = "usage: bench [--json] [--quick] | bench --rows | bench --calls ROW kernel|second COUNT";

fn main() -> ExitCode {
    let arguments: Vec<String> = std::env::args().skip(1).collect();
    let arguments: Vec<&str> = arguments.iter().map(String::as_str).collect();
    let result = match arguments.as_slice() {
        [] => compare(RUNS).map(|report| report.table()),
        ["--quick"] => compare(QUICK_RUNS).map(|report| report.table()),
        ["--json"] => compare(RUNS).map(|report| report.json().to_string()),
        ["--json", "--quick"] | ["--quick", "--json"] => compare(QUICK_RUNS).map(|report| report.json().to_string()),
        ["--rows"] => Ok(rows::all().iter().map(|row| format!("{}\n", row.name)).collect()),
        ["--calls", row, checker, count] => make_calls(row, checker, count),
        _ => Err(USAGE.to_string()),
    };
    match result {
        Ok(text) => {
            println!("{}", text.trim_end());
            ExitCode::SUCCESS
        }
        Err(fault) => {
            eprintln!("bench: {fault}");
            ExitCode::FAILURE
        }
    }
}

/// Measures every row; a fault if the two checkers disagree in one.
fn compare(runs: usize) -> Result<Report, String> {
    let rows = rows::all();
    for row in &rows {
        row.check()?;
    }
    let timed = |row: Row| {
        let medians = measure::measure(&row, runs);
        Timed { row, medians }
    };
    Ok(Report {
        machine: machine(),
        runs,
        rows: rows.into_iter().map(timed).collect(),
    })
}

/// Makes the calls of a row so many times with one checker, for programs that count instructions. Calls before [`counted`] leave
/// nothing to be set up in it.
fn make_calls(row: &str, checker: &str, count: &str) -> Result<String, String> {
    let rows = rows::all();
    let row = rows.iter().find(|known| known.name == row).ok_or(USAGE)?;
    let checkers = [KERNEL, SECOND];
    let checker = checkers.iter().find(|known| known.name == checker).ok_or(USAGE)?;
    let count: usize = count.parse().map_err(|_| USAGE)?;
    let mut buffers = Buffers::filled();
    calls::make_all(&row.calls, checker, &mut buffers);
    counted(row, checker, &mut buffers, count);
    let calls = count * row.calls.len();
    Ok(format!("{calls} calls, the last numbers {:?}", buffers.numbers))
}

#[inline(never)]
fn counted(row: &Row, checker: &Checker, buffers: &mut Buffers, count: usize) {
    for _ in 0..count {
        calls::make_all(&row.calls, checker, buffers);
    }
}

/// The processor's model and the number of cores.
fn machine() -> String {
    let info = std::fs::read_to_string("/proc/cpuinfo").unwrap_or_default();
    let models = info.lines().filter_map(|line| line.strip_prefix("model name"));
    let model = models.map(|rest| rest.trim_start_matches([':', ' ', '\t'])).next();
    let cores = std::thread::available_parallelism().map_or(1, usize::from);
    format!("{}, {cores} cores", model.unwrap_or("unknown processor"))
}
