//! replay FILE...: makes the calls of each file. The exit status is not 0 if the two checkers disagree, a file cannot be read, or some outcome of
//! some call never came up.

use std::process::ExitCode;

use fuzz::Comparison;

fn main() -> ExitCode {
    let mut comparison = Comparison::default();
    let mut passed = true;
    let mut inputs = 0;
    for name in std::env::args().skip(1) {
        inputs += 1;
        if !std::fs::read(&name).is_ok_and(|data| comparison.agree(&data)) {
            println!("{name}: unreadable, or the checkers disagree here or before");
            passed = false;
        }
    }
    passed &= comparison.conclude();
    println!("replay: {inputs} inputs, {}", if passed { "passed" } else { "FAILED" });
    if passed {
        ExitCode::SUCCESS
    } else {
        ExitCode::FAILURE
    }
}
