//! Runs the proved machine and the model on the same inputs: compares what they answer, and
//! measures how long they take.

mod compare;
mod count;
mod images;
mod speed;
mod proved;

use std::process::ExitCode;

const USAGE: &str = "usage: harness compare [CASES [FIRST SEED]] | harness speed [ORDER]";

fn main() -> ExitCode {
    let arguments: Vec<String> = std::env::args().skip(1).collect();
    let words: Vec<&str> = arguments.iter().map(String::as_str).collect();
    match words.as_slice() {
        ["compare", numbers @ ..] if numbers.len() <= 2 => {
            let mut numbers = numbers.iter().map(|text| text.parse::<u64>());
            let (Ok(cases), Ok(first)) =
                (numbers.next().unwrap_or(Ok(100_000)), numbers.next().unwrap_or(Ok(0)))
            else {
                eprintln!("{USAGE}");
                return ExitCode::from(2);
            };
            if compare::compare(cases, first) {
                ExitCode::SUCCESS
            } else {
                ExitCode::FAILURE
            }
        }
        ["speed", order @ ..] if order.len() <= 1 => {
            speed::measure(order.first().unwrap_or(&""));
            ExitCode::SUCCESS
        }
        _ => {
            eprintln!("{USAGE}");
            ExitCode::from(2)
        }
    }
}
