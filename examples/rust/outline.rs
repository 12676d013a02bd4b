//! Tests the outline whose coordinates x y x y .. are the arguments, and says which of its edges is wrong.

use std::process::ExitCode;
use stonefruitle::{test_outline, Refusal};

fn main() -> ExitCode {
    let number = |word: String| word.parse().expect("the coordinates are whole numbers");
    let numbers: Vec<i64> = std::env::args().skip(1).map(number).collect();
    match test_outline(&numbers) {
        Ok(()) => {
            println!("sound");
            return ExitCode::SUCCESS;
        }
        Err(Refusal::First(edge)) => {
            let corners: Vec<&[i64]> = numbers.chunks(2).collect();
            // The last edge runs to the first corner.
            let (start, stop) = (usize::from(edge), (usize::from(edge) + 1) % corners.len());
            let shown = |i: usize| format!("({},{})", corners[i][0], corners[i][1]);
            let (from, to) = (shown(start), shown(stop));
            println!("edge {edge}, from {from} to {to}, is wrong: a corner is to its right or equals its start, or all are on one line");
        }
        Err(refusal) => println!("refused: {}", refusal.number()),
    }
    ExitCode::FAILURE
}
