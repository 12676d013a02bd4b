//! Answers a log on standard input line by line, and says at the end how many lines were accepted and how many are lost.

use std::io::{self, BufRead};
use stonefruitle::{log_step_into, ANSWER_ROOM};

fn main() -> io::Result<()> {
    let (mut lines, mut accepted, mut lost) = (0, 0, 0);
    // What the lines so far leave for the next one: none was accepted yet.
    let mut kept = None;
    for line in io::stdin().lock().split(b'\n') {
        let mut out = [0; ANSWER_ROOM];
        let step = log_step_into(kept, &line?, &mut out);
        print!("{}", String::from_utf8_lossy(&out[..step.written.bytes]));
        kept = step.kept;
        lines += 1;
        accepted += u64::from(step.written.refusal.is_none());
        lost += u64::from(step.lost);
    }
    println!("{accepted} of {lines} lines accepted, {lost} lost before them");
    Ok(())
}
