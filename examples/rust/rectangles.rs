//! Asks the checker about two upright rectangles. The arguments are the limit, the velocity x y of A, that of B, then low x, low
//! y, high x, high y of A and of B. Prints the line of the move, the answer line, and whether the move may be let go.

use std::process::ExitCode;
use stonefruitle::{
    answer_rectangles, answer_rectangles_into, write_rectangles, Rectangle, RectangleMove,
    ANSWER_ROOM, RECTANGLES_NUMBERS,
};

fn main() -> ExitCode {
    let number = |word: String| word.parse().expect("the arguments are whole numbers");
    let n: Vec<i64> = std::env::args().skip(1).map(number).collect();
    if n.len() != RECTANGLES_NUMBERS {
        eprintln!("usage: rectangles T VX VY VX VY LOWX LOWY HIGHX HIGHY LOWX LOWY HIGHX HIGHY");
        return ExitCode::from(2);
    }
    let rectangle = |at: usize| Rectangle {
        low: (n[at], n[at + 1]),
        high: (n[at + 2], n[at + 3]),
    };
    let m = RectangleMove {
        a: rectangle(5),
        b: rectangle(9),
        velocity_a: (n[1], n[2]),
        velocity_b: (n[3], n[4]),
        limit: n[0],
    };

    // There is no line of a move that is refused.
    let line = write_rectangles(&m).unwrap_or_default();
    let mut answer = [0; ANSWER_ROOM];
    let written = answer_rectangles_into(&m, &mut answer);
    print!("{}", String::from_utf8_lossy(&line));
    print!("{}", String::from_utf8_lossy(&answer[..written.bytes]));

    // A contact is not refused, so that `Ok` alone is no leave to go.
    let clear = answer_rectangles(&m).is_ok_and(|answer| answer.is_clear());
    println!("the move is {}", if clear { "let go" } else { "held" });
    if clear {
        ExitCode::SUCCESS
    } else {
        ExitCode::FAILURE
    }
}
