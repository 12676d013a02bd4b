//! Asks the checker about P2, in which two squares only touch, at the limit, in the edition that is the argument. Prints what is
//! answered, how many sides were worked, and whether the move may be let go: in edition 1 it may not, in edition 2 it may.

use std::process::ExitCode;
use stonefruitle::{answer_edition, Answer, EditionAnswer, Move, SecondAnswer};

fn main() -> ExitCode {
    let arguments: Vec<String> = std::env::args().skip(1).collect();
    let [edition] = &arguments[..] else {
        eprintln!("usage: edition NUMBER");
        return ExitCode::from(2);
    };
    let edition = edition.parse().expect("the argument is a whole number");
    let answered = answer_edition(
        edition,
        &Move {
            a: &[0, 0, 2, 0, 2, 2, 0, 2],
            b: &[5, 0, 7, 0, 7, 2, 5, 2],
            velocity_a: (0, 0),
            velocity_b: (-1, 0),
            limit: 3,
        },
    );

    use EditionAnswer::{First, Second};
    match answered.map(|answered| answered.answer) {
        Err(refusal) => println!("refused: {}", refusal.number()),
        Ok(First(Answer::ClearByOne(k)) | Second(SecondAnswer::ClearByOne(k))) => {
            println!("clear by side {k}");
        }
        Ok(First(Answer::ClearByTwo(i, j)) | Second(SecondAnswer::ClearByTwo(i, j))) => {
            println!("clear by sides {i} and {j}");
        }
        Ok(
            First(Answer::Contact { first, last, .. })
            | Second(SecondAnswer::Contact { first, last }),
        ) => println!("contact from {first} to {last}"),
    }

    if let Ok(answered) = answered {
        println!("{} sides worked", answered.sides_worked);
    }

    // A contact is not refused, so that `Ok` alone is no leave to go.
    let clear = answered.is_ok_and(|answered| answered.is_clear());
    println!("the move is {}", if clear { "let go" } else { "held" });
    if clear {
        ExitCode::SUCCESS
    } else {
        ExitCode::FAILURE
    }
}
