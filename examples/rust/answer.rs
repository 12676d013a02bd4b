//! Asks the checker about one move, the paper's P1, says what the answer means, and holds the move unless it is clear.

use stonefruitle::{answer_lists, answer_lists_into, Answer, Move, Showing, ANSWER_ROOM};

fn main() {
    // A stands still; B is the same square 5 to the right and comes left by 1 per unit of time.
    let p1 = Move {
        a: &[0, 0, 2, 0, 2, 2, 0, 2],
        b: &[5, 0, 7, 0, 7, 2, 5, 2],
        velocity_a: (0, 0),
        velocity_b: (-1, 0),
        limit: 10,
    };

    // The answer line, as the program prints it.
    let mut line = [0; ANSWER_ROOM];
    let written = answer_lists_into(&p1, &mut line);
    print!("{}", String::from_utf8_lossy(&line[..written.bytes]));

    // The same answer, taken apart.
    let answer = answer_lists(&p1);
    match answer {
        Err(refusal) => println!("refused: {} ({refusal})", refusal.number()),
        Ok(Answer::ClearByOne(k)) => println!("clear: side {k} keeps the outlines apart"),
        Ok(Answer::ClearByTwo(i, j)) => {
            println!("clear: sides {i} and {j} keep the outlines apart")
        }
        Ok(Answer::Contact {
            first,
            last,
            bearing,
            showing,
        }) => {
            println!("contact from {first} to {last}");
            match bearing {
                Some(side) => println!("bearing on side {side}"),
                None => println!("no side bears: the outlines overlap at time 0"),
            }
            match showing {
                Showing::CornerOfA(i) => println!("shown by corner {i} of A"),
                Showing::CornerOfB(j) => println!("shown by corner {j} of B"),
                Showing::Edges(i, j) => println!("shown by edge {i} of A and edge {j} of B"),
            }
        }
    }

    // A contact is not refused, so that `Ok` alone is no leave to go.
    let clear = answer.is_ok_and(|answer| answer.is_clear());
    println!("the move is {}", if clear { "let go" } else { "held" });
}
