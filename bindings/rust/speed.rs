//! Verdicts per second through `stonefruitle_answer_lists`, random sound moves of 3 to 16 corners, and through
//! `stonefruitle_answer_rectangles`, rectangles, against the same moves as four corners each. The moves are made beforehand;
//! only the calls are timed. `tests/speed` builds and runs it.
//!
//!     speed [SEED [COUNT]]      (1 and 100000 if not given)

#[allow(dead_code)]
#[path = "../../independent/src/checker.rs"]
mod checker;
#[allow(dead_code)]
#[path = "../../independent/src/frame.rs"]
mod frame;
#[allow(dead_code)]
#[path = "../../independent/src/generate.rs"]
mod generate;
#[allow(dead_code)]
#[path = "../../independent/src/rails.rs"]
mod rails;
#[allow(dead_code)]
#[path = "../../independent/src/rectangle.rs"]
mod rectangle;
#[allow(dead_code)]
#[path = "../../independent/src/stops.rs"]
mod stops;
#[allow(dead_code)]
#[path = "../../independent/src/straight.rs"]
mod straight;
#[allow(dead_code)]
#[path = "../../independent/src/trays.rs"]
mod trays;

use checker::Point;
use generate::{sound_move, Class, Rng};
use std::time::{Duration, Instant};
use stonefruitle::{
    answer_lists_into, answer_rectangles_into, Move, Rectangle, RectangleMove, Written, ANSWER_ROOM,
};

type Pair = (i64, i64);

fn pair(p: Point) -> Pair {
    (p.x as i64, p.y as i64)
}

/// Two lists of coordinates, two velocities and a limit.
type Lists = (Vec<i64>, Vec<i64>, Pair, Pair, i64);

fn lists(m: &checker::Move) -> Lists {
    let list = |corners: &[Point]| {
        let both = |p: &Point| [p.x as i64, p.y as i64];
        corners.iter().flat_map(both).collect()
    };
    (
        list(&m.a),
        list(&m.b),
        pair(m.velocity_a),
        pair(m.velocity_b),
        m.limit as i64,
    )
}

fn answer(lists: &Lists, out: &mut [u8]) -> Written {
    let (a, b, velocity_a, velocity_b, limit) = lists;
    let m = Move {
        a,
        b,
        velocity_a: *velocity_a,
        velocity_b: *velocity_b,
        limit: *limit,
    };
    answer_lists_into(&m, out)
}

fn rectangles(m: &rectangle::RectangleMove) -> RectangleMove {
    let one = |r: rectangle::Rectangle| Rectangle {
        low: pair(r.low),
        high: pair(r.high),
    };
    RectangleMove {
        a: one(m.a),
        b: one(m.b),
        velocity_a: pair(m.velocity_a),
        velocity_b: pair(m.velocity_b),
        limit: m.limit as i64,
    }
}

/// The time of one run over all moves, and how many of them are in contact.
fn timed<T>(moves: &[T], call: impl Fn(&T, &mut [u8]) -> Written) -> (Duration, u64) {
    let mut contacts = 0;
    let start = Instant::now();
    for m in moves {
        let mut out = [0; ANSWER_ROOM];
        let written = call(m, &mut out);
        assert!(written.refusal.is_none());
        contacts += (out[3] == b'2') as u64;
    }
    (start.elapsed(), contacts)
}

fn main() {
    let word = |at: usize, otherwise: u64| match std::env::args().nth(at) {
        Some(word) => word.parse().expect("usage: speed [SEED [COUNT]]"),
        None => otherwise,
    };
    let (seed, count) = (word(1, 1), word(2, 100_000));
    let a_second = |best: Duration| count as f64 / best.as_secs_f64();

    let moves: Vec<Lists> = (0..count)
        .map(|place| lists(&sound_move(&mut Rng::for_line(seed, place), Class::Full)))
        .collect();
    let runs = [(); 5].map(|()| timed(&moves, answer));
    let best = runs.map(|(time, _)| time).into_iter().min().unwrap();
    println!(
        "{:.0} verdicts a second on one core ({count} moves of 3 to 16 corners, seed {seed}, {} in contact; best of 5 runs)",
        a_second(best),
        runs[0].1
    );

    // The two kinds by turns, so that a busy moment does not fall on one of them alone.
    let trays: Vec<rectangle::RectangleMove> = (0..count)
        .map(|place| trays::sound_move(&mut Rng::for_line(seed, place), trays::Class::Wide))
        .collect();
    let of_kind_02: Vec<RectangleMove> = trays.iter().map(rectangles).collect();
    let four_corners = |m| lists(&rectangle::four_corners(m));
    let of_kind_01: Vec<Lists> = trays.iter().map(four_corners).collect();
    let runs = [(); 5].map(|()| {
        let (spans, contacts) = timed(&of_kind_02, answer_rectangles_into);
        let (sides, same) = timed(&of_kind_01, answer);
        assert_eq!(contacts, same);
        (spans, sides, contacts)
    });
    let spans = runs.map(|run| run.0).into_iter().min().unwrap();
    let sides = runs.map(|run| run.1).into_iter().min().unwrap();
    println!(
        "{:.0} verdicts a second for rectangles, {:.0} for the same moves as four corners: {:.2} times as many ({count} moves, seed {seed}, {} in contact; best of 5 runs)",
        a_second(spans),
        a_second(sides),
        sides.as_secs_f64() / spans.as_secs_f64(),
        runs[0].2
    );
}
