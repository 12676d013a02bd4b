//! Tests of the edge that a refusal names (request Q-3), run by `rustc --test`.
//! Which edge that is for each small outline is tested in tests_straight.rs.

use super::checker::{edge_named, is_sound, Move};
use super::frame::{self, read_fields, write_answer, write_move, Refusal};
use super::generate::{self, is_strict, line, BAD_EDGES, BASE, STAR, STRAIGHT_CORNERS};
use super::log::{step, write_log};
use super::runs::{Log, LOG, LOG_BAD_EDGES, LOG_STRAIGHT_CORNERS};
use super::tests::{paper_cases, points};
use super::{count_log, count_moves, EDGE_CASES, OF_LOGS};

#[test]
fn the_lowest_edge_is_named() {
    let of = |list: &[(i128, i128)]| edge_named(&points(list));
    assert_eq!(of(&[(0, 0), (2, 0), (2, 2), (0, 2)]), None);
    assert_eq!(edge_named(&STAR), Some(0));
    // A corner pulled in, and in so far that the edges at it are bad: in turn
    // at each corner.
    assert_eq!(of(&[(1, 1), (4, 0), (4, 4), (0, 4)]), None);
    assert_eq!(of(&[(3, 3), (4, 0), (4, 4), (0, 4)]), Some(0));
    assert_eq!(of(&[(0, 0), (1, 3), (4, 4), (0, 4)]), Some(0));
    assert_eq!(of(&[(0, 0), (4, 0), (1, 1), (0, 4)]), Some(1));
    assert_eq!(of(&[(0, 0), (4, 0), (4, 4), (3, 1)]), Some(2));
    assert_eq!(of(&[(0, 0), (4, 0), (6, 3), (4, 6), (3, 3)]), Some(3));
    // A straight corner, on each edge in turn.
    assert_eq!(of(&[(0, 0), (1, 0), (2, 0), (2, 2), (0, 2)]), None);
    assert_eq!(of(&[(0, 0), (2, 0), (2, 1), (2, 2), (0, 2)]), None);
    assert_eq!(of(&[(0, 0), (2, 0), (2, 2), (1, 2), (0, 2)]), None);
    assert_eq!(of(&[(0, 0), (2, 0), (2, 2), (0, 2), (0, 1)]), None);
    // A repeated corner, beside the other and apart: the lower edge that
    // starts there.
    assert_eq!(of(&[(0, 0), (0, 0), (2, 0), (2, 2), (0, 2)]), Some(0));
    assert_eq!(of(&[(0, 0), (2, 0), (2, 0), (2, 2), (0, 2)]), Some(1));
    assert_eq!(of(&[(0, 0), (2, 0), (2, 2), (2, 2), (0, 2)]), Some(2));
    assert_eq!(of(&[(0, 0), (2, 0), (2, 2), (0, 2), (0, 2)]), Some(3));
    assert_eq!(of(&[(0, 0), (2, 0), (2, 2), (0, 2), (0, 0)]), Some(0));
    assert_eq!(of(&[(0, 0), (2, 0), (2, 2), (0, 2), (2, 0)]), Some(1));
    assert_eq!(of(&[(0, 0), (1, 0), (2, 0), (1, 0), (0, 2)]), Some(1));
    // Clockwise, all in line, all at one place, a triangle.
    assert_eq!(of(&[(0, 2), (2, 2), (2, 0), (0, 0)]), Some(0));
    assert_eq!(of(&[(0, 0), (1, 1), (2, 2), (3, 3)]), Some(0));
    assert_eq!(of(&[(5, 5), (5, 5), (5, 5)]), Some(0));
    assert_eq!(of(&[(0, 0), (0, 1), (1, 0)]), Some(0));
}

pub fn fields(line: &[u8]) -> Option<Move> {
    read_fields(&frame::bytes_of(line, frame::MOST_DIGITS)?).ok()
}

/// The edge is that of the outline that is refused, and stands in the line's
/// fourth byte; other refusals have none.
#[test]
fn refusals_carry_the_edge() {
    for (set, count) in [
        (BASE, 20_000),
        (BAD_EDGES, 20_000),
        (STRAIGHT_CORNERS, 20_000),
    ] {
        for place in 0..count {
            let line = line(11, place, generate::class_of_place(set, place));
            let Err(refusal) = frame::answer(&line) else {
                continue;
            };
            let written = String::from_utf8(write_answer(&Err(refusal))).unwrap();
            let head = format!("81ff{:02x}", refusal.number());
            let m = fields(&line);
            let edge = match refusal {
                Refusal::First(_) => edge_named(&m.unwrap().a),
                Refusal::Second(_) => {
                    let m = m.unwrap();
                    assert_eq!(edge_named(&m.a), None);
                    edge_named(&m.b)
                }
                _ => None,
            };
            assert_eq!(refusal.edge(), edge);
            match edge {
                Some(edge) => assert_eq!(written, format!("{head}{edge:02x}")),
                None => assert_eq!(written, head),
            }
            assert_eq!(written.len() + 1, if edge.is_some() { 9 } else { 7 });
        }
    }
}

/// No move of these classes is strict, so that all were refused before request
/// Q-8; since then those are accepted that are sound.
#[test]
fn the_generator_gives_what_it_says() {
    for (class, name) in BAD_EDGES {
        for place in 0..2000 {
            let made = line(5, place, *class);
            assert_eq!(made, line(5, place, *class));
            let m = fields(&made).expect("all but the outlines is well");
            assert_eq!(write_move(&m), made);
            assert!(!is_strict(&m.a) || !is_strict(&m.b), "{name}");
            match frame::answer(&made) {
                Ok(_) => assert!(is_sound(&m.a) && is_sound(&m.b), "{name}"),
                Err(refusal) => assert!(refusal.edge().is_some(), "{name}"),
            }
        }
    }
    let table = count_moves(5, 16_000, BAD_EDGES);
    let (log, _) = count_log(5, 20_000, LOG_BAD_EDGES);
    for (table, cases) in [(table, &EDGE_CASES[OF_LOGS..]), (log, &EDGE_CASES[..])] {
        for (column, case) in cases.iter().enumerate() {
            let met: u64 = table.rows.iter().map(|row| row.2[column]).sum();
            // The last edge is named where straight corners are out of order.
            // Where a line with straight corners is accepted, the numbers that
            // the log goes by stay behind, and few are in order from then on.
            let least = match *case {
                "r10-half" | "last" => 0,
                "r10-same" | "accepted" => 20,
                _ => 100,
            };
            assert!(met >= least, "{case} {met}");
        }
        assert!(table.named[..15].iter().all(|times| *times >= 100));
    }
}

/// In a log the same, and what is kept stays.
#[test]
fn logs_carry_the_edge() {
    for set in [LOG, LOG_BAD_EDGES, LOG_STRAIGHT_CORNERS] {
        let mut kept = None;
        for (class, line) in Log::new(8, set).take(10_000) {
            let step = step(kept, &line);
            if let Err(refusal @ (Refusal::First(_) | Refusal::Second(_))) = step.answer {
                assert_eq!(frame::answer(&line[6..]), Err(refusal), "{class:?}");
                assert_eq!((step.kept, step.lost), (kept, 0));
            }
            kept = step.kept;
        }
    }
    let p12 = write_log(7, &paper_cases()[11].0);
    for kept in [None, Some(6), Some(7)] {
        assert_eq!(write_answer(&step(kept, &p12).answer), b"81ff0800");
    }
}
