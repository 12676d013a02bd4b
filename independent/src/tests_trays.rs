//! Tests of moves of kind 02 (request Q-5), run by `rustc --test`.

use super::checker::{point, verdict as by_corners};
use super::frame::{self, read_line, write_answer, write_move, Asked, Refusal};
use super::generate::Rng;
use super::log::{head, step};
use super::rectangle::*;
use super::tests::paper_cases;
use super::trays::{self, class_of_place, line, sound_move, ACCEPTED, MIXED, TRAYS};
use super::{count_trays, TRAY_CASES};

/// Low x, low y, high x, high y.
fn rectangle([x, y, u, v]: [i128; 4]) -> Rectangle {
    Rectangle {
        low: point(x, y),
        high: point(u, v),
    }
}

fn moved(a: [i128; 4], b: [i128; 4], velocity: (i128, i128), limit: i128) -> RectangleMove {
    RectangleMove {
        limit,
        velocity_a: point(0, 0),
        velocity_b: point(velocity.0, velocity.1),
        a: rectangle(a),
        b: rectangle(b),
    }
}

/// The paper's cases as two rectangles each, but for P12, which is none.
fn paper_rectangles() -> Vec<RectangleMove> {
    let s = |x, y| [x, y, x + 2, y + 2];
    vec![
        moved(s(0, 0), s(5, 0), (-1, 0), 10),
        moved(s(0, 0), s(5, 0), (-1, 0), 3),
        moved(s(0, 0), s(5, 0), (-1, 0), 2),
        moved(s(0, 0), s(5, 0), (1, 0), 10),
        moved(s(0, 0), s(5, 0), (-2, 0), 10),
        moved(s(0, 0), s(5, 4), (-1, -3), 10),
        moved(s(0, 0), s(5, 4), (-1, -1), 10),
        moved(s(0, 0), s(5, 5), (-1, -1), 10),
        moved(s(0, 0), s(2, 0), (0, 0), 10),
        moved([0, 0, 10, 10], s(4, 4), (0, 0), 10),
        moved([-5, -1, 5, 1], [-1, -5, 1, 5], (0, 0), 0),
    ]
}

#[test]
fn paper_cases_are_answered_as_their_four_corners() {
    for (m, (corners, expected)) in paper_rectangles().iter().zip(paper_cases()) {
        assert_eq!(four_corners(m), corners);
        let line = write(m);
        assert_eq!(line.len(), 54);
        assert_eq!(read_line(&line), Ok(Asked::Rectangles(*m)));
        assert_eq!(write_answer(&frame::answer(&line)), expected.as_bytes());
    }
    let examples = include_str!("../../examples/rectangles.txt");
    let lines = paper_rectangles();
    let lines = lines.iter().map(|m| String::from_utf8(write(m)).unwrap());
    assert!(examples.lines().take(11).eq(lines));
}

/// The line of P1, field by field.
#[test]
fn the_frame_is_as_the_request_says() {
    let p1 = [
        "02", "000a", "0000", "0000", "ffff", "0000", // kind, T, velocities
        "0000", "0000", "0002", "0002", "0005", "0000", "0007", "0002",
    ];
    assert_eq!(write(&paper_rectangles()[0]), p1.concat().as_bytes());
    let all = [
        "02", "0001", "0002", "0003", "fffe", "fffd", // kind, T, velocities
        "0004", "0005", "0006", "0007", "fff8", "fff7", "fffa", "270f",
    ];
    let expected = RectangleMove {
        limit: 1,
        velocity_a: point(2, 3),
        velocity_b: point(-2, -3),
        a: rectangle([4, 5, 6, 7]),
        b: rectangle([-8, -9, -6, 9_999]),
    };
    let read = read_line(all.concat().as_bytes());
    assert_eq!(read, Ok(Asked::Rectangles(expected)));
}

/// In every small place, at rest and moving: the answer from two spans is that
/// of the four corners.
#[test]
fn every_small_move() {
    let sides = [(0, 1), (0, 2), (0, 3), (1, 2), (1, 3), (2, 3)];
    let all: Vec<Rectangle> = sides
        .iter()
        .flat_map(|x| sides.map(|y| rectangle([x.0, y.0, x.1, y.1])))
        .collect();
    let mut count = 0;
    for a in &all {
        for b in &all {
            for (vx, vy) in (-2..=2).flat_map(|x| (-2..=2).map(move |y| (x, y))) {
                for (limit, apart) in [(0, 0), (1, 0), (3, 4)] {
                    let shift = point(apart, apart - 1);
                    let m = RectangleMove {
                        limit,
                        velocity_a: point(0, 0),
                        velocity_b: point(vx, vy),
                        a: *a,
                        b: Rectangle {
                            low: b.low.plus(shift),
                            high: b.high.plus(shift),
                        },
                    };
                    assert_eq!(verdict(&m), by_corners(&four_corners(&m)), "{m:?}");
                    count += 1;
                }
            }
        }
    }
    assert_eq!(count, 36 * 36 * 25 * 3);
}

#[test]
fn the_two_spans_say_what_the_eight_sides_say() {
    for (class, name) in &TRAYS[..ACCEPTED] {
        for place in 0..20_000 {
            let m = sound_move(&mut Rng::for_line(9, place), *class);
            assert_eq!(refusal(&m), None, "{name}");
            assert_eq!(read_line(&write(&m)), Ok(Asked::Rectangles(m)), "{name}");
            let corners = four_corners(&m);
            assert_eq!(
                read_line(&write_move(&corners)),
                Ok(Asked::Outlines(corners.clone())),
                "{name}"
            );
            assert_eq!(verdict(&m), by_corners(&corners), "{name} {m:?}");
        }
    }
}

#[test]
fn the_first_refusal_that_applies_is_given() {
    let refusal = |line: &str| read_line(line.as_bytes()).unwrap_err();
    assert_eq!(refusal("02"), Refusal::Count);
    assert_eq!(refusal("0"), Refusal::Digits);
    assert_eq!(refusal("020"), Refusal::Digits);
    assert_eq!(refusal("03"), Refusal::Kind);
    assert_eq!(refusal("00"), Refusal::Kind);
    let p1 = String::from_utf8(write(&paper_rectangles()[0])).unwrap();
    assert_eq!(refusal(&p1[..52]), Refusal::Count);
    assert_eq!(refusal(&p1[..53]), Refusal::Digits);
    assert_eq!(refusal(&format!("{p1}00")), Refusal::Count);
    assert_eq!(refusal(&format!("{p1}{}", "0".repeat(228))), Refusal::Count);
    assert_eq!(
        refusal(&format!("{p1}{}", "0".repeat(230))),
        Refusal::Digits
    );
    assert_eq!(refusal(&p1.to_uppercase()), Refusal::Digits);
    assert_eq!(refusal(&format!("03{}", &p1[2..])), Refusal::Kind);
    assert_eq!(refusal(&format!("01{}", &p1[2..])), Refusal::Count);

    let of = |change: &dyn Fn(&mut RectangleMove)| {
        let mut m = paper_rectangles()[0];
        change(&mut m);
        read_line(&write(&m)).err()
    };
    assert_eq!(of(&|m| m.limit = 10_000), None);
    assert_eq!(of(&|m| m.limit = 10_001), Some(Refusal::Limit));
    assert_eq!(of(&|m| m.velocity_a.y = -10_000), None);
    assert_eq!(of(&|m| m.velocity_a.y = -10_001), Some(Refusal::Speed));
    assert_eq!(of(&|m| m.velocity_b.x = 10_001), Some(Refusal::Speed));
    assert_eq!(of(&|m| m.a.low = point(-10_000, -10_000)), None);
    assert_eq!(of(&|m| m.a.low.y = -10_001), Some(Refusal::Place));
    assert_eq!(of(&|m| m.a.high.x = 10_001), Some(Refusal::Place));
    assert_eq!(of(&|m| m.b.low.x = -10_001), Some(Refusal::Place));
    assert_eq!(of(&|m| m.b.high.y = 10_001), Some(Refusal::Place));
    for (low, high) in [([2, 0], [2, 2]), ([0, 2], [2, 2]), ([3, 0], [2, 2])] {
        let spoiled = rectangle([low[0], low[1], high[0], high[1]]);
        assert_eq!(of(&|m| m.a = spoiled), Some(Refusal::First(0)));
        assert_eq!(of(&|m| m.b = spoiled), Some(Refusal::Second(0)));
    }
    // Both turned round: the four corners would be sound.
    let turned = rectangle([2, 2, 0, 0]);
    assert_eq!(of(&|m| m.a = turned), Some(Refusal::First(0)));
    assert_eq!(of(&|m| m.b = turned), Some(Refusal::Second(0)));
    assert_eq!(
        of(&|m| {
            m.a = turned;
            m.b = turned;
        }),
        Some(Refusal::First(0))
    );
    assert_eq!(
        of(&|m| {
            m.a = turned;
            m.b.high.x = 10_001;
        }),
        Some(Refusal::Place)
    );
    let mut m = paper_rectangles()[0];
    m.a = turned;
    assert_eq!(write_answer(&frame::answer(&write(&m))), b"81ff0800");
    m.a = m.b;
    m.b = turned;
    assert_eq!(write_answer(&frame::answer(&write(&m))), b"81ff0900");
}

/// Logs have kind 01 alone, and readers of that kind too.
#[test]
fn other_readers_refuse_it() {
    for place in 0..2_000 {
        let line = line(4, place, class_of_place(&TRAYS[..ACCEPTED], place));
        assert_eq!(frame::read_move(&line), Err(Refusal::Kind));
        let in_log = [head(place as u16), line].concat();
        let step = step(Some(7), &in_log);
        assert_eq!(step.answer, Err(Refusal::Kind));
        assert_eq!((step.kept, step.lost), (Some(7), 0));
    }
}

#[test]
fn lines_are_turned_into_four_corners() {
    let turned = |input: &[u8]| {
        let mut output = Vec::new();
        super::four_corners(input, &mut output).unwrap();
        String::from_utf8(output).unwrap()
    };
    for (m, (corners, _)) in paper_rectangles().iter().zip(paper_cases()) {
        let expected = String::from_utf8(write_move(&corners)).unwrap() + "\n";
        assert_eq!(turned(&write(m)), expected);
        assert_eq!(turned(&write_move(&corners)), expected);
    }
    assert_eq!(turned(b"\n02\n0\n"), "\n02\n0\n");
    for place in 0..20_000 {
        let line = line(6, place, class_of_place(TRAYS, place));
        let Ok(turned) = String::from_utf8([&line[..], b"\n"].concat()) else {
            continue;
        };
        let mut output = Vec::new();
        super::four_corners(turned.as_bytes(), &mut output).unwrap();
        output.pop();
        assert_eq!(frame::answer(&output), frame::answer(&line), "{turned}");
    }
}

#[test]
fn the_generator_gives_what_it_says() {
    for set in [TRAYS, MIXED] {
        for place in 0..20_000 {
            let class = class_of_place(set, place);
            let made = line(5, place, class);
            assert!(!made.contains(&b'\n'));
            if place < 500 {
                assert_eq!(made, line(5, place, class));
            }
        }
    }
    let accepted = |name: &str| TRAYS[..ACCEPTED].iter().any(|(_, n)| *n == name);
    let table = count_trays(5, 17_000, TRAYS);
    for (name, lines, counts) in &table.rows {
        let refused: u64 = counts[21..29].iter().sum();
        assert_eq!(refused, if accepted(name) { 0 } else { *lines }, "{name}");
    }
    for (column, case) in TRAY_CASES.iter().enumerate() {
        let met: u64 = table.rows.iter().map(|row| row.2[column]).sum();
        // The corner 3 of B never shows: where it alone is in A, a corner of A
        // is in B, and where another is too, that is lower.
        match *case {
            "B3" | "kind-01" => assert_eq!(met, 0),
            _ => assert!(met >= 100, "{case} {met}"),
        }
    }
    assert_eq!(trays::SETS[1].1.len(), ACCEPTED);
}
