//! Run by `rustc --test`; see README.md beside this directory.

use super::checker::*;
use super::frame::{self, read_move, write_answer, write_move, Refusal};
use super::generate::{self, is_of, line, sound_move, Class, Rng, BAD_EDGES, SETS, STAR};

pub fn points(list: &[(i128, i128)]) -> Vec<Point> {
    list.iter().map(|&(x, y)| point(x, y)).collect()
}

/// The paper's S, shifted.
fn s(a: i128, b: i128) -> Vec<Point> {
    points(&[(a, b), (a + 2, b), (a + 2, b + 2), (a, b + 2)])
}

fn case(a: Vec<Point>, b: Vec<Point>, velocity: (i128, i128), limit: i128) -> Move {
    Move {
        limit,
        velocity_a: point(0, 0),
        velocity_b: point(velocity.0, velocity.1),
        a,
        b,
    }
}

/// The paper's cases P1 to P12 with the answer lines they must have, that of
/// P9 by request Q-1 and that of P12 by Q-3.
pub fn paper_cases() -> Vec<(Move, &'static str)> {
    let ten = points(&[(0, 0), (10, 0), (10, 10), (0, 10)]);
    let lying = points(&[(-5, -1), (5, -1), (5, 1), (-5, 1)]);
    let standing = points(&[(-1, -5), (1, -5), (1, 5), (-1, 5)]);
    vec![
        (
            case(s(0, 0), s(5, 0), (-1, 0), 10),
            "81020000000300000001000000070000000101000100",
        ),
        (
            case(s(0, 0), s(5, 0), (-1, 0), 3),
            "81020000000300000001000000030000000101000100",
        ),
        (case(s(0, 0), s(5, 0), (-1, 0), 2), "810001"),
        (case(s(0, 0), s(5, 0), (1, 0), 10), "810001"),
        (
            case(s(0, 0), s(5, 0), (-2, 0), 10),
            "81020000000300000002000000070000000201000100",
        ),
        (case(s(0, 0), s(5, 4), (-1, -3), 10), "81010100"),
        (
            case(s(0, 0), s(5, 4), (-1, -1), 10),
            "81020000000300000001000000060000000101000200",
        ),
        (
            case(s(0, 0), s(5, 5), (-1, -1), 10),
            "81020000000300000001000000070000000100000200",
        ),
        (
            case(s(0, 0), s(2, 0), (0, 0), 10),
            "810200000000000000010000000a0000000101000100",
        ),
        (
            case(ten, s(4, 4), (0, 0), 10),
            "810200000000000000010000000a00000001ff010000",
        ),
        (
            case(lying, standing, (0, 0), 0),
            "810200000000000000010000000000000001ff020001",
        ),
        (case(STAR.to_vec(), s(0, 0), (0, 0), 10), "81ff0800"),
    ]
}

/// What the program prints for an input.
fn printed(input: &[u8]) -> String {
    let mut output = Vec::new();
    super::answer(input, &mut output, frame::answer).unwrap();
    String::from_utf8(output).unwrap()
}

#[test]
fn paper_cases_are_answered_as_the_paper_says() {
    for (i, (m, expected)) in paper_cases().iter().enumerate() {
        let mut line = write_move(m);
        line.push(b'\n');
        assert_eq!(printed(&line), format!("{expected}\n"), "P{}", i + 1);
    }
}

#[test]
fn paper_lines_are_read_and_printed_as_they_stand() {
    let p1 = "010404000a00000000ffff00000000000000020000000200020000000200050000000700000007000200050002";
    assert_eq!(p1.as_bytes(), write_move(&paper_cases()[0].0));
    assert_eq!(
        printed(p1.as_bytes()),
        "81020000000300000001000000070000000101000100\n"
    );
    let print = |case: usize| printed(&write_move(&paper_cases()[case - 1].0));
    assert_eq!(print(3), "810001\n");
    assert_eq!(print(6), "81010100\n");
    assert_eq!(print(12), "81ff0800\n");
}

#[test]
fn examples_are_the_paper_cases() {
    let examples = include_str!("../../examples/moves.txt");
    let lines: Vec<String> = paper_cases()
        .iter()
        .map(|(m, _)| String::from_utf8(write_move(m)).unwrap())
        .collect();
    assert_eq!(examples.lines().collect::<Vec<_>>(), lines);
    assert!(examples.ends_with('\n'));
}

#[test]
fn what_the_paper_says_in_passing() {
    // The star turns left at every corner and is not sound all the same.
    for i in 0..5 {
        let (p, q, r) = (STAR[i], STAR[(i + 1) % 5], STAR[(i + 2) % 5]);
        assert!(q.minus(p).cross(r.minus(q)) > 0);
    }
    assert!(!is_sound(&STAR));
    let shortest = write_move(&case(
        points(&[(0, 0), (1, 0), (0, 1)]),
        points(&[(0, 0), (1, 0), (0, 1)]),
        (0, 0),
        0,
    ));
    assert_eq!(shortest.len(), 2 * 37);
    let mut rng = Rng::for_line(1, 0);
    let many = generate::outline(&mut rng, 16, 20_000);
    let longest = write_move(&case(many.clone(), many, (0, 0), 0));
    assert_eq!(longest.len(), 2 * 141);
    assert!(frame::answer(&longest).is_ok());
    assert_eq!(write_answer(&frame::answer(&longest)).len() + 1, 45);
}

#[test]
fn lines_are_split_at_0a_alone() {
    let p3 = String::from_utf8(write_move(&paper_cases()[2].0)).unwrap();
    assert_eq!(printed(b""), "");
    assert_eq!(printed(b"\n"), "81ff02\n");
    assert_eq!(printed(b"\n\n\n"), "81ff02\n81ff02\n81ff02\n");
    assert_eq!(printed(b"0"), "81ff02\n");
    assert_eq!(printed(p3.as_bytes()), "810001\n");
    assert_eq!(printed(format!("{p3}\n").as_bytes()), "810001\n");
    assert_eq!(printed(format!("{p3}\n\n").as_bytes()), "810001\n81ff02\n");
    assert_eq!(
        printed(format!("{p3}\r\n{p3}").as_bytes()),
        "81ff02\n810001\n"
    );
    for length in [283, 284, 285, 100_000] {
        let long = "0".repeat(length);
        assert_eq!(
            printed(format!("{long}\n{p3}\n").as_bytes()),
            "81ff02\n810001\n"
        );
        assert_eq!(printed(long.as_bytes()), "81ff02\n");
    }
    // 282 digits are read: what is wrong with these is their kind.
    assert_eq!(printed("0".repeat(282).as_bytes()), "81ff03\n");
    let all: Vec<u8> = (0..=255).collect();
    assert_eq!(printed(&all), "81ff02\n81ff02\n");
}

#[test]
fn the_first_refusal_that_applies_is_given() {
    let refusal = |line: &str| read_move(line.as_bytes()).unwrap_err().number();
    assert_eq!(refusal(""), 2);
    assert_eq!(refusal("0"), 2);
    assert_eq!(refusal("010"), 2);
    assert_eq!(refusal("0A"), 2);
    assert_eq!(refusal("01\r"), 2);
    assert_eq!(refusal("00"), 3);
    assert_eq!(refusal("01"), 4);
    assert_eq!(refusal("0103"), 4);
    assert_eq!(refusal("010303"), 4);

    let good = paper_cases()[0].0.clone();
    let of = |change: &dyn Fn(&mut Move)| {
        let mut m = good.clone();
        change(&mut m);
        read_move(&write_move(&m)).err().map(Refusal::number)
    };
    assert_eq!(of(&|m| m.a.truncate(2)), Some(4));
    assert_eq!(of(&|m| m.b.truncate(2)), Some(4));
    assert_eq!(of(&|m| m.a = vec![point(0, 0); 17]), Some(4));
    assert_eq!(of(&|m| m.b = vec![point(0, 0); 17]), Some(4));
    assert_eq!(of(&|m| m.limit = 0), None);
    assert_eq!(of(&|m| m.limit = 10_000), None);
    assert_eq!(of(&|m| m.limit = 10_001), Some(5));
    assert_eq!(of(&|m| m.limit = 65_535), Some(5));
    for speed in [10_000, -10_000] {
        assert_eq!(of(&|m| m.velocity_a = point(speed, -speed)), None);
        assert_eq!(of(&|m| m.velocity_b = point(speed, -speed)), None);
        let outside = speed + speed.signum();
        assert_eq!(of(&|m| m.velocity_a.x = outside), Some(6));
        assert_eq!(of(&|m| m.velocity_a.y = outside), Some(6));
        assert_eq!(of(&|m| m.velocity_b.x = outside), Some(6));
        assert_eq!(of(&|m| m.velocity_b.y = outside), Some(6));
    }
    assert_eq!(of(&|m| m.b[1].x = 10_000), None);
    assert_eq!(of(&|m| m.b[1].x = 10_001), Some(7));
    assert_eq!(of(&|m| m.a[0].y = -10_001), Some(7));
    assert_eq!(of(&|m| m.a.reverse()), Some(8));
    assert_eq!(of(&|m| m.b.reverse()), Some(9));
    // Over the whole move: B's place before A's soundness.
    assert_eq!(
        of(&|m| {
            m.a.reverse();
            m.b[3].y = 10_001;
        }),
        Some(7)
    );
    assert_eq!(
        of(&|m| {
            m.a.reverse();
            m.b.reverse();
        }),
        Some(8)
    );
}

#[test]
fn outlines_are_sound_only_as_defined() {
    assert!(is_sound(&s(0, 0)));
    assert!(!is_sound(&points(&[(0, 0), (0, 2), (2, 0)])));
    assert!(is_sound(&points(&[(0, 0), (1, 0), (2, 0), (0, 2)])));
    assert!(!is_sound(&points(&[(0, 0), (2, 0), (1, 0), (0, 2)])));
    assert!(!is_sound(&points(&[(0, 0), (2, 0), (2, 0), (0, 2)])));
    assert!(!is_sound(&points(&[(0, 0), (4, 0), (1, 1), (0, 4)])));
    assert!(!is_sound(&points(&[(0, 0), (1, 1), (2, 2)])));
    // A square gone round twice.
    assert!(!is_sound(&[s(0, 0), s(0, 0)].concat()));
}

#[test]
fn edges_share_a_point_also_in_one_line() {
    let meet = |p: [i128; 4], q: [i128; 4]| {
        let edge = |e: [i128; 4]| (point(e[0], e[1]), point(e[2], e[3]));
        let answer = edges_meet(edge(p), edge(q));
        assert_eq!(answer, edges_meet(edge(q), edge(p)));
        answer
    };
    assert!(meet([0, 0, 4, 4], [0, 4, 4, 0])); // across
    assert!(meet([0, 0, 4, 0], [2, 0, 2, 3])); // an end on the other
    assert!(meet([0, 0, 4, 0], [4, 0, 6, 3])); // end to end
    assert!(meet([0, 0, 4, 0], [3, 0, 6, 0])); // in one line, overlapping
    assert!(meet([0, 0, 4, 0], [1, 0, 2, 0])); // in one line, one in the other
    assert!(meet([0, 0, 4, 0], [4, 0, 6, 0])); // in one line, end to end
    assert!(!meet([0, 0, 4, 0], [5, 0, 6, 0])); // in one line, apart
    assert!(!meet([0, 0, 0, 4], [0, 5, 0, 6])); // the same, upright
    assert!(!meet([0, 0, 4, 0], [0, 1, 4, 1])); // beside
    assert!(!meet([0, 0, 4, 0], [5, -1, 5, 1])); // the line crosses, not the edge
    assert!(!meet([0, 0, 4, 4], [3, 2, 5, 2])); // within the box, not in line
}

fn classes() -> impl Iterator<Item = Class> {
    SETS.iter()
        .flat_map(|(_, set)| set.iter())
        .map(|(class, _)| *class)
}

/// Some of every class that is not refused.
pub fn sample(each: u64) -> Vec<(Class, Move)> {
    let mut all = Vec::new();
    for class in classes() {
        let refused = [Class::Unsound, Class::Damaged].contains(&class) || is_of(BAD_EDGES, class);
        if !refused && !matches!(class, Class::Misdrawn(_)) {
            all.extend((0..each).map(|i| (class, sound_move(&mut Rng::for_line(7, i), class))));
        }
    }
    all
}

/// A time a little before or after another. The times of a span and those of
/// contact are one closed interval each, so any time outside it will do.
pub fn beside(time: Fraction, by: i128) -> Fraction {
    Fraction {
        n: time.n * 1000 + by,
        d: time.d * 1000,
    }
}

#[test]
fn the_generator_gives_what_it_says() {
    let mut counts_a = [0; 17];
    let mut counts_b = [0; 17];
    for (class, m) in sample(500) {
        assert_eq!(read_move(&write_move(&m)), Ok(m.clone()), "{class:?}");
        counts_a[m.a.len()] += 1;
        counts_b[m.b.len()] += 1;
    }
    assert!((3..=16).all(|count| counts_a[count] > 0 && counts_b[count] > 0));

    let mut refused = [false; 10];
    for place in 0..5000 {
        for class in classes() {
            let made = line(3, place, class);
            assert!(!made.contains(&b'\n'));
            if place < 50 {
                assert_eq!(made, line(3, place, class));
            }
            if let Err(refusal) = frame::answer(&made) {
                refused[refusal.number() as usize] = true;
            }
        }
    }
    assert!(refused[2..].iter().all(|seen| *seen));
}

#[test]
fn spans_are_what_the_definition_says() {
    let shares = |m: &Move, direction: Point, time: Fraction| {
        let (low_a, high_a) = interval(&moved(&m.a, m.velocity_a, time), direction);
        let (low_b, high_b) = interval(&moved(&m.b, m.velocity_b, time), direction);
        low_a <= high_b && low_b <= high_a
    };
    for (class, m) in sample(300) {
        for direction in directions(&m) {
            let span = span(&m, direction);
            if let Some(Span { begin, end }) = span {
                assert!(shares(&m, direction, begin) && shares(&m, direction, end));
                assert!(Fraction::whole(0) <= begin && end <= Fraction::whole(m.limit));
                assert!(begin.n == 0 || !shares(&m, direction, beside(begin, -1)));
                assert!(end == Fraction::whole(m.limit) || !shares(&m, direction, beside(end, 1)));
            }
            for step in 0..=16 {
                let time = Fraction::new(step * m.limit, 16);
                let expected = span.map_or(false, |s| s.begin <= time && time <= s.end);
                assert_eq!(shares(&m, direction, time), expected, "{class:?} {m:?}");
            }
        }
    }
}

/// The verdict against overlap at single times, which knows nothing of
/// projections: a corner in the other outline or two edges that meet.
#[test]
fn verdicts_agree_with_overlap_at_single_times() {
    for (class, m) in sample(600) {
        let overlaps = |time: Fraction| showing_at(&m, time).is_some();
        let times = (0..=24).map(|step| Fraction::new(step * m.limit, 24));
        match verdict(&m) {
            Verdict::Contact {
                first,
                last,
                bearing,
                showing,
            } => {
                assert!(overlaps(first) && overlaps(last), "{class:?} {m:?}");
                assert!(
                    first.n == 0 || !overlaps(beside(first, -1)),
                    "{class:?} {m:?}"
                );
                assert!(last == Fraction::whole(m.limit) || !overlaps(beside(last, 1)));
                for time in times {
                    assert_eq!(overlaps(time), first <= time && time <= last);
                }
                assert!(first.n == 0 || bearing.is_some());
                assert!(first.n == 0 || !matches!(showing, Showing::Edges(_, _)));
            }
            Verdict::ClearByOne(side) => {
                assert_eq!(span(&m, directions(&m)[side]), None);
                times.for_each(|time| assert!(!overlaps(time), "{class:?} {m:?}"));
            }
            Verdict::ClearByTwo(i, j) => {
                let all = directions(&m);
                let (late, soon) = (span(&m, all[i]).unwrap(), span(&m, all[j]).unwrap());
                assert!(late.begin > soon.end);
                times.for_each(|time| assert!(!overlaps(time), "{class:?} {m:?}"));
                assert!(!overlaps(late.begin) && !overlaps(soon.end));
            }
        }
    }
}

/// The bearing side at zero, and the last time of contact.
fn bearing_from_zero(m: &Move) -> (Option<usize>, Fraction) {
    match verdict(m) {
        Verdict::Contact {
            first: Fraction { n: 0, d: 1 },
            last,
            bearing,
            ..
        } => (bearing, last),
        other => panic!("no contact from zero: {other:?}"),
    }
}

#[test]
fn what_bears_at_zero() {
    let still = |a: Vec<Point>, b: Vec<Point>| bearing_from_zero(&case(a, b, (0, 0), 10)).0;
    let ten = points(&[(0, 0), (10, 0), (10, 10), (0, 10)]);
    let diamond = points(&[(-3, 0), (0, -3), (3, 0), (0, 3)]);
    // Along an edge: A's edge and the one opposite to it share one value
    // each, and the lower of them is named wherever B lies.
    assert_eq!(still(s(0, 0), s(2, 0)), Some(1));
    assert_eq!(still(s(0, 0), s(-2, 0)), Some(1));
    assert_eq!(still(s(0, 0), s(0, 2)), Some(0));
    assert_eq!(still(s(0, 0), s(1, -2)), Some(0));
    // Corner to corner: every side shares one value.
    assert_eq!(still(s(0, 0), s(2, 2)), Some(0));
    // A corner in an edge of A, and in an edge of B alone.
    assert_eq!(still(s(-5, -1), diamond.clone()), Some(1));
    assert_eq!(still(diamond.clone(), s(3, -1)), Some(5));
    // A hair less, and a hair more.
    assert_eq!(still(s(0, 0), s(1, 0)), None);
    assert_eq!(
        verdict(&case(s(0, 0), s(3, 0), (0, 0), 10)),
        Verdict::ClearByOne(1)
    );
    // Inside, also against an edge, in a corner, and the same once more.
    assert_eq!(still(ten.clone(), s(4, 4)), None);
    assert_eq!(still(ten.clone(), s(4, 8)), None);
    assert_eq!(still(s(8, 0), ten.clone()), None);
    assert_eq!(still(ten.clone(), ten.clone()), None);
    assert_eq!(still(ten, points(&[(0, 0), (10, 5), (0, 10)])), None);
    // Where they go from there does not matter, nor does the limit.
    let moving = |x, y, limit| bearing_from_zero(&case(s(0, 0), s(2, 0), (x, y), limit));
    assert_eq!(moving(1, 0, 10), (Some(1), Fraction::whole(0)));
    assert_eq!(moving(-1, 0, 10), (Some(1), Fraction::whole(4)));
    assert_eq!(moving(0, 1, 10), (Some(1), Fraction::whole(2)));
    assert_eq!(moving(-1, 0, 0), (Some(1), Fraction::whole(0)));
}

/// A side bears at zero exactly if the outlines can be moved apart across it
/// at once; otherwise no short step across any side parts them. Where they
/// are in contact is found by corners and edges, not by projections.
#[test]
fn a_side_bears_at_zero_where_it_parts_the_outlines() {
    let soon = Fraction::new(1, 10_000_000_000);
    let mut counts = [0; 2];
    for (class, m) in sample(300) {
        if showing_at(&m, Fraction::whole(0)).is_none() {
            continue;
        }
        let all = directions(&m);
        let parts = |k: usize| {
            [1, -1].iter().any(|&sign| {
                let away = Move {
                    velocity_a: point(0, 0),
                    velocity_b: all[k].times(sign),
                    ..m.clone()
                };
                showing_at(&away, soon).is_none()
            })
        };
        match bearing_from_zero(&m).0 {
            Some(side) => assert!(parts(side), "{class:?} {m:?}"),
            None => assert!(!(0..all.len()).any(parts), "{class:?} {m:?}"),
        }
        counts[bearing_from_zero(&m).0.is_some() as usize] += 1;
    }
    assert!(counts.iter().all(|count| *count > 0));
}

/// At the first time of contact the projections on the bearing side share
/// exactly one value, on lower sides at zero more than one.
#[test]
fn on_the_bearing_side_one_value_is_shared() {
    for (class, m) in sample(300) {
        let Verdict::Contact { first, bearing, .. } = verdict(&m) else {
            continue;
        };
        let a = moved(&m.a, m.velocity_a, first);
        let b = moved(&m.b, m.velocity_b, first);
        let shared = |direction: Point| {
            let (p, q) = (interval(&a, direction), interval(&b, direction));
            p.1.min(q.1) - p.0.max(q.0)
        };
        let all = directions(&m);
        let lower = bearing.unwrap_or(all.len());
        if let Some(side) = bearing {
            assert_eq!(shared(all[side]), 0, "{class:?} {m:?}");
        }
        for side in 0..lower {
            assert!(first.n > 0 || shared(all[side]) > 0, "{class:?} {m:?}");
        }
    }
}

/// The classes of Q-1 that are never a hair off lie at zero as they say.
#[test]
fn classes_lie_at_zero_as_they_say() {
    for (class, m) in sample(300) {
        if [Class::Parting, Class::Closing, Class::Within].contains(&class) {
            let (bearing, last) = bearing_from_zero(&m);
            assert_eq!(bearing.is_none(), class == Class::Within, "{m:?}");
            assert!(class != Class::Parting || last.n == 0, "{m:?}");
            assert!(
                class != Class::Closing || last.n > 0 || m.limit == 0,
                "{m:?}"
            );
        }
    }
}

/// Whole weights on the corners of `outline` for the point `p` inside or on
/// it: areas in the first triangle of the fan from corner 0 that holds it. Next
/// to a straight corner a triangle may have no area.
fn weights_of(outline: &[Point], p: Point) -> Vec<i128> {
    for k in 1..outline.len() - 1 {
        let (u, v, w) = (outline[0], outline[k], outline[k + 1]);
        let areas = [
            v.minus(p).cross(w.minus(p)),
            w.minus(p).cross(u.minus(p)),
            u.minus(p).cross(v.minus(p)),
        ];
        if areas.iter().all(|area| *area >= 0) && areas.iter().sum::<i128>() > 0 {
            let mut weights = vec![0; outline.len()];
            (weights[0], weights[k], weights[k + 1]) = (areas[0], areas[1], areas[2]);
            return weights;
        }
    }
    panic!("the point is outside");
}

/// Each showing yields a common point in the paper's own terms.
#[test]
fn showings_yield_common_points() {
    let mut kinds = [0; 3];
    for (class, m) in sample(600) {
        let Verdict::Contact { first, showing, .. } = verdict(&m) else {
            continue;
        };
        let a = moved(&m.a, m.velocity_a, first);
        let b = moved(&m.b, m.velocity_b, first);
        let (on_a, on_b) = match showing {
            Showing::CornerOfA(i) => {
                let on_b = weights_of(&b, a[i]);
                let mut on_a = vec![0; a.len()];
                on_a[i] = on_b.iter().sum();
                kinds[0] += 1;
                (on_a, on_b)
            }
            Showing::CornerOfB(j) => {
                let on_a = weights_of(&a, b[j]);
                let mut on_b = vec![0; b.len()];
                on_b[j] = on_a.iter().sum();
                kinds[1] += 1;
                (on_a, on_b)
            }
            Showing::Edges(i, j) => {
                // With no corner inside the edges truly cross: each is
                // divided by the distances of its ends from the other.
                let (p, q) = (edge(&a, i), edge(&b, j));
                let off = |e: (Point, Point), r: Point| e.1.minus(e.0).cross(r.minus(e.0)).abs();
                let (mut on_a, mut on_b) = (vec![0; a.len()], vec![0; b.len()]);
                on_a[i] = off(q, p.1);
                on_a[(i + 1) % a.len()] = off(q, p.0);
                on_b[j] = off(p, q.1);
                on_b[(j + 1) % b.len()] = off(p, q.0);
                kinds[2] += 1;
                (on_a, on_b)
            }
        };
        let sum = |outline: &[Point], weights: &[i128]| {
            outline
                .iter()
                .zip(weights)
                .fold(point(0, 0), |all, (c, w)| all.plus(c.times(*w)))
        };
        assert!(on_a.iter().chain(&on_b).all(|weight| *weight >= 0));
        assert_eq!(on_a.iter().sum::<i128>(), on_b.iter().sum::<i128>());
        assert!(on_a.iter().sum::<i128>() > 0);
        assert_eq!(sum(&a, &on_a), sum(&b, &on_b), "{class:?} {m:?}");
    }
    assert!(kinds.iter().all(|count| *count > 0));
}
