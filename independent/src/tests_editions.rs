//! Tests of the two editions (request Q-6) and of the number of sides worked
//! (request Q-7), run by `rustc --test`.

use super::checker::*;
use super::edition::{self, answer, numbers, second, span, worked, Answer, Said, Second};
use super::frame::{read_move, write_move, Refusal};
use super::generate::{class_of_place, line, Class, RAILS, STOPS};
use super::rails::Class as Rail;
use super::tests::{beside, paper_cases, sample};
use super::{edition_cases, of_edition, stop_cases, EDITION_CASES, STOP_CASES};

fn contact(first: (i128, i128), last: (i128, i128)) -> Second {
    Second::Contact {
        first: Fraction::new(first.0, first.1),
        last: Fraction::new(last.0, last.1),
    }
}

/// P1 to P11 in edition 2. The request says it of P2 and P8.
fn paper_answers() -> [Second; 11] {
    [
        contact((3, 1), (7, 1)),
        Second::ClearByOne(1),
        Second::ClearByOne(1),
        Second::ClearByOne(1),
        contact((3, 2), (7, 2)),
        Second::ClearByTwo(1, 0),
        contact((3, 1), (6, 1)),
        contact((3, 1), (7, 1)),
        Second::ClearByOne(1),
        contact((0, 1), (10, 1)),
        contact((0, 1), (0, 1)),
    ]
}

#[test]
fn paper_cases_in_edition_2() {
    for (place, ((m, _), expected)) in paper_cases().iter().zip(paper_answers()).enumerate() {
        assert_eq!(second(m), expected, "P{}", place + 1);
        let said = |edition: u64| answer(edition, Ok(m)).map(|a| a.said);
        assert_eq!(said(1), Ok(Said::OfFirst(verdict(m))));
        assert_eq!(said(2), Ok(Said::OfSecond(expected)));
    }
}

#[test]
fn other_editions_are_refused_before_all_else() {
    let (m, _) = &paper_cases()[0];
    for refusal in [Refusal::Count, Refusal::Limit, Refusal::First(3)] {
        for edition in [1, 2] {
            assert_eq!(answer(edition, Err(refusal)), Err(refusal));
        }
        for edition in [0, 3, 257, 258, (1 << 32) + 1, (1 << 32) + 2, u64::MAX] {
            assert_eq!(answer(edition, Err(refusal)), Err(Refusal::Edition));
            assert_eq!(answer(edition, Ok(m)), Err(Refusal::Edition));
            assert_eq!(numbers(&answer(edition, Ok(m))), [0; 12]);
        }
    }
    assert_eq!(Refusal::Edition.number(), 11);
}

/// What the program prints of the paper's cases in an edition.
fn printed(edition: u64) -> Vec<String> {
    let lines = include_bytes!("../../examples/moves.txt");
    let mut output = Vec::new();
    of_edition(&lines[..], &mut output, edition).unwrap();
    let text = String::from_utf8(output).unwrap();
    text.lines().map(str::to_string).collect()
}

#[test]
fn numbers_of_the_paper_cases() {
    let first = printed(1);
    assert_eq!(first[1], "2 0 0 3 1 3 1 1 0 1 0 8");
    assert_eq!(first[5], "1 1 0 0 0 0 0 0 0 0 0 8");
    assert_eq!(first[9], "2 0 0 0 1 10 1 255 1 0 0 8");
    assert_eq!(first[10], "2 0 0 0 1 0 1 255 2 0 1 8");
    let second = printed(2);
    assert_eq!(second[1], "0 1 0 0 0 0 0 0 0 0 0 2");
    assert_eq!(second[4], "3 0 0 3 2 7 2 0 0 0 0 8");
    assert_eq!(second[5], "1 1 0 0 0 0 0 0 0 0 0 8");
    assert_eq!(second[7], "3 0 0 3 1 7 1 0 0 0 0 8");
    assert_eq!(
        (&first[11][..], &second[11][..]),
        ("refused: 8", "refused: 8")
    );
    assert!(printed(0).iter().all(|line| line == "refused: 11"));
}

/// The number of sides worked as the request says it by cases, and the spans
/// worked as it defines them: the first of all spans, and empty at most the
/// last.
#[test]
fn sides_worked_are_what_the_request_says() {
    for (class, m) in sample(400) {
        let every = m.a.len() + m.b.len();
        let first = match verdict(&m) {
            Verdict::ClearByOne(k) => k + 1,
            _ => every,
        };
        let second = match second(&m) {
            Second::ClearByOne(k) => k + 1,
            _ => every,
        };
        let all_first: Vec<_> = directions(&m)
            .into_iter()
            .map(|d| super::checker::span(&m, d))
            .collect();
        let lists = [
            (1, first, worked(&m, super::checker::span), all_first),
            (2, second, worked(&m, span), edition::spans(&m)),
        ];
        for (edition, expected, list, all) in lists {
            let Ok(Answer { worked, .. }) = answer(edition, Ok(&m)) else {
                panic!("{class:?} {m:?}: it is sound");
            };
            assert_eq!(worked, expected, "{class:?} {m:?}");
            assert!((1..=32).contains(&worked), "{class:?} {m:?}");
            assert_eq!(list, all[..worked], "{class:?} {m:?}");
            let (_, before) = list.split_last().unwrap();
            assert!(before.iter().all(|s| s.is_some()), "{class:?} {m:?}");
        }
    }
}

/// Each case of Q-7 comes up in its set.
#[test]
fn the_set_of_stops_meets_each_case() {
    let mut seen = [0; STOP_CASES.len()];
    for place in 0..2100 {
        let m = read_move(&line(5, place, class_of_place(STOPS, place))).expect("none is refused");
        let met = stop_cases(&m);
        for (case, count) in STOP_CASES.iter().zip(&mut seen) {
            *count += usize::from(met.contains(case));
        }
    }
    assert!(seen.iter().all(|count| *count >= 10), "{seen:?}");
}

/// How much the projections have in common at a time: above zero if more than
/// one value, zero if just one.
fn common(m: &Move, direction: Point, time: Fraction) -> i128 {
    let (low_a, high_a) = interval(&moved(&m.a, m.velocity_a, time), direction);
    let (low_b, high_b) = interval(&moved(&m.b, m.velocity_b, time), direction);
    high_a.min(high_b) - low_a.max(low_b)
}

#[test]
fn spans_are_what_the_request_says() {
    for (class, m) in sample(200) {
        for direction in directions(&m) {
            let shares = |time: Fraction| common(&m, direction, time) > 0;
            let span = span(&m, direction);
            let (start, stop) = (Fraction::whole(0), Fraction::whole(m.limit));
            if let Some(Span { begin, end }) = span {
                assert!(start <= begin && end <= stop);
                // A bound that is none of the move's ends is left out, and just
                // inside the bounds more than one value is shared.
                assert!(begin == start || !shares(begin), "{class:?} {m:?}");
                assert!(end == stop || !shares(end), "{class:?} {m:?}");
                let (after, before) = (beside(begin, 1), beside(end, -1));
                assert_eq!(begin < end, m.limit > 0);
                assert!(m.limit > 0 || shares(start));
                assert!(after >= end || shares(after), "{class:?} {m:?}");
                assert!(before <= begin || shares(before), "{class:?} {m:?}");
            }
            for step in 0..=16 {
                let time = Fraction::new(step * m.limit, 16);
                let expected = span.is_some_and(|s| {
                    let from = s.begin < time || (time == start && s.begin == start);
                    let to = time < s.end || (time == stop && s.end == stop);
                    from && to
                });
                // At an end of the move itself the bound may be left out too.
                let at_end = (time == start || time == stop) && common(&m, direction, time) == 0;
                assert_eq!(shares(time), expected && !at_end, "{class:?} {m:?}");
            }
        }
    }
}

/// Whether the interiors meet at a time, without projections. Where two edges
/// cross each other they do. Where none do, what the outlines have in common is
/// spanned by the corners of each that are inside or on the other, and has inner
/// points exactly if these are not all on one line.
fn interiors_meet(m: &Move, time: Fraction) -> bool {
    let a = moved(&m.a, m.velocity_a, time);
    let b = moved(&m.b, m.velocity_b, time);
    let side = |e: (Point, Point), r: Point| e.1.minus(e.0).cross(r.minus(e.0)).signum();
    let crosses = |p: (Point, Point), q: (Point, Point)| {
        side(p, q.0) * side(p, q.1) < 0 && side(q, p.0) * side(q, p.1) < 0
    };
    if (0..a.len()).any(|i| (0..b.len()).any(|j| crosses(edge(&a, i), edge(&b, j)))) {
        return true;
    }
    let of_a = a.iter().filter(|p| inside_or_on(&b, **p));
    let of_b = b.iter().filter(|p| inside_or_on(&a, **p));
    let common: Vec<Point> = of_a.chain(of_b).copied().collect();
    let Some(other) = common.iter().find(|p| **p != common[0]) else {
        return false;
    };
    common.iter().any(|p| side((common[0], *other), *p) != 0)
}

#[test]
fn interiors_meet_as_they_should() {
    let meet: Vec<bool> = paper_cases()[..11]
        .iter()
        .map(|(m, _)| interiors_meet(m, Fraction::whole(0)))
        .collect();
    // P10 lies within, P11 across; P9 touches along an edge.
    assert!(meet.iter().enumerate().all(|(i, meets)| *meets == (i >= 9)));
}

/// The verdict of edition 2 against interiors at single times.
#[test]
fn verdicts_agree_with_interiors_at_single_times() {
    let mut touched = 0;
    for (class, m) in sample(400) {
        let meets = |time: Fraction| interiors_meet(&m, time);
        let (start, stop) = (Fraction::whole(0), Fraction::whole(m.limit));
        let times = (0..=24).map(|step| Fraction::new(step * m.limit, 24));
        match second(&m) {
            Second::Contact { first, last } => {
                assert!(start <= first && last <= stop);
                assert!(first < last || (m.limit == 0 && meets(start)));
                assert!(first == start || !meets(first), "{class:?} {m:?}");
                assert!(last == stop || !meets(last), "{class:?} {m:?}");
                let (after, before) = (beside(first, 1), beside(last, -1));
                assert!(after >= last || meets(after), "{class:?} {m:?}");
                assert!(before <= first || meets(before), "{class:?} {m:?}");
                if first.d * last.d < 1_000_000 {
                    let sum = first.n * last.d + last.n * first.d;
                    let middle = Fraction::new(sum, 2 * first.d * last.d);
                    assert!(meets(middle), "{class:?} {m:?}");
                }
                for time in times {
                    let inside = first < time && time < last;
                    let outside = time < first || last < time;
                    assert!(!inside || meets(time), "{class:?} {m:?}");
                    assert!(!outside || !meets(time), "{class:?} {m:?}");
                }
            }
            Second::ClearByOne(side) => {
                let direction = directions(&m)[side];
                assert_eq!(span(&m, direction), None);
                for time in times {
                    assert!(!meets(time), "{class:?} {m:?}");
                    assert!(common(&m, direction, time) <= 0, "{class:?} {m:?}");
                }
            }
            Second::ClearByTwo(i, j) => {
                let all = directions(&m);
                let (late, soon) = (span(&m, all[i]).unwrap(), span(&m, all[j]).unwrap());
                assert!(late.begin >= soon.end && m.limit > 0);
                for time in times.chain([late.begin, soon.end]) {
                    assert!(!meets(time), "{class:?} {m:?}");
                    let parted = |side: usize| common(&m, all[side], time) <= 0;
                    assert!(parted(i) || parted(j), "{class:?} {m:?}");
                }
            }
        }
        // What edition 2 calls contact edition 1 does too, from no later to no
        // sooner; and where that is from just one time on it is a touch.
        match (verdict(&m), second(&m)) {
            (Verdict::Contact { first, last, .. }, Second::Contact { first: f, last: l }) => {
                assert!(first <= f && l <= last, "{class:?} {m:?}");
            }
            (Verdict::Contact { .. }, _) => touched += 1,
            (_, Second::Contact { .. }) => panic!("{class:?} {m:?}"),
            _ => {}
        }
    }
    assert!(touched > 1000);
}

/// The classes of Q-6 that are never off lie as they say.
#[test]
fn classes_lie_as_they_say() {
    for (class, m) in sample(500) {
        let Class::Rail(class) = class else {
            continue;
        };
        let met = edition_cases(&m);
        let is = |case: &str| met.contains(&case);
        match class {
            Rail::InnerRail => assert!(is("contact") && is("at-0"), "{m:?}"),
            Rail::Resting | Rail::ZeroTouching | Rail::Leaving => {
                assert!(is("1-contact") && is("by-one"), "{m:?}");
            }
            Rail::Past => assert!(!is("contact") && !is("by-two-above"), "{m:?}"),
            Rail::ZeroApart => assert!(is("by-one") && is("1-one"), "{m:?}"),
            _ => {}
        }
        assert!(m.limit > 0 || !(is("by-two-equal") || is("by-two-above")));
        assert_eq!(is("differ"), !is("same"));
    }
}

/// Each case of the request comes up in its set.
#[test]
fn the_set_meets_each_case() {
    let mut seen = [0; EDITION_CASES.len()];
    for place in 0..6000 {
        let made = line(5, place, class_of_place(RAILS, place));
        let m = read_move(&made).expect("no move of Q-6 is refused");
        assert_eq!(write_move(&m), made);
        let met = edition_cases(&m);
        for (case, count) in EDITION_CASES.iter().zip(&mut seen) {
            *count += usize::from(met.contains(case));
        }
    }
    assert!(seen.iter().all(|count| *count >= 50), "{seen:?}");
}

/// Squares of side 2 on a small grid, with small velocities and limits: the
/// verdict against the interiors at all times n/12.
#[test]
fn small_squares() {
    let square = |x: i128, y: i128| {
        [(0, 0), (2, 0), (2, 2), (0, 2)]
            .map(|(u, v)| point(x + u, y + v))
            .to_vec()
    };
    let small = || (-3..=3).flat_map(|x| (-3..=3).map(move |y| point(x, y)));
    let mut counts = [0; 3];
    for (at, velocity) in small().flat_map(|at| small().map(move |v| (at, v))) {
        for limit in 0..=3 {
            let m = Move {
                limit,
                velocity_a: point(0, 0),
                velocity_b: velocity,
                a: square(0, 0),
                b: square(at.x, at.y),
            };
            let mut times = (0..=12 * limit).map(|n| Fraction::new(n, 12));
            let meets = times.any(|time| interiors_meet(&m, time));
            let answer = edition::second(&m);
            let contact = matches!(answer, Second::Contact { .. });
            assert_eq!(meets, contact, "{m:?}");
            counts[match answer {
                Second::ClearByOne(_) => 0,
                Second::ClearByTwo(_, _) => 1,
                Second::Contact { .. } => 2,
            }] += 1;
        }
    }
    assert!(counts.iter().all(|count| *count > 0), "{counts:?}");
}
