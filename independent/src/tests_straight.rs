//! Tests of straight corners (request Q-8), run by `rustc --test`.

use super::checker::{directions, edge_named, is_sound, lie_on_one_line, point, verdict};
use super::checker::{Move, Point, Verdict};
use super::edition::{second, Second};
use super::frame::{self, read_move, write_answer, write_move};
use super::generate::{class_of_place, is_strict, line, sound_move, Class, Rng, STRAIGHT_CORNERS};
use super::runs::LOG_STRAIGHT_CORNERS;
use super::straight::{straight_corners, Drawn, Misdrawn};
use super::tests::{points, sample};
use super::tests_edges::fields;
use super::{count_log, count_moves, Table, OF_LOGS, STRAIGHT_CASES};

#[test]
fn what_the_request_says_in_passing() {
    let of = |list: &[(i128, i128)]| edge_named(&points(list));
    assert_eq!(of(&[(0, 0), (1, 0), (2, 0), (0, 2)]), None);
    // All on one line, in order and not, gone back over, and at one place.
    assert_eq!(of(&[(0, 0), (1, 0), (2, 0)]), Some(0));
    assert_eq!(of(&[(4, 2), (0, 0), (2, 1), (6, 3)]), Some(0));
    assert_eq!(of(&[(0, 0), (2, 0), (0, 0), (2, 0)]), Some(0));
    assert_eq!(of(&[(7, 7), (7, 7), (7, 7), (7, 7)]), Some(0));
    // All but one at one place are on one line.
    assert_eq!(of(&[(7, 7), (7, 7), (7, 7), (8, 7)]), Some(0));
    // Out of order along an edge, begun at each corner: one edge goes back.
    let mut corners = points(&[(0, 0), (2, 0), (1, 0), (3, 0), (0, 3)]);
    for back in [1, 0, 4, 3, 2] {
        assert_eq!(edge_named(&corners), Some(back));
        corners.rotate_left(1);
    }
    // A square and a triangle gone round twice, where no corner is to the right
    // of an edge; and twice by other corners.
    let square = points(&[(0, 0), (2, 0), (2, 2), (0, 2)]);
    assert_eq!(edge_named(&[&square[..], &square[..]].concat()), Some(0));
    let again = points(&[(1, 0), (2, 1), (1, 2), (0, 1)]);
    assert_eq!(edge_named(&[&square[..], &again[..]].concat()), Some(3));
    // The lowest of two faults, of either kind.
    assert_eq!(of(&[(0, 0), (4, 0), (4, 4), (4, 4), (3, 1)]), Some(2));
    assert_eq!(of(&[(0, 0), (4, 0), (1, 1), (0, 4), (0, 4)]), Some(1));
}

// ---------------------------------------------------------------------------
// Every list of three to five corners of a small grid

fn each_small_outline(mut to: impl FnMut(&[Point])) {
    let grid: Vec<Point> = (0..16).map(|i| point(i % 4, i / 4)).collect();
    for count in 3..=5 {
        for number in 0..16usize.pow(count as u32) {
            let corner = |k: usize| grid[number >> (4 * k) & 15];
            to(&(0..count).map(corner).collect::<Vec<Point>>());
        }
    }
}

/// Twice the area of the triangle of three points, above zero if they go round
/// counterclockwise.
fn area(p: Point, q: Point, r: Point) -> i128 {
    (p.x * q.y - q.x * p.y) + (q.x * r.y - r.x * q.y) + (r.x * p.y - p.x * r.y)
}

/// The rim of the hull of some points: the ends of its edges, counterclockwise
/// and without straight ones, by Andrew's two chains from left to right and back.
fn hull(corners: &[Point]) -> Vec<Point> {
    let mut sorted = corners.to_vec();
    sorted.sort_by_key(|p| (p.x, p.y));
    sorted.dedup();
    let chain = |points: &mut dyn Iterator<Item = Point>| {
        let mut kept: Vec<Point> = Vec::new();
        for p in points {
            while kept.len() >= 2 && area(kept[kept.len() - 2], kept[kept.len() - 1], p) <= 0 {
                kept.pop();
            }
            kept.push(p);
        }
        kept.pop();
        kept
    };
    let mut rim = chain(&mut sorted.iter().copied());
    rim.extend(chain(&mut sorted.iter().rev().copied()));
    rim
}

/// Once round the rim of the hull by all of the points that lie on it, each once.
fn walk_round(corners: &[Point]) -> Vec<Point> {
    let rim = hull(corners);
    let mut walk: Vec<Point> = Vec::new();
    for (i, start) in rim.iter().enumerate() {
        let stop = rim[(i + 1) % rim.len()];
        let far = |p: &Point| (p.x - start.x).abs() + (p.y - start.y).abs();
        let is_on = |p: &Point| {
            area(*start, stop, *p) == 0
                && far(p) <= far(&stop)
                && (stop.x - start.x) * (p.x - start.x) >= 0
                && (stop.y - start.y) * (p.y - start.y) >= 0
                && *p != stop
        };
        let mut on_edge: Vec<Point> = corners.iter().copied().filter(is_on).collect();
        on_edge.sort_by_key(far);
        on_edge.dedup();
        walk.extend(on_edge);
    }
    walk
}

/// A convex polygon passed once, counterclockwise: begun anywhere, the corners
/// are the walk round their hull, which has an inside.
fn goes_round_once(corners: &[Point]) -> bool {
    let walk = walk_round(corners);
    let is_walk = |turn: usize| [&corners[turn..], &corners[..turn]].concat() == walk;
    hull(corners).len() >= 3 && (0..corners.len()).any(is_walk)
}

#[test]
fn sound_is_a_convex_polygon_passed_once() {
    let (mut strict, mut straight) = (0, 0);
    each_small_outline(|corners| {
        let sound = is_sound(corners);
        assert_eq!(sound, goes_round_once(corners), "{corners:?}");
        // What was sound is sound.
        assert!(sound || !is_strict(corners), "{corners:?}");
        match is_strict(corners) {
            true => strict += 1,
            false => straight += u32::from(sound),
        }
        // Soundness does not depend on where the outline is begun.
        let mut turned = corners.to_vec();
        turned.rotate_left(1);
        assert_eq!(is_sound(&turned), sound);
    });
    assert!(strict > 1000 && straight > 1000, "{strict} {straight}");
}

/// Whether no three of the corners make a triangle.
fn no_three_turn(corners: &[Point]) -> bool {
    let at = |k: usize| corners[k];
    let mut all = (0..corners.len()).flat_map(|i| (0..i).map(move |j| (i, j)));
    all.all(|(i, j)| (0..j).all(|k| area(at(i), at(j), at(k)) == 0))
}

/// The request's words: a corner to the right of the edge makes a clockwise
/// triangle with it.
fn is_wrong(corners: &[Point], i: usize) -> bool {
    let (start, stop) = (corners[i], corners[(i + 1) % corners.len()]);
    let others = [&corners[..i], &corners[i + 1..]].concat();
    others.contains(&start) || corners.iter().any(|c| area(start, stop, *c) < 0)
}

#[test]
fn the_edge_named_is_the_lowest_wrong_one() {
    let mut named = [[0; 5]; 6];
    each_small_outline(|corners| {
        let (count, edge) = (corners.len(), edge_named(corners));
        assert_eq!(lie_on_one_line(corners), no_three_turn(corners));
        assert_eq!(edge.is_none(), is_sound(corners), "{corners:?}");
        match edge {
            None => assert!((0..count).all(|i| !is_wrong(corners, i))),
            Some(edge) if no_three_turn(corners) => assert_eq!(edge, 0),
            Some(edge) => {
                assert!(is_wrong(corners, edge), "{corners:?}");
                assert!((0..edge).all(|i| !is_wrong(corners, i)));
                named[count][edge] += 1;
            }
        }
    });
    // With five corners two can be out of order along an edge, and then the last
    // edge may be the only one that is wrong.
    let met = |count: usize, edge: usize| named[count][edge] > 0;
    assert!((0..5).all(|edge| met(3, edge) == (edge == 0)));
    assert!((0..5).all(|edge| met(4, edge) == (edge <= 2)));
    assert!((0..5).all(|edge| met(5, edge)));
}

// ---------------------------------------------------------------------------
// Verdicts

/// Without its straight corners.
fn bare(corners: &[Point]) -> Vec<Point> {
    let straight = straight_corners(corners);
    let kept = (0..corners.len()).filter(|i| !straight.contains(i));
    kept.map(|i| corners[i]).collect()
}

/// The same outline, begun at a corner that is not straight.
fn begun_bare(corners: &[Point]) -> Vec<Point> {
    let straight = straight_corners(corners);
    let first = (0..corners.len()).find(|i| !straight.contains(i)).unwrap();
    [&corners[first..], &corners[..first]].concat()
}

/// Straight corners change neither the kind of the verdict nor its times; begun
/// at corners that are not straight, the sides named lie the same way, too.
#[test]
fn straight_corners_change_no_verdict() {
    let mut counts = [0; 3];
    let same_way = |p: Point, q: Point| p.cross(q) == 0 && p.dot(q) > 0;
    for (class, m) in sample(800) {
        if !matches!(class, Class::Drawn(_)) {
            continue;
        }
        let begun = Move {
            a: begun_bare(&m.a),
            b: begun_bare(&m.b),
            ..m
        };
        let without = Move {
            a: bare(&m.a),
            b: bare(&m.b),
            ..m
        };
        assert!(is_strict(&without.a) && is_strict(&without.b));
        let way = |side: usize, other: usize| {
            same_way(directions(&begun)[side], directions(&without)[other])
        };
        match (verdict(&m), verdict(&begun), verdict(&without)) {
            (Verdict::ClearByOne(_), Verdict::ClearByOne(k), Verdict::ClearByOne(other)) => {
                assert!(way(k, other), "{m:?}");
                counts[0] += 1;
            }
            (
                Verdict::ClearByTwo(_, _),
                Verdict::ClearByTwo(i, j),
                Verdict::ClearByTwo(other_i, other_j),
            ) => {
                assert!(way(i, other_i) && way(j, other_j), "{m:?}");
                counts[1] += 1;
            }
            (
                Verdict::Contact { first, last, .. },
                Verdict::Contact {
                    first: first_begun,
                    last: last_begun,
                    bearing: side,
                    ..
                },
                Verdict::Contact {
                    first: other_first,
                    last: other_last,
                    bearing: other,
                    ..
                },
            ) => {
                assert_eq!((first, last), (other_first, other_last), "{m:?}");
                assert_eq!((first_begun, last_begun), (first, last), "{m:?}");
                match (side, other) {
                    (Some(side), Some(other)) => assert!(way(side, other), "{m:?}"),
                    _ => assert_eq!(side, other, "{m:?}"),
                }
                counts[2] += 1;
            }
            other => panic!("{m:?}: {other:?}"),
        }
        match (second(&m), second(&without)) {
            (Second::ClearByOne(_), Second::ClearByOne(_)) => {}
            (Second::ClearByTwo(_, _), Second::ClearByTwo(_, _)) => {}
            (contact, other) => assert_eq!(contact, other, "{m:?}"),
        }
    }
    assert!(counts.iter().all(|count| *count > 50), "{counts:?}");
}

// ---------------------------------------------------------------------------
// The generator

/// How many straight corners each edge has that lies between two others.
fn on_each_edge(corners: &[Point]) -> Vec<usize> {
    let corners = begun_bare(corners);
    let straight = straight_corners(&corners);
    let mut counts = Vec::new();
    for i in 0..corners.len() {
        match straight.contains(&i) {
            true => *counts.last_mut().unwrap() += 1,
            false => counts.push(0),
        }
    }
    counts
}

fn is_drawn_as(class: Drawn, corners: &[Point]) -> bool {
    let counts = on_each_edge(corners);
    match class {
        Drawn::OneEdge => counts.iter().filter(|n| **n > 0).count() == 1,
        Drawn::AllEdges => counts.iter().all(|n| *n > 0),
        Drawn::Sixteen => counts.len() == 3 && corners.len() == 16,
        Drawn::Both => corners.len() > counts.len(),
    }
}

fn differ(corners: &[Point]) -> bool {
    (0..corners.len()).all(|i| !corners[..i].contains(&corners[i]))
}

#[test]
fn the_generator_gives_what_it_says() {
    for place in 0..30_000 {
        let class = class_of_place(STRAIGHT_CORNERS, place);
        let made = line(5, place, class);
        assert_eq!(made, line(5, place, class));
        let m = fields(&made).expect("all but the outlines is well");
        assert_eq!(write_move(&m), made);
        let both = [&m.a, &m.b];
        let not_sound: Vec<_> = both.iter().filter(|o| !is_sound(o)).collect();
        match class {
            Class::Drawn(drawn) => {
                assert_eq!(read_move(&made), Ok(m.clone()));
                assert!(both.iter().any(|o| is_drawn_as(drawn, o)), "{class:?}");
            }
            Class::Misdrawn(Misdrawn::HairOff) => assert!(not_sound.len() <= 1),
            Class::Misdrawn(class) => {
                assert_eq!(not_sound.len(), 1, "{class:?} {m:?}");
                let corners = not_sound[0];
                let on_line = lie_on_one_line(corners);
                let is_so = match class {
                    Misdrawn::OutOfOrder | Misdrawn::BackTracking => differ(corners),
                    Misdrawn::Adjacent | Misdrawn::Apart => !differ(corners),
                    Misdrawn::OneLine => on_line,
                    Misdrawn::AllEqual => corners.iter().all(|c| *c == corners[0]),
                    Misdrawn::Clockwise => {
                        is_sound(&corners.iter().rev().copied().collect::<Vec<_>>())
                    }
                    _ => true,
                };
                assert!(is_so, "{class:?} {corners:?}");
                let written = write_answer(&frame::answer(&made));
                assert!(written.starts_with(b"81ff0") && written.len() == 8);
            }
            _ => panic!("{class:?} is not of this set"),
        }
    }
}

fn assert_all_met(table: &Table, cases: &[&str], least: u64) {
    for (column, case) in cases.iter().enumerate() {
        let met: u64 = table.rows.iter().map(|row| row.2[column]).sum();
        assert!(met >= least || *case == "r10-half", "{case} {met}");
    }
    assert!(table.named.iter().all(|times| *times >= least));
}

#[test]
fn the_generator_meets_every_case() {
    let table = count_moves(5, 32_000, STRAIGHT_CORNERS);
    assert_all_met(&table, &STRAIGHT_CASES[OF_LOGS..], 80);
    let (table, _) = count_log(5, 30_000, LOG_STRAIGHT_CORNERS);
    assert_all_met(&table, &STRAIGHT_CASES, 80);
}

/// Corners against a straight corner at the first contact, at zero and later.
#[test]
fn corners_meet_straight_corners() {
    let mut met = [0; 2];
    for place in 0..2000 {
        for class in [Drawn::OneEdge, Drawn::AllEdges, Drawn::Sixteen, Drawn::Both] {
            let m = sound_move(&mut Rng::for_line(3, place), Class::Drawn(class));
            let Verdict::Contact { first, .. } = verdict(&m) else {
                continue;
            };
            let at = |corner: Point, v: Point| corner.times(first.d).plus(v.times(first.n));
            let on_a = straight_corners(&m.a);
            let meets = |i: &usize| {
                let corner = at(m.a[*i], m.velocity_a);
                m.b.iter().any(|other| at(*other, m.velocity_b) == corner)
            };
            met[usize::from(first.n > 0)] += u32::from(on_a.iter().any(meets));
        }
    }
    assert!(met.iter().all(|times| *times > 200), "{met:?}");
}
