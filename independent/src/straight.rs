//! Seeded moves of request Q-8: outlines with corners along their edges, in and
//! about contact, and outlines that are drawn like them and are not sound, with
//! corners out of order, gone back over, repeated, or all on one line.

use super::checker::{edge, edge_named, point, Move, Point};
use super::frame::REACH;
use super::generate::{
    any_limit, any_way, bounds, enlarged, farthest, full, gcd, mapped, outline, put_together,
    scattered, shifted, shortest, sound_move, turned_half, Class as MoveClass, Rng, Touch, STAR,
};
use super::rails::Way;

/// Sound outlines. Of the first three, one outline has straight corners, and now
/// and then the other.
#[derive(Clone, Copy, Debug, PartialEq, Eq)]
pub enum Drawn {
    /// Straight corners on one edge.
    OneEdge,
    /// At least one on each edge.
    AllEdges,
    /// Sixteen corners of a triangle.
    Sixteen,
    /// Anywhere on both outlines.
    Both,
}

/// An outline, A or B, that is not sound.
#[derive(Clone, Copy, Debug, PartialEq, Eq)]
pub enum Misdrawn {
    /// A straight corner a hair off its edge. Off to the outside it is sound.
    HairOff,
    /// Those along an edge, and perhaps its ends, in another order.
    OutOfOrder,
    /// From a corner straight to a place inside or outside and part of the way
    /// back.
    Spike,
    /// Back over an edge or two, by corners between the others.
    BackTracking,
    /// A corner twice or more in a row.
    Adjacent,
    /// A corner twice, others between.
    Apart,
    OneLine,
    AllEqual,
    /// Of any size, turned, shifted, begun anywhere, perhaps with corners along
    /// its edges.
    Star,
    /// By the same corners, or by others along the edges.
    TwiceRound,
    Clockwise,
    /// Two of the faults above.
    TwoFaults,
}

// ---------------------------------------------------------------------------
// Corners along edges

/// So many whole places strictly between two others, in order; now and then
/// those of `marks` that lie there. `None` if there are not so many.
fn places_between(
    rng: &mut Rng,
    (start, stop): (Point, Point),
    count: usize,
    marks: &[Point],
) -> Option<Vec<Point>> {
    let step = stop.minus(start);
    let (unit, last) = (shortest(step), gcd(step.x, step.y) - 1);
    if last < count as i128 {
        return None;
    }
    let place = |number: i128| start.plus(unit.times(number));
    let mut numbers: Vec<i128> = Vec::new();
    for mark in marks {
        let number = mark.minus(start).dot(unit) / unit.dot(unit);
        let is_there = (1..=last).contains(&number) && place(number) == *mark;
        if is_there && numbers.len() < count && !numbers.contains(&number) && !rng.one_in(4) {
            numbers.push(number);
        }
    }
    while numbers.len() < count {
        let number = rng.range(1, last);
        if !numbers.contains(&number) {
            numbers.push(number);
        }
    }
    numbers.sort();
    Some(numbers.into_iter().map(place).collect())
}

/// The outline with so many corners more on each of its edges.
fn drawn_along(
    rng: &mut Rng,
    outline: &[Point],
    more: &[usize],
    marks: &[Point],
) -> Option<Vec<Point>> {
    let mut corners = Vec::new();
    for (i, count) in more.iter().enumerate() {
        corners.push(outline[i]);
        corners.extend(places_between(rng, edge(outline, i), *count, marks)?);
    }
    Some(corners)
}

/// So many, each to any of these edges.
fn spread(rng: &mut Rng, edges: usize, count: usize) -> Vec<usize> {
    let mut more = vec![0; edges];
    for _ in 0..count {
        more[rng.index(edges)] += 1;
    }
    more
}

/// How many corners more each edge of an outline gets; `touched` is the edge
/// that touches.
fn wanted(rng: &mut Rng, class: Drawn, edges: usize, touched: usize) -> Vec<usize> {
    let room = 16 - edges;
    match class {
        Drawn::OneEdge => {
            let mut more = vec![0; edges];
            let on = if rng.one_in(3) {
                rng.index(edges)
            } else {
                touched
            };
            more[on] = rng.size(1, room as i128) as usize;
            more
        }
        Drawn::AllEdges if edges <= 8 => {
            let count = rng.range(0, (room - edges) as i128) as usize;
            let more = spread(rng, edges, count);
            more.iter().map(|n| n + 1).collect()
        }
        Drawn::Sixteen if rng.one_in(4) => {
            let mut more = vec![0; edges];
            more[touched] = room;
            more
        }
        Drawn::Sixteen => spread(rng, edges, room),
        _ => {
            let count = rng.size(1, room as i128) as usize;
            spread(rng, edges, count)
        }
    }
}

// ---------------------------------------------------------------------------
// Sound moves

/// Two strict outlines of few corners, A of so many, with whole places on their
/// edges. They touch at a whole place of an edge of A, which is handed on, too.
fn in_touch(rng: &mut Rng, count: usize) -> (Touch, usize) {
    let times = rng.range(2, 18);
    let size = rng.size(2, (7000 / times).max(3));
    let shape = outline(rng, count, size);
    let a = enlarged(&shape, times);
    let b = match rng.index(3) {
        0 => turned_half(&a),
        1 => turned_half(&enlarged(&shape, rng.range(1, times))),
        _ => {
            let few = rng.range(3, 7) as usize;
            enlarged(&outline(rng, few, size), rng.range(1, times))
        }
    };
    let i = rng.index(count);
    let (start, stop) = edge(&a, i);
    let step = stop.minus(start);
    let across = point(step.y, -step.x);
    let spot = start.plus(shortest(step).times(rng.range(0, gcd(step.x, step.y))));
    let nearest = farthest(rng, &b, across.times(-1));
    let b = shifted(&b, spot.minus(nearest));
    (Touch { a, b, across }, i)
}

/// An edge that is farthest in a direction, if there is one, or any that ends
/// at a corner which is.
fn edge_towards(outline: &[Point], direction: Point) -> usize {
    let reach = |i: &usize| {
        let (start, stop) = edge(outline, *i);
        direction.dot(start) + direction.dot(stop)
    };
    (0..outline.len()).max_by_key(reach).unwrap()
}

/// Begun at any corner.
fn begun_anywhere(rng: &mut Rng, outline: &[Point]) -> Vec<Point> {
    let mut corners = outline.to_vec();
    corners.rotate_left(rng.index(outline.len()));
    corners
}

/// B where it passes A on some way, corner by corner: they just meet, or miss one
/// another by a hair, as two sides show.
fn passing(rng: &mut Rng, a: &[Point], b: &[Point]) -> (Vec<Point>, Way) {
    let to = shortest(rng.nonzero_within(12));
    let out = point(-to.y, to.x).times(rng.pick(&[-1, 1]));
    let (on_a, on_b) = (farthest(rng, a, out), farthest(rng, b, out.times(-1)));
    let hair = rng.within(2);
    let hair = hair.times(if hair.dot(out) < 0 { -1 } else { 1 });
    let b = shifted(b, on_a.minus(on_b).plus(hair));
    let way = Way::any(rng, to);
    (way.before(&b), way)
}

/// One try at two outlines of a class in touch, each begun at any corner.
fn drawn_in_touch(rng: &mut Rng, class: Drawn) -> Option<Touch> {
    let count = match class {
        Drawn::Sixteen => 3,
        _ => rng.range(3, 7) as usize,
    };
    let (Touch { a, b, across }, i) = in_touch(rng, count);
    let more = wanted(rng, class, count, i);
    let a = drawn_along(rng, &a, &more, &b)?;
    let b = match class == Drawn::Both || rng.one_in(6) {
        true => {
            let touched = edge_towards(&b, across.times(-1));
            let class = rng.pick(&[Drawn::OneEdge, Drawn::AllEdges, Drawn::Both]);
            let more = wanted(rng, class, b.len(), touched);
            drawn_along(rng, &b, &more, &a)?
        }
        false => b,
    };
    Some(Touch {
        a: begun_anywhere(rng, &a),
        b: begun_anywhere(rng, &b),
        across,
    })
}

/// One try at a move of a class: in touch as laid out at zero or later, sliding
/// along the edge that touches, passing, or moving any way.
pub fn attempt(rng: &mut Rng, class: Drawn) -> Option<Move> {
    let Touch { a, b, across } = drawn_in_touch(rng, class)?;
    if rng.one_in(12) {
        let mut m = full(rng)?;
        (m.a, m.b) = (scattered(rng, &a), scattered(rng, &b));
        return Some(m);
    }
    let along = shortest(point(-across.y, across.x));
    let (b, w, limit) = match rng.index(7) {
        0 => (b, point(0, 0), any_limit(rng)),
        // Along the edge, so that a corner of B comes by the places on it.
        1 | 2 => {
            let to = along.times(rng.pick(&[-1, 1]));
            let way = Way::any(rng, to);
            (way.before(&b), way.velocity(), way.limit(rng))
        }
        // To the touch from outside, or away from it.
        3 | 4 => {
            let to = rng.nonzero_within(12);
            let inwards = if to.dot(across) > 0 { -1 } else { 1 };
            let to = to.times(inwards * rng.pick(&[1, 1, 1, -1]));
            let way = Way::any(rng, to);
            (way.before(&b), way.velocity(), way.limit(rng))
        }
        5 => {
            let (b, way) = passing(rng, &a, &b);
            (b, way.velocity(), way.limit(rng))
        }
        _ => (b, any_way(rng), any_limit(rng)),
    };
    let hair = if rng.one_in(8) {
        rng.nonzero_within(1)
    } else {
        point(0, 0)
    };
    put_together(rng, &a, &shifted(&b, hair), w, limit)
}

// ---------------------------------------------------------------------------
// Outlines that are not sound

/// A strict outline of few corners with whole places on its edges, and the same
/// with corners along them.
fn drawn(rng: &mut Rng, most: usize) -> Option<(Vec<Point>, Vec<Point>)> {
    let count = rng.range(3, most as i128) as usize;
    let times = rng.range(2, 12);
    let size = rng.size(2, 18_000 / times);
    let strict = enlarged(&outline(rng, count, size), times);
    let class = rng.pick(&[Drawn::OneEdge, Drawn::AllEdges, Drawn::Both]);
    let touched = rng.index(count);
    let more = wanted(rng, class, count, touched);
    let straight = drawn_along(rng, &strict, &more, &[])?;
    Some((strict, straight))
}

/// The one or the other.
fn either(rng: &mut Rng, most: usize) -> Option<Vec<Point>> {
    let (strict, straight) = drawn(rng, most)?;
    Some(if rng.one_in(2) { strict } else { straight })
}

/// The places of the straight corners.
pub fn straight_corners(outline: &[Point]) -> Vec<usize> {
    let count = outline.len();
    let is_straight = |i: &usize| {
        let (before, at) = edge(outline, (i + count - 1) % count);
        let (_, after) = edge(outline, *i);
        at.minus(before).cross(after.minus(at)) == 0
    };
    (0..count).filter(is_straight).collect()
}

fn shuffled(rng: &mut Rng, corners: &mut [Point]) {
    for i in (1..corners.len()).rev() {
        corners.swap(i, rng.index(i + 1));
    }
}

fn hair_off(rng: &mut Rng) -> Option<Vec<Point>> {
    let (_, mut corners) = drawn(rng, 7)?;
    let i = rng.pick(&straight_corners(&corners));
    corners[i] = corners[i].plus(rng.nonzero_within(1));
    Some(corners)
}

fn out_of_order(rng: &mut Rng) -> Option<Vec<Point>> {
    let (strict, _) = drawn(rng, 8)?;
    let room = 16 - strict.len();
    let count = rng.size(2, room as i128) as usize;
    let mut run = places_between(rng, edge(&strict, 0), count, &[])?;
    let mut rest = strict[1..].to_vec();
    if rng.one_in(2) {
        let left = room - count;
        let more = spread(rng, strict.len(), left);
        let kept: Vec<usize> = [&[0], &more[1..]].concat();
        rest = drawn_along(rng, &strict, &kept, &[])?[1..].to_vec();
    }
    match rng.index(4) {
        // Two of them change places.
        0 | 1 => {
            let i = rng.index(count - 1);
            run.swap(i, i + 1);
        }
        2 => shuffled(rng, &mut run),
        // With the start of the edge, and its stop, too.
        _ => {
            run.insert(0, strict[0]);
            run.push(rest.remove(0));
            shuffled(rng, &mut run);
            return Some([run, rest].concat());
        }
    }
    Some([vec![strict[0]], run, rest].concat())
}

fn spike(rng: &mut Rng) -> Option<Vec<Point>> {
    let mut corners = either(rng, 7)?;
    if corners.len() > 14 {
        return None;
    }
    let i = rng.index(corners.len());
    let way = match rng.index(3) {
        // Along the edge and past its end.
        0 => {
            let (start, stop) = edge(&corners, i);
            stop.minus(start)
        }
        1 => rng.pick(&corners).minus(corners[i]),
        _ => rng.within(300),
    };
    if way == point(0, 0) {
        return None;
    }
    let (unit, steps) = (shortest(way), gcd(way.x, way.y));
    let unit = unit.times(rng.pick(&[1, 1, -1]));
    let out = rng.range(2, 2 * steps.max(2));
    let back = rng.range(1, out - 1);
    for number in [back, out] {
        corners.insert(i + 1, corners[i].plus(unit.times(number)));
    }
    Some(corners)
}

fn back_tracking(rng: &mut Rng) -> Option<Vec<Point>> {
    let corners = either(rng, 7)?;
    let edges = rng.range(1, 2) as usize;
    if corners.len() + edges > 16 {
        return None;
    }
    let mut corners = begun_anywhere(rng, &corners);
    for k in 0..edges {
        let back = places_between(rng, edge(&corners, edges - 1 - k), 1, &[])?;
        corners.insert(edges + k + 1, back[0]);
    }
    Some(corners)
}

fn adjacent(rng: &mut Rng, mut corners: Vec<Point>) -> Vec<Point> {
    let i = rng.index(corners.len());
    if rng.one_in(3) {
        let next = (i + 1) % corners.len();
        corners[next] = corners[i];
        return corners;
    }
    let times = rng.pick(&[1, 1, 1, 2, 3]);
    (0..times).for_each(|_| corners.insert(i, corners[i]));
    corners
}

fn apart(rng: &mut Rng, corners: &[Point]) -> Option<Vec<Point>> {
    let count = corners.len();
    if count < 4 {
        return None;
    }
    let mut corners = begun_anywhere(rng, corners);
    // A copy of corner 0 that is next to it on neither side.
    let at = rng.range(2, count as i128 - 2) as usize;
    match rng.one_in(2) {
        true => corners[at] = corners[0],
        false => corners.insert(at, corners[0]),
    }
    Some(corners)
}

fn one_line(rng: &mut Rng) -> Vec<Point> {
    let reach = rng.size(1, 400);
    let unit = match rng.index(3) {
        0 => rng.pick(&[point(1, 0), point(0, 1), point(1, 1), point(-1, 1)]),
        _ => shortest(rng.nonzero_within(reach)),
    };
    let count = rng.range(3, 16);
    let most = 2 * REACH / unit.x.abs().max(unit.y.abs());
    let most = rng.size(count, most.max(count));
    let mut numbers: Vec<i128> = Vec::new();
    let repeats = rng.one_in(3);
    while numbers.len() < count as usize {
        let number = rng.range(0, most);
        if repeats || !numbers.contains(&number) {
            numbers.push(number);
        }
    }
    match rng.index(3) {
        0 => {}
        1 => numbers.sort(),
        // There and back.
        _ => {
            numbers.sort();
            let (there, back): (Vec<_>, Vec<_>) =
                numbers.iter().partition(|number| **number % 2 == 0);
            numbers = there.into_iter().chain(back.into_iter().rev()).collect();
        }
    }
    numbers.iter().map(|n| unit.times(*n)).collect()
}

fn star(rng: &mut Rng) -> Option<Vec<Point>> {
    let turns: [(i128, i128); 7] = [(1, 0), (0, 1), (-1, 0), (0, -1), (3, 4), (-5, 12), (1, 2)];
    let (x, y) = rng.pick(&turns);
    let times = rng.size(1, 900 / (x.abs() + y.abs()));
    let corners = mapped(&STAR, point(x, y).times(times), point(-y, x).times(times));
    if rng.one_in(2) {
        return Some(corners);
    }
    let count = rng.size(1, 11) as usize;
    let more = spread(rng, 5, count);
    drawn_along(rng, &corners, &more, &[])
}

fn twice_round(rng: &mut Rng) -> Option<Vec<Point>> {
    let (strict, straight) = drawn(rng, 8)?;
    let count = strict.len();
    let every_second = |corners: &[Point]| {
        let count = corners.len();
        (0..count).map(|k| corners[2 * k % count]).collect()
    };
    match rng.index(4) {
        0 => Some([&strict[..], &strict[..]].concat()),
        // Round the corners, and then by one place on each edge.
        1 => {
            let more = vec![1; count];
            let all = drawn_along(rng, &strict, &more, &[])?;
            let (round, again): (Vec<_>, Vec<_>) =
                all.into_iter().enumerate().partition(|(k, _)| k % 2 == 0);
            Some(round.into_iter().chain(again).map(|(_, c)| c).collect())
        }
        // Every second corner of an odd number.
        2 if straight.len() % 2 == 1 => Some(every_second(&straight)),
        // The straight corners, twice.
        _ if straight.len() <= 8 => Some([&straight[..], &straight[..]].concat()),
        _ => None,
    }
}

fn two_faults(rng: &mut Rng) -> Option<Vec<Point>> {
    let (_, mut corners) = drawn(rng, 7)?;
    for _ in 0..2 {
        corners = match rng.index(3) {
            0 => adjacent(rng, corners),
            1 => apart(rng, &corners)?,
            _ => {
                let (i, k) = (rng.index(corners.len()), rng.index(corners.len()));
                corners.swap(i, k);
                corners
            }
        };
    }
    Some(corners)
}

/// The corners begun anywhere, or where the edge named is highest.
fn begun_late(rng: &mut Rng, corners: &[Point]) -> Vec<Point> {
    let begun_at = |turn: usize| [&corners[turn..], &corners[..turn]].concat();
    match rng.one_in(2) {
        true => begun_anywhere(rng, corners),
        false => {
            let named = |turn: &usize| edge_named(&begun_at(*turn));
            begun_at((0..corners.len()).max_by_key(named).unwrap())
        }
    }
}

/// One try at an outline of a class.
fn try_misdrawn(rng: &mut Rng, class: Misdrawn) -> Option<Vec<Point>> {
    let corners = match class {
        Misdrawn::HairOff => hair_off(rng)?,
        Misdrawn::OutOfOrder => out_of_order(rng)?,
        Misdrawn::Spike => spike(rng)?,
        Misdrawn::BackTracking => back_tracking(rng)?,
        Misdrawn::Adjacent => {
            let corners = either(rng, 12)?;
            adjacent(rng, corners)
        }
        Misdrawn::Apart => {
            let corners = either(rng, 12)?;
            apart(rng, &corners)?
        }
        Misdrawn::Clockwise => drawn(rng, 12)?.1.into_iter().rev().collect(),
        Misdrawn::OneLine => one_line(rng),
        Misdrawn::AllEqual => vec![point(0, 0); rng.range(3, 16) as usize],
        Misdrawn::Star => star(rng)?,
        Misdrawn::TwiceRound => twice_round(rng)?,
        Misdrawn::TwoFaults => two_faults(rng)?,
    };
    let (low, high) = bounds(&corners);
    let fits = high.x - low.x <= 2 * REACH && high.y - low.y <= 2 * REACH;
    if !fits || corners.len() > 16 {
        return None;
    }
    if class != Misdrawn::HairOff && edge_named(&corners).is_none() {
        return None;
    }
    let corners = begun_late(rng, &corners);
    Some(scattered(rng, &corners))
}

/// A move with an outline of a class beside one that is sound.
pub fn misdrawn(rng: &mut Rng, class: Misdrawn) -> Move {
    let beside = rng.pick(&[
        MoveClass::Touching,
        MoveClass::Full,
        MoveClass::Drawn(Drawn::Both),
    ]);
    let mut m = sound_move(rng, beside);
    let corners = loop {
        if let Some(corners) = try_misdrawn(rng, class) {
            break corners;
        }
    };
    match rng.one_in(2) {
        true => m.a = corners,
        false => m.b = corners,
    }
    m
}
