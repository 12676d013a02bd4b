//! Seeded move lines of many classes, each aimed at a different difficulty.
//!
//! A line depends on the seed, its place and its class and on nothing else,
//! so a line that shows a difference can always be made again. The classes
//! come in sets, one for document 01 and one for each request after it; a set
//! stays as it is, so that its lines and answers can be compared for good.

use super::checker::{edge, inside_or_on, interval, point, Move, Point};
use super::frame::{write_move, MOST_DIGITS, REACH};
use super::rails;
use super::stops;
use super::straight;

#[derive(Clone, Copy, Debug, PartialEq, Eq)]
pub enum Class {
    /// In touch, not overlapping, at time zero.
    Touching,
    /// B moves along the line of an edge of A.
    Sliding,
    /// One outline lies in the other.
    Contained,
    /// A cross-shaped overlap, mostly with no corner inside at time zero.
    Crossing,
    /// Triangles and quadrilaterals of almost no area.
    Needle,
    /// Numbers over their full range, up to 16 corners.
    Full,
    /// The limit is the first contact, or contact lasts one instant.
    Instant,
    /// Equal velocities, so that nothing changes with time.
    Still,
    /// Outlines that are not sound.
    Unsound,
    /// Lines that are not a move, or have a field out of its range.
    Damaged,
    /// At rest, touching at one point: a corner on a corner or on an edge.
    Corner,
    /// At rest, touching along an edge of each, for some length.
    Edge,
    /// At rest, two parallel edges on one line, and each outline has another
    /// edge parallel to them.
    Parallel,
    /// At rest, corner to corner, so that several sides part them.
    Several,
    /// One outline in the other, mostly against it from the inside.
    Within,
    /// Overlapping at time zero: across one another, or by very little.
    Across,
    /// In touch at time zero and moving apart.
    Parting,
    /// In touch at time zero and moving into or along one another.
    Closing,
    /// Not strict; edge 0 is the lowest that is not.
    BadFirst,
    /// Not strict; the lowest edge that is not is neither the first nor the last
    /// but one.
    BadMiddle,
    /// Only the last edge and the one before it are not strict. The last is
    /// never the only one: where all corners lie strictly to the left of every
    /// other edge, the outline goes round them in order, and its last edge too
    /// has them to its left.
    BadLast,
    /// More than two edges are not strict.
    BadSeveral,
    /// Neither outline is strict, and the lowest edges that are not differ.
    BadBoth,
    /// Strict corners in clockwise order.
    Clockwise,
    /// Two corners at one place.
    Repeated,
    /// Three corners in line, or all.
    Straight,
    /// One of the classes of rails.rs.
    Rail(rails::Class),
    /// One of the classes of stops.rs.
    Stop(stops::Class),
    /// One of the classes of straight.rs: sound outlines, and others.
    Drawn(straight::Drawn),
    Misdrawn(straight::Misdrawn),
}

/// Classes that take turns, with their names.
pub type Set = &'static [(Class, &'static str)];

/// Of document 01.
pub const BASE: Set = &[
    (Class::Touching, "touching"),
    (Class::Sliding, "sliding"),
    (Class::Contained, "contained"),
    (Class::Crossing, "crossing"),
    (Class::Needle, "needle"),
    (Class::Full, "full"),
    (Class::Instant, "instant"),
    (Class::Still, "still"),
    (Class::Unsound, "unsound"),
    (Class::Damaged, "damaged"),
];

/// Of request Q-1: how the outlines lie at time zero.
pub const AT_ZERO: Set = &[
    (Class::Corner, "corner"),
    (Class::Edge, "edge"),
    (Class::Parallel, "parallel"),
    (Class::Several, "several"),
    (Class::Within, "within"),
    (Class::Across, "across"),
    (Class::Parting, "parting"),
    (Class::Closing, "closing"),
];

/// Of request Q-3: which edge is wrong. They are made by that request's words,
/// by which every edge has to be strict; by request Q-8 some are accepted, those
/// with nothing but straight corners, and others name another edge.
pub const BAD_EDGES: Set = &[
    (Class::BadFirst, "bad-first"),
    (Class::BadMiddle, "bad-middle"),
    (Class::BadLast, "bad-last"),
    (Class::BadSeveral, "bad-several"),
    (Class::BadBoth, "bad-both"),
    (Class::Clockwise, "clockwise"),
    (Class::Repeated, "repeated"),
    (Class::Straight, "straight"),
];

/// Of request Q-6: where the editions of the touch rule part.
pub const RAILS: Set = &[
    (Class::Rail(rails::Class::Rails), "rails"),
    (Class::Rail(rails::Class::InnerRail), "inner-rail"),
    (Class::Rail(rails::Class::Resting), "resting"),
    (Class::Rail(rails::Class::Leaving), "leaving"),
    (Class::Rail(rails::Class::AtLast), "at-last"),
    (
        Class::Rail(rails::Class::CornerOnCorner),
        "corner-on-corner",
    ),
    (Class::Rail(rails::Class::Past), "past"),
    (Class::Rail(rails::Class::NearPast), "near-past"),
    (Class::Rail(rails::Class::ZeroTouching), "zero-touching"),
    (
        Class::Rail(rails::Class::ZeroOverlapping),
        "zero-overlapping",
    ),
    (Class::Rail(rails::Class::ZeroApart), "zero-apart"),
    (Class::Rail(rails::Class::Apart), "apart"),
];

/// Of request Q-7: at which side work stops.
pub const STOPS: Set = &[
    (Class::Stop(stops::Class::AtFirst), "stop-first"),
    (Class::Stop(stops::Class::AmidA), "stop-amid-A"),
    (Class::Stop(stops::Class::EndsA), "stop-ends-A"),
    (Class::Stop(stops::Class::BeginsB), "stop-begins-B"),
    (Class::Stop(stops::Class::AmidB), "stop-amid-B"),
    (Class::Stop(stops::Class::AtLast), "stop-last"),
    (Class::Stop(stops::Class::Nowhere), "stop-nowhere"),
];

/// Of request Q-8: straight corners, and what is taken for them.
pub const STRAIGHT_CORNERS: Set = &[
    (Class::Drawn(straight::Drawn::OneEdge), "on-one-edge"),
    (Class::Drawn(straight::Drawn::AllEdges), "on-all-edges"),
    (Class::Drawn(straight::Drawn::Sixteen), "sixteen"),
    (Class::Drawn(straight::Drawn::Both), "on-both"),
    (Class::Misdrawn(straight::Misdrawn::HairOff), "hair-off"),
    (
        Class::Misdrawn(straight::Misdrawn::OutOfOrder),
        "out-of-order",
    ),
    (Class::Misdrawn(straight::Misdrawn::Spike), "spike"),
    (
        Class::Misdrawn(straight::Misdrawn::BackTracking),
        "back-tracking",
    ),
    (
        Class::Misdrawn(straight::Misdrawn::Adjacent),
        "repeated-beside",
    ),
    (Class::Misdrawn(straight::Misdrawn::Apart), "repeated-apart"),
    (Class::Misdrawn(straight::Misdrawn::OneLine), "on-one-line"),
    (Class::Misdrawn(straight::Misdrawn::AllEqual), "all-equal"),
    (Class::Misdrawn(straight::Misdrawn::Star), "star"),
    (
        Class::Misdrawn(straight::Misdrawn::TwiceRound),
        "twice-round",
    ),
    (
        Class::Misdrawn(straight::Misdrawn::Clockwise),
        "clockwise-drawn",
    ),
    (Class::Misdrawn(straight::Misdrawn::TwoFaults), "two-faults"),
];

pub const SETS: [(&str, Set); 6] = [
    ("base", BASE),
    ("Q-1", AT_ZERO),
    ("Q-3", BAD_EDGES),
    ("Q-6", RAILS),
    ("Q-7", STOPS),
    ("Q-8", STRAIGHT_CORNERS),
];

pub fn set_named(name: &str) -> Option<Set> {
    SETS.iter().find(|(n, _)| *n == name).map(|(_, set)| *set)
}

/// The class of this name as a set of its own.
pub fn class_named(name: &str) -> Option<Set> {
    let all = SETS.iter().flat_map(|(_, set)| set.chunks(1));
    all.into_iter().find(|one| one[0].1 == name)
}

/// Whether this class is one of those of a set.
pub fn is_of(set: Set, class: Class) -> bool {
    set.iter().any(|(one, _)| *one == class)
}

/// The class of a line of a set: each in its turn.
pub fn class_of_place(set: Set, place: u64) -> Class {
    set[(place % set.len() as u64) as usize].0
}

/// The line of a class at a place, without its 0a. It holds no 0a itself, so
/// that lines and answers keep the same numbers.
pub fn line(seed: u64, place: u64, class: Class) -> Vec<u8> {
    let mut rng = Rng::for_line(seed, place);
    match class {
        Class::Damaged => damaged(&mut rng),
        Class::Unsound => write_move(&unsound(&mut rng)),
        bad if is_of(BAD_EDGES, bad) => write_move(&bad_move(&mut rng, bad)),
        Class::Misdrawn(class) => write_move(&straight::misdrawn(&mut rng, class)),
        _ => write_move(&sound_move(&mut rng, class)),
    }
}

/// A move of one of the classes that are not refused.
pub fn sound_move(rng: &mut Rng, class: Class) -> Move {
    // An attempt fails when what it laid out does not fit the range.
    loop {
        let attempt = match class {
            Class::Touching => touching(rng),
            Class::Sliding => sliding(rng),
            Class::Contained => contained(rng),
            Class::Crossing => crossing(rng),
            Class::Needle => needle(rng),
            Class::Full => full(rng),
            Class::Instant => instant(rng),
            Class::Still => still(rng),
            Class::Corner => by_corner(rng).and_then(|t| at_rest(rng, t)),
            Class::Edge => by_edge(rng).and_then(|t| at_rest(rng, t)),
            Class::Parallel => by_parallel_edges(rng).and_then(|t| at_rest(rng, t)),
            Class::Several => by_several(rng).and_then(|t| at_rest(rng, t)),
            Class::Within => within(rng),
            Class::Across => across(rng),
            Class::Parting => parting(rng),
            Class::Closing => closing(rng),
            Class::Rail(class) => rails::attempt(rng, class),
            Class::Stop(class) => stops::attempt(rng, class),
            Class::Drawn(class) => straight::attempt(rng, class),
            _ => panic!("{class:?} is not a class of sound moves"),
        };
        if let Some(m) = attempt {
            return m;
        }
    }
}

// ---------------------------------------------------------------------------
// Chance

/// splitmix64.
pub struct Rng(u64);

impl Rng {
    pub fn for_line(seed: u64, place: u64) -> Rng {
        let mut rng = Rng(seed);
        rng.0 = rng.next() ^ place.wrapping_mul(0xd1b5_4a32_d192_ed03);
        rng.0 = rng.next();
        rng
    }

    pub fn next(&mut self) -> u64 {
        self.0 = self.0.wrapping_add(0x9e37_79b9_7f4a_7c15);
        let mut z = self.0;
        z = (z ^ (z >> 30)).wrapping_mul(0xbf58_476d_1ce4_e5b9);
        z = (z ^ (z >> 27)).wrapping_mul(0x94d0_49bb_1331_11eb);
        z ^ (z >> 31)
    }

    /// A whole number from `low` to `high`, both included. The slight bias of
    /// the remainder does not matter here.
    pub fn range(&mut self, low: i128, high: i128) -> i128 {
        low + (self.next() as i128) % (high - low + 1)
    }

    pub fn index(&mut self, count: usize) -> usize {
        self.range(0, count as i128 - 1) as usize
    }

    pub fn one_in(&mut self, count: i128) -> bool {
        self.range(1, count) == 1
    }

    pub fn pick<T: Copy>(&mut self, choices: &[T]) -> T {
        choices[self.index(choices.len())]
    }

    /// A whole number from `low` (at least 1) to `high` that is as likely to
    /// be small as large: small numbers make the coincidences, large ones
    /// the long products.
    pub fn size(&mut self, low: i128, high: i128) -> i128 {
        let mut doublings = 0;
        while low << doublings < high {
            doublings += 1;
        }
        let bound = low << self.range(0, doublings);
        self.range(low, bound.min(high))
    }

    pub fn within(&mut self, reach: i128) -> Point {
        point(self.range(-reach, reach), self.range(-reach, reach))
    }

    pub fn nonzero_within(&mut self, reach: i128) -> Point {
        loop {
            let p = self.within(reach);
            if p != point(0, 0) {
                return p;
            }
        }
    }
}

// ---------------------------------------------------------------------------
// Outlines

/// Whether every corner other than the two ends of edge `i` is strictly to its
/// left. What was sound before request Q-8 had only such edges, and the sets
/// before it are made by that.
pub fn is_strict_edge(outline: &[Point], i: usize) -> bool {
    let count = outline.len();
    let (start, stop) = edge(outline, i);
    (0..count)
        .filter(|&k| k != i && k != (i + 1) % count)
        .all(|k| stop.minus(start).cross(outline[k].minus(start)) > 0)
}

pub fn is_strict(outline: &[Point]) -> bool {
    (0..outline.len()).all(|i| is_strict_edge(outline, i))
}

/// The edges that are not, in order.
fn loose_edges(outline: &[Point]) -> Vec<usize> {
    let is_loose = |i: &usize| !is_strict_edge(outline, *i);
    (0..outline.len()).filter(is_loose).collect()
}

pub fn shifted(outline: &[Point], by: Point) -> Vec<Point> {
    outline.iter().map(|corner| corner.plus(by)).collect()
}

pub fn enlarged(outline: &[Point], times: i128) -> Vec<Point> {
    outline.iter().map(|corner| corner.times(times)).collect()
}

pub fn turned_half(outline: &[Point]) -> Vec<Point> {
    enlarged(outline, -1)
}

/// The image under the matrix with columns `u`, `v`. Where their cross
/// product is above zero a sound outline stays sound.
pub fn mapped(outline: &[Point], u: Point, v: Point) -> Vec<Point> {
    outline
        .iter()
        .map(|c| u.times(c.x).plus(v.times(c.y)))
        .collect()
}

/// The lowest and highest coordinates.
pub fn bounds(outline: &[Point]) -> (Point, Point) {
    let (west, east) = interval(outline, point(1, 0));
    let (south, north) = interval(outline, point(0, 1));
    (point(west, south), point(east, north))
}

/// Whole steps that add up to zero: a walk from the least of some random
/// values up to the greatest and back down through the others.
fn closed_walk(rng: &mut Rng, count: usize, size: i128) -> Vec<i128> {
    let mut values: Vec<i128> = (0..count).map(|_| rng.range(0, size)).collect();
    values.sort();
    let (low, high) = (values[0], values[count - 1]);
    let (mut up, mut down) = (low, low);
    let mut steps = Vec::new();
    for &value in &values[1..count - 1] {
        if rng.one_in(2) {
            steps.push(value - up);
            up = value;
        } else {
            steps.push(down - value);
            down = value;
        }
    }
    steps.push(high - up);
    steps.push(down - high);
    steps
}

/// The places that the steps lead to, one after the other.
fn walked(steps: &[Point]) -> Vec<Point> {
    let mut at = point(0, 0);
    steps
        .iter()
        .map(|step| {
            at = at.plus(*step);
            at
        })
        .collect()
}

/// One try at an outline: random edges that add up to zero, in the order of
/// their angles. It may have straight corners.
fn edges_in_order(rng: &mut Rng, count: usize, size: i128) -> Vec<Point> {
    let xs = closed_walk(rng, count, size);
    let mut ys = closed_walk(rng, count, size);
    for i in (1..count).rev() {
        ys.swap(i, rng.index(i + 1));
    }
    let mut steps: Vec<Point> = xs.iter().zip(&ys).map(|(&x, &y)| point(x, y)).collect();
    let upper = |p: &Point| p.y > 0 || (p.y == 0 && p.x > 0);
    steps.sort_by(|p, q| upper(q).cmp(&upper(p)).then(0.cmp(&p.cross(*q))));
    walked(&steps)
}

/// A strict outline with exactly `count` corners, about the origin, some
/// `size` across. Where so many corners find no room, the size grows.
pub fn outline(rng: &mut Rng, count: usize, size: i128) -> Vec<Point> {
    let mut size = size;
    for attempt in 1.. {
        let mut corners = edges_in_order(rng, count, size);
        if is_strict(&corners) {
            let turn = rng.index(count);
            corners.rotate_left(turn);
            let (low, high) = bounds(&corners);
            let middle = low.plus(high);
            return shifted(&corners, point(-(middle.x / 2), -(middle.y / 2)));
        }
        if attempt % 8 == 0 && size < 2000 {
            size += size / 2 + 1;
        }
    }
    unreachable!()
}

pub fn any_outline(rng: &mut Rng, size: i128) -> Vec<Point> {
    let count = rng.range(3, 16) as usize;
    outline(rng, count, size)
}

/// A second outline: often one with edges parallel to those of the first.
fn partner(rng: &mut Rng, a: &[Point], size: i128) -> Vec<Point> {
    match rng.index(4) {
        0 => turned_half(a),
        1 => a.to_vec(),
        _ => any_outline(rng, size),
    }
}

/// A corner farthest in a direction; if there are two, either.
pub fn farthest(rng: &mut Rng, outline: &[Point], direction: Point) -> Point {
    let (_, most) = interval(outline, direction);
    let corners: Vec<Point> = outline
        .iter()
        .copied()
        .filter(|c| direction.dot(*c) == most)
        .collect();
    rng.pick(&corners)
}

pub fn gcd(a: i128, b: i128) -> i128 {
    if b == 0 {
        a.abs()
    } else {
        gcd(b, a % b)
    }
}

/// The shortest whole step along a direction.
pub fn shortest(step: Point) -> Point {
    let g = gcd(step.x, step.y);
    point(step.x / g, step.y / g)
}

// ---------------------------------------------------------------------------
// Putting a move together

pub fn any_limit(rng: &mut Rng) -> i128 {
    match rng.index(8) {
        0 => 0,
        1 => REACH,
        2 => 10,
        _ => rng.size(1, REACH),
    }
}

/// A move in which B moves with velocity `w` as seen from A. The outlines
/// keep their places to one another but are shifted together into range,
/// share a random velocity, and change names half the time, so that the sides
/// that matter are as often B's. `None` if it does not fit.
pub fn put_together(
    rng: &mut Rng,
    a: &[Point],
    b: &[Point],
    w: Point,
    limit: i128,
) -> Option<Move> {
    let both = [a, b].concat();
    let (low, high) = bounds(&both);
    let mut shift = |low: i128, high: i128| {
        let (least, most) = (-REACH - low, REACH - high);
        if least > most {
            None
        } else if least <= 0 && 0 <= most && rng.one_in(2) {
            Some(0)
        } else if rng.one_in(4) {
            // Right against the end of the range.
            Some(if rng.one_in(2) { least } else { most })
        } else {
            Some(rng.range(least, most))
        }
    };
    let by = point(shift(low.x, high.x)?, shift(low.y, high.y)?);

    let mut own = |w: i128| {
        let (least, most) = ((-REACH).max(-REACH - w), REACH.min(REACH - w));
        if least > most || !(0..=REACH).contains(&limit) {
            None
        } else if w.abs() <= REACH && rng.one_in(2) {
            Some(0)
        } else {
            Some(rng.range(least, most))
        }
    };
    let velocity_a = point(own(w.x)?, own(w.y)?);
    let velocity_b = velocity_a.plus(w);
    let (a, b) = (shifted(a, by), shifted(b, by));
    Some(if rng.one_in(2) {
        Move {
            limit,
            velocity_a,
            velocity_b,
            a,
            b,
        }
    } else {
        Move {
            limit,
            velocity_a: velocity_b,
            velocity_b: velocity_a,
            a: b,
            b: a,
        }
    })
}

/// How the outlines lie when they touch: B where it touches A from outside,
/// and a direction that points from A to B across a line between them.
pub struct Touch {
    pub a: Vec<Point>,
    pub b: Vec<Point>,
    pub across: Point,
}

pub fn touch(rng: &mut Rng, size: i128) -> Touch {
    // Enlarged, every edge has whole places between its ends, so that a
    // corner can rest in the middle of an edge.
    let times = rng.pick(&[1, 2, 3, 4, 6]);
    let a = enlarged(&any_outline(rng, (size / times).max(2)), times);
    let b_size = rng.size(2, size.max(3));
    let b = partner(rng, &a, b_size);
    let (spot, across) = if rng.one_in(3) {
        // Corner to corner, in most directions.
        let across = rng.nonzero_within(20);
        (farthest(rng, &a, across), across)
    } else {
        // A whole place on an edge of A, its ends included.
        let i = rng.index(a.len());
        let (start, stop) = edge(&a, i);
        let step = stop.minus(start);
        let across = point(step.y, -step.x);
        let along = rng.range(0, gcd(step.x, step.y));
        (start.plus(shortest(step).times(along)), across)
    };
    let nearest = farthest(rng, &b, across.times(-1));
    let b = shifted(&b, spot.minus(nearest));
    Touch { a, b, across }
}

fn touching(rng: &mut Rng) -> Option<Move> {
    let size = rng.size(2, 6000);
    let Touch { a, b, across } = touch(rng, size);
    let along = shortest(point(-across.y, across.x));
    let speed = rng.size(1, 2 * REACH);
    let w = match rng.index(5) {
        0 => point(0, 0),
        1 => along.times(rng.pick(&[-3, -2, -1, 1, 2, 3])),
        2 => shortest(across),
        3 => shortest(across).times(-1),
        _ => rng.within(speed),
    };
    let limit = any_limit(rng);
    put_together(rng, &a, &b, w, limit)
}

fn sliding(rng: &mut Rng) -> Option<Move> {
    let size = rng.size(2, 600);
    let Touch { a, b, across } = touch(rng, size);
    let along = shortest(point(-across.y, across.x));
    let reach = (4 * size / (along.x.abs() + along.y.abs())).max(2);
    let away = rng.range(-reach, reach);
    let mut b = shifted(&b, along.times(away));
    if rng.one_in(4) {
        // A hair off the line: a clear miss or a shallow overlap.
        let hair = rng.nonzero_within(1);
        b = shifted(&b, hair);
    }
    let pace = rng.size(1, (2 * REACH / (along.x.abs() + along.y.abs())).max(1));
    let back = if rng.one_in(5) { 1 } else { -1 };
    let w = along.times(pace * away.signum() * back);
    let limit = if rng.one_in(4) {
        // Near the time at which the spots of the first touch meet again.
        away.abs() / pace + rng.range(0, 1)
    } else {
        any_limit(rng)
    };
    put_together(rng, &a, &b, w, limit)
}

fn contained(rng: &mut Rng) -> Option<Move> {
    let size = rng.size(16, 2 * REACH);
    let a = any_outline(rng, size);
    let b_size = rng.size(2, (size / 4).max(3));
    let b = any_outline(rng, b_size);
    let aside = rng.within(size / 4);
    let b = shifted(&b, aside);
    if !b.iter().all(|corner| inside_or_on(&a, *corner)) {
        return None;
    }
    let speed = rng.size(1, 2 * REACH);
    let w = if rng.one_in(4) {
        point(0, 0)
    } else {
        rng.within(speed)
    };
    let limit = any_limit(rng);
    put_together(rng, &a, &b, w, limit)
}

/// Two outlines across one another.
pub fn crossed(rng: &mut Rng) -> (Vec<Point>, Vec<Point>) {
    let (a, b) = if rng.one_in(4) {
        // Two triangles as a star of six points, one perhaps off its place.
        let size = rng.size(2, 2000);
        let a = vec![
            point(0, 2 * size),
            point(-2 * size, -size),
            point(2 * size, -size),
        ];
        let aside = rng.within(size / 3);
        let b = shifted(&turned_half(&a), aside);
        (a, b)
    } else {
        // One stretched lengthwise, the other crosswise.
        let size_a = rng.size(2, 200);
        let size_b = rng.size(2, 200);
        let long_a = size_b / size_a + rng.range(2, 30);
        let long_b = size_a / size_b + rng.range(2, 30);
        let bar = |rng: &mut Rng, size: i128| {
            if rng.one_in(2) {
                vec![
                    point(0, 0),
                    point(size, 0),
                    point(size, size),
                    point(0, size),
                ]
            } else {
                any_outline(rng, size)
            }
        };
        let a = mapped(&bar(rng, size_a), point(long_a, 0), point(0, 1));
        let b = mapped(&bar(rng, size_b), point(1, 0), point(0, long_b));
        let middle = |outline: &[Point]| {
            let (low, high) = bounds(outline);
            point((low.x + high.x) / 2, (low.y + high.y) / 2)
        };
        let aside = middle(&a)
            .minus(middle(&b))
            .plus(rng.within(size_a.min(size_b) / 2));
        let b = shifted(&b, aside);
        (a, b)
    };
    // A shear and a quarter turn, so that the cross does not always stand
    // upright; both have cross product 1.
    let lean = rng.range(-2, 2);
    let (u, v) = if rng.one_in(2) {
        (point(1, lean), point(0, 1))
    } else {
        (point(0, 1), point(-1, lean))
    };
    (mapped(&a, u, v), mapped(&b, u, v))
}

fn crossing(rng: &mut Rng) -> Option<Move> {
    let (a, b) = crossed(rng);
    let speed = rng.size(1, 2 * REACH);
    let w = if rng.one_in(3) {
        point(0, 0)
    } else {
        rng.within(speed)
    };
    let limit = any_limit(rng);
    put_together(rng, &a, &b, w, limit)
}

/// Whole `(s, t)` with `a s + b t` the greatest common divisor of a and b.
fn bezout(a: i128, b: i128) -> (i128, i128) {
    if b == 0 {
        (a.signum(), 0)
    } else {
        let (s, t) = bezout(b, a % b);
        (t, s - (a / b) * t)
    }
}

/// An outline of least area: a triangle of one half or a quadrilateral of
/// one, times a small factor.
fn needle_outline(rng: &mut Rng) -> Vec<Point> {
    let length = rng.size(8, 6000);
    let long = shortest(rng.nonzero_within(length));
    let (s, t) = bezout(long.x, long.y);
    let thin = point(-t, s);
    let factor = rng.size(1, 3);
    let (long, thin) = (long.times(factor), thin);
    let mut corners = vec![point(0, 0), long, long.plus(thin), thin];
    if rng.one_in(2) {
        let dropped = rng.index(4);
        corners.remove(dropped);
    }
    let turn = rng.index(corners.len());
    corners.rotate_left(turn);
    corners
}

/// A whole place on or near an outline.
fn spot_of(rng: &mut Rng, outline: &[Point]) -> Point {
    let i = rng.index(outline.len());
    let (start, stop) = edge(outline, i);
    let step = stop.minus(start);
    let part = rng.range(0, 8);
    start.plus(point(step.x * part / 8, step.y * part / 8))
}

/// How B comes to A: the velocity seen from A, and the time on the way. The
/// way is kept short enough to fit the range.
fn way(rng: &mut Rng, longest: i128) -> (Point, i128) {
    let speed = rng.size(1, longest);
    let w = rng.nonzero_within(speed);
    let time = rng.size(1, (longest / w.x.abs().max(w.y.abs())).clamp(1, REACH));
    (w, time)
}

/// Times that are all but equal. A is a long triangle of area one half, B a
/// triangle that comes to A's blunt corner tip first. Where the tip's way
/// misses the corner by the least there is, it meets the lines of A's edges at
/// times that differ by down to one part in 10^17, less than floating point
/// can tell.
fn near_tie(rng: &mut Rng) -> Option<Move> {
    let u = shortest(rng.nonzero_within(11_000));
    let (s, t) = bezout(u.x, u.y);
    let mut v = point(-t, s);
    if u.dot(v) < 0 {
        v = v.plus(u);
    }
    let blunt = u;
    let mut a = vec![point(0, 0), blunt, blunt.plus(v)];
    let outward = point(u.y, -u.x);
    let facing = |p: Point| if outward.dot(p) < 0 { p.times(-1) } else { p };

    let approach = facing(shortest(rng.nonzero_within(7000))).times(-1);
    let (s, t) = bezout(approach.x, approach.y);
    let miss = point(-t, s).times(rng.range(-1, 1));
    // However fast it comes, it misses the corner by no more.
    let times = 2 * REACH / approach.x.abs().max(approach.y.abs()) - 1;
    let w = approach
        .times(if rng.one_in(2) {
            times
        } else {
            rng.range(1, times)
        })
        .plus(miss);
    let tip = blunt.minus(approach);
    let (x, y) = (
        facing(rng.nonzero_within(3000)),
        facing(rng.nonzero_within(3000)),
    );
    let (x, y) = if x.cross(y) > 0 { (x, y) } else { (y, x) };
    let mut b = vec![tip, tip.plus(x), tip.plus(y)];

    if !is_strict(&a) || !is_strict(&b) {
        return None;
    }
    let (turn_a, turn_b) = (rng.index(3), rng.index(3));
    a.rotate_left(turn_a);
    b.rotate_left(turn_b);
    let limit = if rng.one_in(4) { 1 } else { any_limit(rng) };
    put_together(rng, &a, &b, w, limit)
}

fn needle(rng: &mut Rng) -> Option<Move> {
    if rng.one_in(2) {
        return near_tie(rng);
    }
    let a = needle_outline(rng);
    let b = if rng.one_in(4) {
        let size = rng.size(2, 3000);
        any_outline(rng, size)
    } else {
        needle_outline(rng)
    };
    let aside = match rng.index(4) {
        0 => rng.within(2),
        1 => rng.within(200),
        _ => point(0, 0),
    };
    let apart = spot_of(rng, &a).minus(spot_of(rng, &b)).plus(aside);
    let (w, time) = if rng.one_in(4) {
        (rng.within(3), 0)
    } else {
        way(rng, 8000)
    };
    let b = shifted(&b, apart.minus(w.times(time)));
    let limit = match rng.index(4) {
        0 => time,
        1 => any_limit(rng),
        _ => rng.range(time, REACH),
    };
    put_together(rng, &a, &b, w, limit)
}

/// An outline anywhere in range, often right against its ends.
pub fn scattered(rng: &mut Rng, outline: &[Point]) -> Vec<Point> {
    let (low, high) = bounds(outline);
    let mut place = |low: i128, high: i128| {
        let (least, most) = (-REACH - low, REACH - high);
        match rng.index(8) {
            0 => least,
            1 => most,
            _ => rng.range(least, most),
        }
    };
    let by = point(place(low.x, high.x), place(low.y, high.y));
    shifted(outline, by)
}

pub fn full_speed(rng: &mut Rng) -> i128 {
    match rng.index(8) {
        0 => -REACH,
        1 => REACH,
        2 => rng.range(-3, 3),
        3 => rng.range(-100, 100),
        _ => rng.range(-REACH, REACH),
    }
}

pub fn full(rng: &mut Rng) -> Option<Move> {
    let most_corners = rng.one_in(8);
    let mut one = || {
        let count = if most_corners {
            16
        } else {
            rng.range(3, 16) as usize
        };
        let size = if rng.one_in(8) {
            2 * REACH
        } else {
            rng.size(500, 12_000)
        };
        let corners = outline(rng, count, size);
        scattered(rng, &corners)
    };
    let (a, b) = (one(), one());
    let velocity_a = point(full_speed(rng), full_speed(rng));
    let (velocity_b, limit) = match rng.index(3) {
        0 => (point(full_speed(rng), full_speed(rng)), any_limit(rng)),
        passing => {
            // Aimed: about where a spot of B meets a spot of A, or in a third
            // of all moves past it, which takes two sides to show as clear.
            let aside = if passing == 1 {
                rng.within(6000)
            } else {
                point(0, 0)
            };
            let gap = spot_of(rng, &a).minus(spot_of(rng, &b)).plus(aside);
            let time = rng.size(1, 2000);
            let aimed = velocity_a.plus(point(gap.x / time, gap.y / time));
            let velocity = point(aimed.x.clamp(-REACH, REACH), aimed.y.clamp(-REACH, REACH));
            let limit = if rng.one_in(4) {
                any_limit(rng)
            } else {
                rng.range(time, REACH)
            };
            (velocity, limit)
        }
    };
    Some(Move {
        limit,
        velocity_a,
        velocity_b,
        a,
        b,
    })
}

fn instant(rng: &mut Rng) -> Option<Move> {
    let size = rng.size(2, 4000);
    let Touch { a, b, across } = touch(rng, size);
    let (w, time) = if rng.one_in(3) {
        // Grazing: along the line between them, past one another.
        let w = shortest(point(-across.y, across.x)).times(rng.pick(&[-2, -1, 1, 2]));
        (w, rng.size(1, (8000 / w.x.abs().max(w.y.abs())).max(1)))
    } else {
        // Coming in: whichever way, it touches first at this time.
        let (w, time) = way(rng, 12_000);
        (if w.dot(across) > 0 { w.times(-1) } else { w }, time)
    };
    let mut b = shifted(&b, w.times(-time));
    if rng.one_in(8) {
        let hair = rng.nonzero_within(1);
        b = shifted(&b, hair);
    }
    let limit = match rng.index(8) {
        0 => time - 1,
        1 => time + 1,
        2 => any_limit(rng),
        _ => time,
    };
    put_together(rng, &a, &b, w, limit)
}

fn still(rng: &mut Rng) -> Option<Move> {
    let size = rng.size(2, 8000);
    let a = any_outline(rng, size);
    let b_size = rng.size(2, 8000);
    let b = partner(rng, &a, b_size);
    let apart = if rng.one_in(2) {
        let hair = rng.within(1);
        spot_of(rng, &a).minus(spot_of(rng, &b)).plus(hair)
    } else {
        rng.within(size + 2)
    };
    let b = shifted(&b, apart);
    let limit = any_limit(rng);
    put_together(rng, &a, &b, point(0, 0), limit)
}

// ---------------------------------------------------------------------------
// How the outlines lie at time zero (request Q-1)

/// Some of the corners, at least three, in their order; those at the places
/// `kept` among them. A part of a strict outline is strict.
fn part_of(rng: &mut Rng, outline: &[Point], kept: &[usize]) -> Vec<Point> {
    loop {
        let part: Vec<Point> = (0..outline.len())
            .filter(|i| rng.one_in(2) || kept.contains(i))
            .map(|i| outline[i])
            .collect();
        if part.len() >= 3 {
            return part;
        }
    }
}

/// How many corners are farthest in a direction.
pub fn farthest_count(outline: &[Point], direction: Point) -> usize {
    let (_, most) = interval(outline, direction);
    let is_farthest = |c: &&Point| direction.dot(**c) == most;
    outline.iter().filter(is_farthest).count()
}

/// At one point: on the line between them at most one has an edge.
fn by_corner(rng: &mut Rng) -> Option<Touch> {
    let size = rng.size(2, 6000);
    let touch = touch(rng, size);
    let on_a = farthest_count(&touch.a, touch.across);
    let on_b = farthest_count(&touch.b, touch.across.times(-1));
    if on_a == 1 || on_b == 1 {
        Some(touch)
    } else {
        None
    }
}

/// B where its edge `j`, which runs the other way, lies on the line of A's
/// edge `i`. They share some length, or where `ends` allows it one end.
fn flush(rng: &mut Rng, a: &[Point], i: usize, b: &[Point], j: usize, ends: bool) -> Touch {
    let (start, stop) = edge(a, i);
    let (other_start, other_stop) = edge(b, j);
    let (step, other) = (stop.minus(start), other_stop.minus(other_start));
    let both = gcd(step.x, step.y) + gcd(other.x, other.y);
    let least = if ends { 0 } else { 1 };
    let along = rng.range(least, both - least);
    let spot = start.plus(shortest(step).times(along));
    Touch {
        a: a.to_vec(),
        b: shifted(b, spot.minus(other_start)),
        across: point(step.y, -step.x),
    }
}

/// A part of an outline, turned half; and where in it the corner is that was
/// at the first of the places `kept`.
fn turned_part(rng: &mut Rng, outline: &[Point], kept: &[usize]) -> (Vec<Point>, usize) {
    let part = part_of(rng, outline, kept);
    let at = part.iter().position(|c| *c == outline[kept[0]]);
    (turned_half(&part), at.expect("the corner was kept"))
}

/// Either is perhaps larger.
fn resized(rng: &mut Rng, a: &[Point], b: &[Point]) -> (Vec<Point>, Vec<Point>) {
    (enlarged(a, rng.range(1, 3)), enlarged(b, rng.range(1, 3)))
}

/// B is a part of A turned half, so that their edges run opposite ways.
pub fn by_edge(rng: &mut Rng) -> Option<Touch> {
    let size = rng.size(2, 3000);
    let a = any_outline(rng, size);
    let i = rng.index(a.len());
    let (b, j) = turned_part(rng, &a, &[i, (i + 1) % a.len()]);
    let (a, b) = resized(rng, &a, &b);
    Some(flush(rng, &a, i, &b, j, false))
}

/// An outline in which each edge has its opposite, parallel to it: the given
/// steps, no two of them parallel, and then the same steps back.
fn paired(steps: &[Point]) -> Vec<Point> {
    let upward = |s: &Point| match s.y > 0 || (s.y == 0 && s.x > 0) {
        true => *s,
        false => s.times(-1),
    };
    let mut out: Vec<Point> = steps.iter().map(upward).collect();
    out.sort_by(|p, q| 0.cmp(&p.cross(*q)));
    let back = turned_half(&out);
    walked(&[out, back].concat())
}

/// Both have all edges in pairs, and one step, times something, in common.
pub fn by_parallel_edges(rng: &mut Rng) -> Option<Touch> {
    let size = rng.size(1, 800);
    let common = shortest(rng.nonzero_within(size));
    let mut one = || {
        let mut steps = vec![common.times(rng.range(1, 4))];
        for _ in 0..rng.range(1, 7) {
            steps.push(rng.nonzero_within(size));
        }
        paired(&steps)
    };
    let (a, b) = (one(), one());
    if !is_strict(&a) || !is_strict(&b) {
        return None;
    }
    let along = |outline: &[Point], direction: Point| {
        (0..outline.len()).find(|&i| {
            let (start, stop) = edge(outline, i);
            shortest(stop.minus(start)) == direction
        })
    };
    let (i, j) = (along(&a, common)?, along(&b, common.times(-1))?);
    Some(if rng.one_in(2) {
        flush(rng, &a, i, &b, j, true)
    } else {
        flush(rng, &b, j, &a, i, true)
    })
}

/// Corner to corner: B is a part of A turned half about the corner, so that
/// the lines of both edges at A's corner are between them, and often those
/// of the edges at B's.
pub fn by_several(rng: &mut Rng) -> Option<Touch> {
    let size = rng.size(2, 3000);
    let a = any_outline(rng, size);
    let i = rng.index(a.len());
    let (next, before) = ((i + 1) % a.len(), (i + a.len() - 1) % a.len());
    let kept = rng.pick(&[[i, i, i], [i, next, before], [i, i, next]]);
    let (b, j) = turned_part(rng, &a, &kept);
    let (a, b) = resized(rng, &a, &b);
    let (start, stop) = edge(&a, rng.pick(&[i, before]));
    let step = stop.minus(start);
    Some(Touch {
        b: shifted(&b, a[i].minus(b[j])),
        across: point(step.y, -step.x),
        a,
    })
}

/// At rest as they touch, or a hair off.
fn at_rest(rng: &mut Rng, touch: Touch) -> Option<Move> {
    let hair = if rng.one_in(8) {
        rng.nonzero_within(1)
    } else {
        point(0, 0)
    };
    let limit = any_limit(rng);
    put_together(rng, &touch.a, &shifted(&touch.b, hair), point(0, 0), limit)
}

/// At rest, or moving any way.
pub fn any_way(rng: &mut Rng) -> Point {
    let speed = rng.size(1, 2 * REACH);
    if rng.one_in(2) {
        point(0, 0)
    } else {
        rng.within(speed)
    }
}

pub fn within(rng: &mut Rng) -> Option<Move> {
    let size = rng.size(3, 6000);
    let a = any_outline(rng, size);
    let (a, b) = match rng.index(4) {
        // The same once more.
        0 => (a.clone(), a),
        // A part of it: corners on corners, edges along edges.
        1 => (a.clone(), part_of(rng, &a, &[])),
        // A smaller one of its shape, along an edge or in a corner of it.
        _ => {
            let times = rng.range(2, 3);
            let (start, stop) = edge(&a, rng.index(a.len()));
            let step = stop.minus(start);
            let along = rng.range(0, (times - 1) * gcd(step.x, step.y));
            let to = start.times(times - 1).plus(shortest(step).times(along));
            (enlarged(&a, times), shifted(&a, to))
        }
    };
    let w = any_way(rng);
    let limit = any_limit(rng);
    put_together(rng, &a, &b, w, limit)
}

fn across(rng: &mut Rng) -> Option<Move> {
    let (a, b) = if rng.one_in(2) {
        crossed(rng)
    } else {
        // Pushed together by a short step, so that they overlap by little.
        let Touch { a, b, across } = any_touch(rng)?;
        let steps = rng.range(1, 3);
        let by = point(across.x.signum(), across.y.signum());
        let b = shifted(&b, by.times(-steps));
        (a, b)
    };
    let w = any_way(rng);
    let limit = any_limit(rng);
    put_together(rng, &a, &b, w, limit)
}

pub fn any_touch(rng: &mut Rng) -> Option<Touch> {
    match rng.index(4) {
        0 => by_corner(rng),
        1 => by_edge(rng),
        2 => by_parallel_edges(rng),
        _ => by_several(rng),
    }
}

pub fn parting(rng: &mut Rng) -> Option<Move> {
    let Touch { a, b, across } = any_touch(rng)?;
    let speed = rng.size(1, 2 * REACH);
    let w = match rng.index(3) {
        0 => shortest(across),
        _ => rng.within(speed),
    };
    let w = match w.dot(across).signum() {
        0 => return None,
        sign => w.times(sign),
    };
    let limit = any_limit(rng);
    put_together(rng, &a, &b, w, limit)
}

/// A corner of B goes to a corner of A, so that contact lasts until then.
fn closing(rng: &mut Rng) -> Option<Move> {
    let Touch { a, b, .. } = any_touch(rng)?;
    let way = rng.pick(&a).minus(rng.pick(&b));
    if way == point(0, 0) {
        return None;
    }
    let w = if rng.one_in(2) { way } else { shortest(way) };
    let limit = any_limit(rng);
    put_together(rng, &a, &b, w, limit)
}

// ---------------------------------------------------------------------------
// Moves to refuse

/// The paper's star: it turns left at every corner.
pub const STAR: [Point; 5] = [
    point(10, 0),
    point(-8, 6),
    point(3, -9),
    point(3, 9),
    point(-8, -6),
];

/// Spoils a sound outline. Now and then the outcome is sound after all; the
/// answer decides, not the intention.
fn spoiled(rng: &mut Rng, outline: &[Point]) -> Vec<Point> {
    let mut corners = outline.to_vec();
    let count = corners.len();
    let i = rng.index(count);
    let next = (i + 1) % count;
    match rng.index(9) {
        0 => corners.reverse(),
        1 => corners[next] = corners[i],
        2 => {
            // Straight or bent in, by half an edge's length at most.
            let (before, after) = (corners[i], corners[(i + 2) % count]);
            let middle = point((before.x + after.x) / 2, (before.y + after.y) / 2);
            corners[next] = middle.plus(rng.within(1));
        }
        3 => {
            // Exactly straight: a step on from a corner, the same step again.
            let step = rng.within(40);
            corners[next] = corners[i].plus(step);
            corners[(i + 2) % count] = corners[i].plus(step.times(2));
        }
        4 => {
            let k = rng.index(count);
            corners.swap(i, k);
        }
        5 => {
            // Every second corner: from five corners up it winds round twice.
            corners = (0..count).map(|k| outline[(2 * k) % count]).collect();
        }
        6 => corners = STAR.to_vec(),
        7 => {
            let step = rng.within(3);
            corners = (0..count as i128)
                .map(|k| corners[0].plus(step.times(k)))
                .collect();
        }
        _ => {
            let k = rng.index(count);
            corners[k] = point(0, 0);
        }
    }
    corners
}

pub fn unsound(rng: &mut Rng) -> Move {
    let class = rng.pick(&[Class::Touching, Class::Still, Class::Full, Class::Instant]);
    loop {
        let mut m = sound_move(rng, class);
        let which = rng.index(5);
        if which != 1 && which != 2 {
            m.a = spoiled(rng, &m.a);
        }
        if which != 3 && which != 4 {
            m.b = spoiled(rng, &m.b);
        }
        let fits = |p: &Point| p.x.abs() <= REACH && p.y.abs() <= REACH;
        if m.a.iter().chain(&m.b).all(fits) {
            return m;
        }
    }
}

// ---------------------------------------------------------------------------
// Outlines with an edge that is not strict (request Q-3)

/// One corner of a strict outline out of its place. Mostly few edges are loose
/// then, those at the corner among them.
fn displaced(rng: &mut Rng, outline: &[Point]) -> Vec<Point> {
    let mut corners = outline.to_vec();
    let count = corners.len();
    let k = rng.index(count);
    let (before, after) = (corners[(k + count - 1) % count], corners[(k + 1) % count]);
    let middle = point((before.x + after.x) / 2, (before.y + after.y) / 2);
    match rng.index(5) {
        // A dent that is a hair deep, or one as deep as the corner was high.
        0 => corners[k] = middle.plus(rng.within(1)),
        1 => corners[k] = before.plus(after).minus(corners[k]),
        // Pulled out past the lines of the edges beside its own.
        2 => {
            let out = corners[k].minus(middle).times(rng.range(1, 3));
            corners[k] = corners[k].plus(out);
        }
        // Pushed through, past any other corner.
        3 => {
            let past = rng.pick(outline);
            corners[k] = past.times(2).minus(corners[k]);
        }
        _ => corners.swap(k, (k + 1) % count),
    }
    corners
}

/// Every second corner, so that an odd count winds round twice and turns left
/// everywhere; or several corners out of their places.
fn spoiled_often(rng: &mut Rng, outline: &[Point]) -> Vec<Point> {
    let count = outline.len();
    if count % 2 == 1 && rng.one_in(3) {
        return (0..count).map(|k| outline[(2 * k) % count]).collect();
    }
    let times = rng.range(2, 4);
    (0..times).fold(outline.to_vec(), |corners, _| displaced(rng, &corners))
}

/// A corner where another one is: its neighbour, one more beside it, or any.
fn repeated(rng: &mut Rng, outline: &[Point]) -> Vec<Point> {
    let mut corners = outline.to_vec();
    let count = corners.len();
    let i = rng.index(count);
    match rng.index(3) {
        0 => corners[(i + 1) % count] = corners[i],
        1 if count < 16 => corners.insert(i, corners[i]),
        _ => corners[(i + 1 + rng.index(count - 1)) % count] = corners[i],
    }
    corners
}

/// A corner in line with two others. The middle of any two corners has to be
/// a whole place.
fn straightened(rng: &mut Rng, outline: &[Point]) -> Vec<Point> {
    let mut corners = outline.to_vec();
    let count = corners.len();
    let i = rng.index(count);
    let at = |k: usize| outline[(i + k) % count];
    let middle = |p: Point, q: Point| point((p.x + q.x) / 2, (p.y + q.y) / 2);
    match rng.index(6) {
        // All of them.
        0 => {
            let step = at(1).minus(at(0));
            let step = point(step.x.signum(), step.y.signum()).times(rng.range(-3, 3));
            let on_line = |k: usize| at(0).plus(step.times(k as i128));
            corners = (0..count).map(on_line).collect();
        }
        // In line with the edge before it, beyond its end.
        1 => corners[(i + 2) % count] = at(1).times(2).minus(at(0)),
        // In the middle of an edge, or of a line between the neighbours.
        2 | 3 if count < 16 => corners.insert(i + 1, middle(at(0), at(1))),
        _ => corners[(i + 1) % count] = middle(at(0), at(2)),
    }
    corners
}

/// The same outline, begun at a corner from which the lowest edge that is not
/// strict is as wanted, if there is one.
fn begun_so(
    rng: &mut Rng,
    outline: &[Point],
    wanted: impl Fn(usize) -> bool,
) -> Option<Vec<Point>> {
    let begun_at = |turn: usize| [&outline[turn..], &outline[..turn]].concat();
    let fit: Vec<usize> = (0..outline.len())
        .filter(|&turn| {
            let lowest = loose_edges(&begun_at(turn)).first().copied();
            lowest.is_some_and(&wanted)
        })
        .collect();
    match fit.is_empty() {
        true => None,
        false => Some(begun_at(rng.pick(&fit))),
    }
}

/// One try at an outline of a class.
fn try_bad_outline(rng: &mut Rng, class: Class) -> Option<Vec<Point>> {
    let size = rng.size(2, REACH);
    let sound = enlarged(&any_outline(rng, size), 2);
    let spoiled = match class {
        Class::BadSeveral => spoiled_often(rng, &sound),
        Class::Clockwise => sound.iter().rev().copied().collect(),
        Class::Repeated => repeated(rng, &sound),
        Class::Straight => straightened(rng, &sound),
        _ => displaced(rng, &sound),
    };
    let (low, high) = bounds(&spoiled);
    if high.x - low.x > 2 * REACH || high.y - low.y > 2 * REACH {
        return None;
    }
    if class == Class::BadSeveral && loose_edges(&spoiled).len() <= 2 {
        return None;
    }
    let late = spoiled.len() - 2;
    let begun = match class {
        Class::BadFirst => begun_so(rng, &spoiled, |edge| edge == 0),
        Class::BadMiddle => begun_so(rng, &spoiled, |edge| 0 < edge && edge < late),
        Class::BadLast => begun_so(rng, &spoiled, |edge| edge == late),
        _ => begun_so(rng, &spoiled, |_| true),
    };
    begun.map(|corners| scattered(rng, &corners))
}

fn bad_outline(rng: &mut Rng, class: Class) -> Vec<Point> {
    loop {
        if let Some(corners) = try_bad_outline(rng, class) {
            return corners;
        }
    }
}

/// A move with an outline that is not strict, or two.
pub fn bad_move(rng: &mut Rng, class: Class) -> Move {
    let beside = rng.pick(&[Class::Touching, Class::Still, Class::Full, Class::Instant]);
    let mut m = sound_move(rng, beside);
    if class != Class::BadBoth {
        let outline = if rng.one_in(2) { &mut m.a } else { &mut m.b };
        *outline = bad_outline(rng, class);
        return m;
    }
    while loose_edges(&m.a).first() == loose_edges(&m.b).first() {
        let one_place = [Class::BadFirst, Class::BadMiddle, Class::BadLast];
        let (for_a, for_b) = (rng.pick(&one_place), rng.pick(&one_place));
        m.a = bad_outline(rng, for_a);
        m.b = bad_outline(rng, for_b);
    }
    m
}

// ---------------------------------------------------------------------------
// Lines that are not a move

pub fn just_outside(rng: &mut Rng) -> i128 {
    rng.pick(&[
        REACH + 1,
        -REACH - 1,
        REACH + 1,
        -REACH - 1,
        32_767,
        -32_768,
    ])
}

pub fn put_coordinate(rng: &mut Rng, p: &mut Point, value: i128) {
    if rng.one_in(2) {
        p.x = value;
    } else {
        p.y = value;
    }
}

pub fn limit_outside(rng: &mut Rng, m: &mut Move) {
    m.limit = rng.pick(&[REACH + 1, REACH + 1, 32_768, 65_535]);
}

pub fn speed_outside(rng: &mut Rng, m: &mut Move) {
    let value = just_outside(rng);
    let velocity = if rng.one_in(2) {
        &mut m.velocity_a
    } else {
        &mut m.velocity_b
    };
    put_coordinate(rng, velocity, value);
}

pub fn place_outside(rng: &mut Rng, m: &mut Move) {
    let value = just_outside(rng);
    let corners = if rng.one_in(2) { &mut m.a } else { &mut m.b };
    let i = rng.index(corners.len());
    put_coordinate(rng, &mut corners[i], value);
}

/// A byte that may stand in a line but is no digit.
pub fn no_digit(rng: &mut Rng) -> u8 {
    loop {
        let byte = rng.range(0, 255) as u8;
        if byte != b'\n' && !matches!(byte, b'0'..=b'9' | b'a'..=b'f') {
            return byte;
        }
    }
}

pub fn any_digits(rng: &mut Rng, count: usize) -> Vec<u8> {
    (0..count).map(|_| rng.pick(b"0123456789abcdef")).collect()
}

pub fn damaged(rng: &mut Rng) -> Vec<u8> {
    let class = rng.pick(&[Class::Touching, Class::Full, Class::Contained]);
    let mut m = sound_move(rng, class);
    let mut line = write_move(&m);
    match rng.index(22) {
        0 => {
            line.pop();
        }
        1 => line.push(b'0'),
        2 => {
            let letters: Vec<usize> = (0..line.len())
                .filter(|&i| line[i].is_ascii_lowercase())
                .collect();
            match letters.is_empty() {
                true => line[0] = b'A',
                false => line[rng.pick(&letters)].make_ascii_uppercase(),
            }
        }
        3 => line.push(b'\r'),
        4 => {
            let i = rng.index(line.len());
            line[i] = no_digit(rng);
        }
        5 => {
            // Too long, if only by one digit or one byte.
            let length = match rng.index(4) {
                0 => MOST_DIGITS + 1,
                1 => MOST_DIGITS + 2,
                _ => rng.size(MOST_DIGITS as i128 + 2, 5000) as usize,
            };
            line.resize(length, b'0');
        }
        6 => {
            let extra = 2 * rng.range(1, 4) as usize;
            line.extend(any_digits(rng, extra));
        }
        7 => {
            let bytes = rng.index(line.len() / 2);
            line.truncate(2 * bytes);
        }
        8 => line.clear(),
        9 => {
            let kind = rng.pick(&[b"00", b"02", b"81", b"ff", b"10"]);
            line[..2].copy_from_slice(kind);
        }
        10 | 11 => {
            // A count that does not go with the length.
            let at = rng.pick(&[2, 4]);
            let count = rng.pick(&[b"02", b"11", b"00", b"ff", b"03", b"10"]);
            line[at..at + 2].copy_from_slice(count);
        }
        12 | 13 => {
            // A count just outside that does go with the length.
            let count = if rng.one_in(2) { 2 } else { 17 };
            let list: Vec<Point> = (0..count).map(|_| rng.within(REACH)).collect();
            if rng.one_in(2) {
                m.a = list;
            } else {
                m.b = list;
            }
            line = write_move(&m);
        }
        14 => {
            limit_outside(rng, &mut m);
            line = write_move(&m);
        }
        15 => {
            speed_outside(rng, &mut m);
            line = write_move(&m);
        }
        16 => {
            place_outside(rng, &mut m);
            line = write_move(&m);
        }
        17 | 18 => {
            // Several faults at once: the first in the list is to be named.
            if rng.one_in(4) {
                limit_outside(rng, &mut m);
            }
            if rng.one_in(3) {
                speed_outside(rng, &mut m);
            }
            if rng.one_in(2) {
                place_outside(rng, &mut m);
            }
            m.a = spoiled(rng, &m.a);
            m.b = spoiled(rng, &m.b);
            line = write_move(&m);
            if rng.one_in(4) {
                line[1] = b'7';
            }
            if rng.one_in(4) {
                line[2] = b'7';
            }
            if rng.one_in(4) {
                let last = line.len() - 1;
                line[last] = no_digit(rng);
            }
        }
        19 => {
            // Not damaged: every number at the very end of its range.
            let mut end = || rng.pick(&[-REACH, REACH]);
            m.velocity_a = point(end(), end());
            m.velocity_b = point(end(), end());
            m.limit = REACH;
            let block = [(-1, -1), (1, -1), (1, 1), (-1, 1)];
            m.a = block
                .iter()
                .map(|&(x, y)| point(x, y).times(REACH))
                .collect();
            line = write_move(&m);
        }
        20 => {
            // Any digits at all after a sound beginning.
            let length = 2 * rng.range(0, 140) as usize;
            line.truncate(rng.pick(&[2, 4, 6, 10]));
            line.extend(any_digits(rng, length));
            line.truncate(MOST_DIGITS);
        }
        _ => {
            let length = rng.range(1, 300) as usize;
            let mut any = || match rng.range(0, 255) as u8 {
                b'\n' => b'0',
                byte => byte,
            };
            line = (0..length).map(|_| any()).collect();
        }
    }
    line
}
