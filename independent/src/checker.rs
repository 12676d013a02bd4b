//! The outline test and the verdict, written from the papers in their order.
//!
//! Nothing here is tuned. Every quantity is an `i128`, so no step needs an
//! argument about overflow; every time is reduced at once; every side is
//! worked even where an earlier one has already settled the answer. That
//! makes it a fair thing to compare a more careful program with.

use std::cmp::Ordering;

#[derive(Clone, Copy, Debug, PartialEq, Eq)]
pub struct Point {
    pub x: i128,
    pub y: i128,
}

pub const fn point(x: i128, y: i128) -> Point {
    Point { x, y }
}

impl Point {
    pub fn plus(self, other: Point) -> Point {
        point(self.x + other.x, self.y + other.y)
    }

    pub fn minus(self, other: Point) -> Point {
        point(self.x - other.x, self.y - other.y)
    }

    pub fn times(self, factor: i128) -> Point {
        point(self.x * factor, self.y * factor)
    }

    pub fn dot(self, other: Point) -> i128 {
        self.x * other.x + self.y * other.y
    }

    pub fn cross(self, other: Point) -> i128 {
        self.x * other.y - self.y * other.x
    }
}

/// A move as handed in: two outlines, their velocities and the limit T.
#[derive(Clone, Debug, PartialEq, Eq)]
pub struct Move {
    pub limit: i128,
    pub velocity_a: Point,
    pub velocity_b: Point,
    pub a: Vec<Point>,
    pub b: Vec<Point>,
}

/// A fraction in lowest terms with a denominator of at least 1.
#[derive(Clone, Copy, Debug, PartialEq, Eq)]
pub struct Fraction {
    pub n: i128,
    pub d: i128,
}

fn gcd(a: i128, b: i128) -> i128 {
    if b == 0 {
        a.abs()
    } else {
        gcd(b, a % b)
    }
}

impl Fraction {
    /// `d` must not be zero; its sign moves to the numerator.
    pub fn new(n: i128, d: i128) -> Fraction {
        let g = gcd(n, d) * d.signum();
        Fraction { n: n / g, d: d / g }
    }

    pub fn whole(n: i128) -> Fraction {
        Fraction { n, d: 1 }
    }
}

impl Ord for Fraction {
    fn cmp(&self, other: &Fraction) -> Ordering {
        (self.n * other.d).cmp(&(other.n * self.d))
    }
}

impl PartialOrd for Fraction {
    fn partial_cmp(&self, other: &Fraction) -> Option<Ordering> {
        Some(self.cmp(other))
    }
}

/// The times at which the two projections on one side share a value.
#[derive(Clone, Copy, Debug, PartialEq, Eq)]
pub struct Span {
    pub begin: Fraction,
    pub end: Fraction,
}

#[derive(Clone, Copy, Debug, PartialEq, Eq)]
pub enum Showing {
    CornerOfA(usize),
    CornerOfB(usize),
    Edges(usize, usize),
}

#[derive(Clone, Copy, Debug, PartialEq, Eq)]
pub enum Verdict {
    ClearByOne(usize),
    ClearByTwo(usize, usize),
    Contact {
        first: Fraction,
        last: Fraction,
        bearing: Option<usize>,
        showing: Showing,
    },
}

/// The two ends of edge `i`; the last corner is followed by corner 0.
pub fn edge(outline: &[Point], i: usize) -> (Point, Point) {
    (outline[i], outline[(i + 1) % outline.len()])
}

/// Whether the corner is to the right of the line of edge `i`. To the right of
/// an edge without length there is nothing.
pub fn is_right_of(outline: &[Point], i: usize, corner: Point) -> bool {
    let (start, stop) = edge(outline, i);
    stop.minus(start).cross(corner.minus(start)) < 0
}

/// Whether all corners lie on one line, or at one place.
pub fn lie_on_one_line(outline: &[Point]) -> bool {
    let start = outline[0];
    match outline.iter().find(|corner| **corner != start) {
        None => true,
        Some(other) => {
            let step = other.minus(start);
            outline.iter().all(|c| step.cross(c.minus(start)) == 0)
        }
    }
}

/// All corners differ, not all lie on one line, and no corner lies to the right
/// of any edge's line (request Q-8). So corners may stand along an edge, in their
/// order. Left turns alone would let a star through.
pub fn is_sound(outline: &[Point]) -> bool {
    let all = 0..outline.len();
    let differs = |i: usize| all.clone().all(|k| k == i || outline[k] != outline[i]);
    let is_clear = |i: usize| !outline.iter().any(|c| is_right_of(outline, i, *c));
    all.clone().all(differs) && !lie_on_one_line(outline) && all.clone().all(is_clear)
}

/// Whether some corner is to the right of edge `i`, or another corner is at the
/// place at which it starts.
pub fn is_bad_edge(outline: &[Point], i: usize) -> bool {
    let mut all = 0..outline.len();
    all.any(|k| is_right_of(outline, i, outline[k]) || (k != i && outline[k] == outline[i]))
}

/// The edge that a refusal names (requests ): edge 0 if all corners
/// are on one line, else the lowest bad edge. A sound outline has none.
pub fn edge_named(outline: &[Point]) -> Option<usize> {
    match lie_on_one_line(outline) {
        true => Some(0),
        false => (0..outline.len()).find(|&i| is_bad_edge(outline, i)),
    }
}

/// The directions of all sides: A's edges in order, then B's.
pub fn directions(m: &Move) -> Vec<Point> {
    let of = |outline: &[Point], i: usize| {
        let (start, stop) = edge(outline, i);
        let step = stop.minus(start);
        point(step.y, -step.x)
    };
    let mut all: Vec<Point> = (0..m.a.len()).map(|i| of(&m.a, i)).collect();
    all.extend((0..m.b.len()).map(|i| of(&m.b, i)));
    all
}

/// Least and greatest dot product of the direction with the corners.
pub fn interval(outline: &[Point], direction: Point) -> (i128, i128) {
    let products = outline.iter().map(|corner| direction.dot(*corner));
    products.fold((i128::MAX, i128::MIN), |(low, high), p| {
        (low.min(p), high.max(p))
    })
}

/// Keeps the times s of a span with `rate * s <= room`.
fn keep(span: Span, rate: i128, room: i128) -> Option<Span> {
    let mut kept = span;
    match rate.cmp(&0) {
        Ordering::Equal if room < 0 => return None,
        Ordering::Equal => {}
        Ordering::Greater => kept.end = kept.end.min(Fraction::new(room, rate)),
        Ordering::Less => kept.begin = kept.begin.max(Fraction::new(room, rate)),
    }
    if kept.begin <= kept.end {
        Some(kept)
    } else {
        None
    }
}

/// The times from zero to the limit at which two closed intervals, each moving
/// at its speed, share a value: exactly when neither starts above the other's
/// end. Each of these two conditions is linear in the time.
pub fn shared_times(
    limit: i128,
    (low_a, high_a): (i128, i128),
    speed_a: i128,
    (low_b, high_b): (i128, i128),
    speed_b: i128,
) -> Option<Span> {
    let whole = Span {
        begin: Fraction::whole(0),
        end: Fraction::whole(limit),
    };
    keep(whole, speed_a - speed_b, high_b - low_a)
        .and_then(|rest| keep(rest, speed_b - speed_a, high_a - low_b))
}

/// The span of a side with this direction.
pub fn span(m: &Move, direction: Point) -> Option<Span> {
    shared_times(
        m.limit,
        interval(&m.a, direction),
        direction.dot(m.velocity_a),
        interval(&m.b, direction),
        direction.dot(m.velocity_b),
    )
}

/// The sides, in order, on which the two projections at time zero share
/// exactly one value: the greater of the lows is the lesser of the highs.
pub fn touched_at_zero(m: &Move) -> Vec<usize> {
    let shares_one = |direction: Point| {
        let (low_a, high_a) = interval(&m.a, direction);
        let (low_b, high_b) = interval(&m.b, direction);
        low_a.max(low_b) == high_a.min(high_b)
    };
    let all = directions(m);
    (0..all.len()).filter(|&k| shares_one(all[k])).collect()
}

/// The corners moved to a time n/d, all multiplied by d to stay whole.
pub fn moved(outline: &[Point], velocity: Point, time: Fraction) -> Vec<Point> {
    outline
        .iter()
        .map(|corner| corner.times(time.d).plus(velocity.times(time.n)))
        .collect()
}

pub fn inside_or_on(outline: &[Point], p: Point) -> bool {
    (0..outline.len()).all(|i| {
        let (start, stop) = edge(outline, i);
        stop.minus(start).cross(p.minus(start)) >= 0
    })
}

/// Whether two closed edges share a point.
///
/// Either each has its ends strictly on both sides of the other, or an end of
/// one lies on the other: in line with it and within its box. The second
/// half also settles two edges on one line, which share a point only if an
/// end of one lies on the other.
pub fn edges_meet(p: (Point, Point), q: (Point, Point)) -> bool {
    let side = |e: (Point, Point), r: Point| e.1.minus(e.0).cross(r.minus(e.0)).signum();
    let within_box = |e: (Point, Point), r: Point| {
        e.0.x.min(e.1.x) <= r.x
            && r.x <= e.0.x.max(e.1.x)
            && e.0.y.min(e.1.y) <= r.y
            && r.y <= e.0.y.max(e.1.y)
    };
    let lies_on = |e: (Point, Point), r: Point| side(e, r) == 0 && within_box(e, r);
    let crosses = side(p, q.0) * side(p, q.1) < 0 && side(q, p.0) * side(q, p.1) < 0;
    crosses || lies_on(p, q.0) || lies_on(p, q.1) || lies_on(q, p.0) || lies_on(q, p.1)
}

/// The first of the three kinds of showing that holds at a time, if any.
pub fn showing_at(m: &Move, time: Fraction) -> Option<Showing> {
    let a = moved(&m.a, m.velocity_a, time);
    let b = moved(&m.b, m.velocity_b, time);
    if let Some(i) = (0..a.len()).find(|&i| inside_or_on(&b, a[i])) {
        return Some(Showing::CornerOfA(i));
    }
    if let Some(j) = (0..b.len()).find(|&j| inside_or_on(&a, b[j])) {
        return Some(Showing::CornerOfB(j));
    }
    (0..a.len())
        .flat_map(|i| (0..b.len()).map(move |j| (i, j)))
        .find(|&(i, j)| edges_meet(edge(&a, i), edge(&b, j)))
        .map(|(i, j)| Showing::Edges(i, j))
}

/// The verdict on a move whose outlines are sound.
pub fn verdict(m: &Move) -> Verdict {
    let spans: Vec<Option<Span>> = directions(m).into_iter().map(|d| span(m, d)).collect();

    if let Some(side) = spans.iter().position(|s| s.is_none()) {
        return Verdict::ClearByOne(side);
    }
    let spans: Vec<Span> = spans.into_iter().flatten().collect();

    let first = spans
        .iter()
        .map(|s| s.begin)
        .max()
        .expect("outlines have sides");
    let last = spans
        .iter()
        .map(|s| s.end)
        .min()
        .expect("outlines have sides");
    let latest = spans.iter().position(|s| s.begin == first).unwrap();
    let soonest = spans.iter().position(|s| s.end == last).unwrap();
    if first > last {
        return Verdict::ClearByTwo(latest, soonest);
    }

    Verdict::Contact {
        first,
        last,
        bearing: if first.n > 0 {
            Some(latest)
        } else {
            touched_at_zero(m).first().copied()
        },
        showing: showing_at(m, first).expect("outlines in contact show it"),
    }
}
