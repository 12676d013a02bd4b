//! Upright rectangles (request Q-5): moves of kind 02, read, written, and
//! answered from two spans, x and y. The answer does not go by way of the four
//! corners, so that it can be compared with the one that does.

use super::checker::{point, shared_times, Fraction, Move, Point, Showing, Span, Verdict};
use super::frame::{hex, in_reach, Refusal, REACH};

#[derive(Clone, Copy, Debug, PartialEq, Eq)]
pub struct Rectangle {
    pub low: Point,
    pub high: Point,
}

/// A move of kind 02.
#[derive(Clone, Copy, Debug, PartialEq, Eq)]
pub struct RectangleMove {
    pub limit: i128,
    pub velocity_a: Point,
    pub velocity_b: Point,
    pub a: Rectangle,
    pub b: Rectangle,
}

impl Rectangle {
    /// From low-low counterclockwise.
    pub fn corners(self) -> [Point; 4] {
        let (low, high) = (self.low, self.high);
        [low, point(high.x, low.y), high, point(low.x, high.y)]
    }

    /// Each edge is a rectangle too, without a height or without a width; its
    /// ends may stand in either order.
    fn edges(self) -> [Rectangle; 4] {
        let corners = self.corners();
        [0, 1, 2, 3].map(|i| {
            let (p, q) = (corners[i], corners[(i + 1) % 4]);
            Rectangle {
                low: point(p.x.min(q.x), p.y.min(q.y)),
                high: point(p.x.max(q.x), p.y.max(q.y)),
            }
        })
    }

    pub fn is_sound(self) -> bool {
        self.low.x < self.high.x && self.low.y < self.high.y
    }

    fn shares_a_point(self, other: Rectangle) -> bool {
        let (low, high) = (self.low, self.high);
        low.x <= other.high.x
            && other.low.x <= high.x
            && low.y <= other.high.y
            && other.low.y <= high.y
    }

    fn holds(self, p: Point) -> bool {
        self.shares_a_point(Rectangle { low: p, high: p })
    }

    /// Moved to a time n/d, all multiplied by d to stay whole.
    fn moved(self, velocity: Point, time: Fraction) -> Rectangle {
        let to = |p: Point| p.times(time.d).plus(velocity.times(time.n));
        Rectangle {
            low: to(self.low),
            high: to(self.high),
        }
    }
}

// ---------------------------------------------------------------------------
// The verdict

/// One of the two coordinates of a point.
type Axis = fn(Point) -> i128;

/// Edges 0 and 2 run along x, which makes y the direction of their sides;
/// edges 1 and 3 the other way round. So y has the sides 0, 2, 4 and 6, x has
/// 1, 3, 5 and 7, and the lowest of each is its place here.
const AXES: [Axis; 2] = [|p| p.y, |p| p.x];

fn span(m: &RectangleMove, axis: Axis) -> Option<Span> {
    let interval = |r: Rectangle| (axis(r.low), axis(r.high));
    let (speed_a, speed_b) = (axis(m.velocity_a), axis(m.velocity_b));
    shared_times(m.limit, interval(m.a), speed_a, interval(m.b), speed_b)
}

/// Whether the two share exactly one value at time zero.
fn touches_at_zero(m: &RectangleMove, axis: Axis) -> bool {
    axis(m.a.low) == axis(m.b.high) || axis(m.b.low) == axis(m.a.high)
}

/// The first of the three kinds of showing that holds at a time, if any.
fn showing_at(m: &RectangleMove, time: Fraction) -> Option<Showing> {
    let a = m.a.moved(m.velocity_a, time);
    let b = m.b.moved(m.velocity_b, time);
    let of_a = a.corners().iter().position(|p| b.holds(*p));
    let of_b = b.corners().iter().position(|p| a.holds(*p));
    match (of_a, of_b) {
        (Some(i), _) => return Some(Showing::CornerOfA(i)),
        (None, Some(j)) => return Some(Showing::CornerOfB(j)),
        (None, None) => {}
    }
    let (of_a, of_b) = (a.edges(), b.edges());
    (0..4)
        .flat_map(|i| (0..4).map(move |j| (i, j)))
        .find(|&(i, j)| of_a[i].shares_a_point(of_b[j]))
        .map(|(i, j)| Showing::Edges(i, j))
}

/// The verdict on a move whose rectangles are sound.
pub fn verdict(m: &RectangleMove) -> Verdict {
    let (y, x) = match AXES.map(|axis| span(m, axis)) {
        [Some(y), Some(x)] => (y, x),
        [None, _] => return Verdict::ClearByOne(0),
        [_, None] => return Verdict::ClearByOne(1),
    };
    let (first, last) = (y.begin.max(x.begin), y.end.min(x.end));
    let latest = if y.begin == first { 0 } else { 1 };
    let soonest = if y.end == last { 0 } else { 1 };
    if first > last {
        return Verdict::ClearByTwo(latest, soonest);
    }
    Verdict::Contact {
        first,
        last,
        bearing: if first.n > 0 {
            Some(latest)
        } else {
            AXES.iter().position(|axis| touches_at_zero(m, *axis))
        },
        showing: showing_at(m, first).expect("rectangles in contact show it"),
    }
}

/// Whether both spans begin at one time.
pub fn begin_together(m: &RectangleMove) -> bool {
    let [y, x] = AXES.map(|axis| span(m, axis).map(|span| span.begin));
    y.is_some() && y == x
}

/// The move of kind 01 that has to have the same verdict.
pub fn four_corners(m: &RectangleMove) -> Move {
    Move {
        limit: m.limit,
        velocity_a: m.velocity_a,
        velocity_b: m.velocity_b,
        a: m.a.corners().to_vec(),
        b: m.b.corners().to_vec(),
    }
}

// ---------------------------------------------------------------------------
// The frame

pub const BYTES: usize = 27;

/// Reads a frame whose first byte is 02.
pub fn read_frame(frame: &[u8]) -> Result<RectangleMove, Refusal> {
    if frame.len() != BYTES {
        return Err(Refusal::Count);
    }
    let signed = |at: usize| i16::from_be_bytes([frame[at], frame[at + 1]]) as i128;
    let pair = |at: usize| point(signed(at), signed(at + 2));
    let rectangle = |at: usize| Rectangle {
        low: pair(at),
        high: pair(at + 4),
    };
    let m = RectangleMove {
        limit: u16::from_be_bytes([frame[1], frame[2]]) as i128,
        velocity_a: pair(3),
        velocity_b: pair(7),
        a: rectangle(11),
        b: rectangle(19),
    };
    match refusal(&m) {
        Some(refusal) => Err(refusal),
        None => Ok(m),
    }
}

/// The first of 5 to 9 that applies. No edge of a rectangle is worse than
/// another, so that 8 and 9 have 0 for it.
pub fn refusal(m: &RectangleMove) -> Option<Refusal> {
    let in_order = [
        (Refusal::Limit, (0..=REACH).contains(&m.limit)),
        (
            Refusal::Speed,
            [m.velocity_a, m.velocity_b].into_iter().all(in_reach),
        ),
        (
            Refusal::Place,
            [m.a.low, m.a.high, m.b.low, m.b.high]
                .into_iter()
                .all(in_reach),
        ),
        (Refusal::First(0), m.a.is_sound()),
        (Refusal::Second(0), m.b.is_sound()),
    ];
    let found = in_order.into_iter().find(|(_, is_well)| !is_well);
    found.map(|(refusal, _)| refusal)
}

/// Writes the line as it stands, and checks nothing.
pub fn write(m: &RectangleMove) -> Vec<u8> {
    let mut frame = vec![0x02];
    frame.extend((m.limit as u16).to_be_bytes());
    let corners = [m.a.low, m.a.high, m.b.low, m.b.high];
    for p in [m.velocity_a, m.velocity_b].into_iter().chain(corners) {
        frame.extend((p.x as i16).to_be_bytes());
        frame.extend((p.y as i16).to_be_bytes());
    }
    hex(&frame)
}
