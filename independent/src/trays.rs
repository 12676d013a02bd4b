//! Seeded lines of kind 02 (request Q-5): two upright rectangles, of classes of
//! their own, and mixed with lines of kind 01. As in generate.rs a line depends
//! on the seed, its place and its class alone.

use super::checker::{point, Point};
use super::frame::{hex, MOST_DIGITS, REACH};
use super::generate::{
    self, any_digits, any_limit, full_speed, just_outside, no_digit, put_coordinate, put_together,
    Class as MoveClass, Rng,
};
use super::rectangle::{write, Rectangle, RectangleMove, BYTES};

#[derive(Clone, Copy, Debug, PartialEq, Eq)]
pub enum Class {
    /// In touch at time zero along an edge of each, or a hair off.
    ByEdges,
    /// In touch at time zero corner to corner, or a hair off.
    ByCorners,
    /// One in the other, mostly against it from the inside; or the same twice.
    InOther,
    /// Across one another as P11, either of them upright; some with an end flush.
    Crosswise,
    /// B comes in along one axis at a time that is mostly a fraction.
    Arriving,
    /// Both spans begin at one time above zero, as in P8.
    Together,
    /// The one span ends where the other begins, or just before.
    Passing,
    /// The limit is the first contact or the whole time before it.
    AtLimit,
    /// Equal velocities.
    Standing,
    /// The limit is zero.
    NoTime,
    /// Numbers over their full range.
    Wide,
    /// Low is not below high: equal to it or above, in x, in y or in both.
    NotBelow,
    /// A limit, a speed or a place out of range.
    OutOfRange,
    /// Another first byte than 02.
    OtherKind,
    /// Another length than 27 bytes.
    OtherLength,
    /// No text of whole bytes, or one that is too long.
    NoDigits,
    /// Several faults at once: the first in the list is to be named.
    Faults,
    /// A line of kind 01.
    Outlines(MoveClass),
}

pub type Set = &'static [(Class, &'static str)];

pub const TRAYS: Set = &[
    (Class::ByEdges, "by-edges"),
    (Class::ByCorners, "by-corners"),
    (Class::InOther, "in-other"),
    (Class::Crosswise, "crosswise"),
    (Class::Arriving, "arriving"),
    (Class::Together, "together"),
    (Class::Passing, "passing"),
    (Class::AtLimit, "at-limit"),
    (Class::Standing, "standing"),
    (Class::NoTime, "no-time"),
    (Class::Wide, "wide"),
    (Class::NotBelow, "not-below"),
    (Class::OutOfRange, "out-of-range"),
    (Class::OtherKind, "other-kind"),
    (Class::OtherLength, "other-length"),
    (Class::NoDigits, "no-digits"),
    (Class::Faults, "faults"),
];

/// How many of them, from the first on, are not refused.
pub const ACCEPTED: usize = 11;

/// Lines of both kinds by turns.
pub const MIXED: Set = &[
    (Class::ByEdges, "by-edges"),
    (Class::Outlines(MoveClass::Touching), "mixed-touching"),
    (Class::Passing, "passing"),
    (Class::Outlines(MoveClass::Several), "mixed-several"),
    (Class::Crosswise, "crosswise"),
    (Class::Outlines(MoveClass::Full), "mixed-full"),
    (Class::Wide, "wide"),
    (Class::Outlines(MoveClass::Damaged), "mixed-damaged"),
    (Class::NotBelow, "not-below"),
    (Class::Outlines(MoveClass::BadFirst), "mixed-bad-first"),
    (Class::OtherKind, "other-kind"),
    (Class::OtherLength, "other-length"),
];

pub const SETS: [(&str, Set); 3] = [
    ("Q-5", TRAYS),
    ("Q-5-accepted", TRAYS.split_at(ACCEPTED).0),
    ("Q-5-mixed", MIXED),
];

pub fn set_named(name: &str) -> Option<Set> {
    SETS.iter().find(|(n, _)| *n == name).map(|(_, set)| *set)
}

/// The class of this name as a set of its own.
pub fn class_named(name: &str) -> Option<Set> {
    let all = SETS.iter().flat_map(|(_, set)| set.chunks(1));
    all.into_iter().find(|one| one[0].1 == name)
}

/// The class of a line of a set: each in its turn.
pub fn class_of_place(set: Set, place: u64) -> Class {
    set[(place % set.len() as u64) as usize].0
}

/// The line of a class at a place, without its 0a and with none in it.
pub fn line(seed: u64, place: u64, class: Class) -> Vec<u8> {
    let mut rng = Rng::for_line(seed, place);
    let rng = &mut rng;
    match class {
        Class::Outlines(class) => generate::line(seed, place, class),
        Class::NotBelow => write(&not_below(rng)),
        Class::OutOfRange => write(&out_of_range(rng)),
        Class::OtherKind => other_kind(rng),
        Class::OtherLength => other_length(rng),
        Class::NoDigits => no_digits(rng),
        Class::Faults => faults(rng),
        _ => write(&sound_move(rng, class)),
    }
}

/// A move of one of the classes that are not refused.
pub fn sound_move(rng: &mut Rng, class: Class) -> RectangleMove {
    // An attempt fails when what it laid out does not fit the range.
    loop {
        let attempt = match class {
            Class::ByEdges => laid(rng, by_edges),
            Class::ByCorners => laid(rng, by_corners),
            Class::InOther => laid(rng, in_other),
            Class::Crosswise => laid(rng, crosswise),
            Class::Arriving => arriving(rng),
            Class::Together => together(rng),
            Class::Passing => passing(rng),
            Class::AtLimit => at_limit(rng),
            Class::Standing => standing(rng),
            Class::NoTime => no_time(rng),
            Class::Wide => Some(wide(rng)),
            _ => panic!("{class:?} is not a class of sound moves"),
        };
        if let Some(m) = attempt {
            return m;
        }
    }
}

// ---------------------------------------------------------------------------
// Putting a move together

/// The rectangle of some width and height, from a corner on.
fn from(low: Point, width: i128, height: i128) -> Rectangle {
    Rectangle {
        low,
        high: low.plus(point(width, height)),
    }
}

fn shifted(r: Rectangle, by: Point) -> Rectangle {
    Rectangle {
        low: r.low.plus(by),
        high: r.high.plus(by),
    }
}

/// One of the eight ways to lay out the same: x and y exchanged or not, and
/// either turned round.
struct Turn {
    exchanged: bool,
    sign: Point,
}

impl Turn {
    fn any(rng: &mut Rng) -> Turn {
        Turn {
            exchanged: rng.one_in(2),
            sign: point(rng.pick(&[-1, 1]), rng.pick(&[-1, 1])),
        }
    }

    fn point(&self, p: Point) -> Point {
        let p = if self.exchanged { point(p.y, p.x) } else { p };
        point(self.sign.x * p.x, self.sign.y * p.y)
    }

    fn rectangle(&self, r: Rectangle) -> Rectangle {
        let (p, q) = (self.point(r.low), self.point(r.high));
        Rectangle {
            low: point(p.x.min(q.x), p.y.min(q.y)),
            high: point(p.x.max(q.x), p.y.max(q.y)),
        }
    }
}

/// A move in which B moves with velocity `w` as seen from A: turned, shifted
/// into range, with a velocity in common, and with names exchanged half the
/// time. `None` if it does not fit.
fn put(rng: &mut Rng, (a, b): Layout, w: Point, limit: i128) -> Option<RectangleMove> {
    let turn = Turn::any(rng);
    let (a, b) = (turn.rectangle(a), turn.rectangle(b));
    let m = put_together(rng, &a.corners(), &b.corners(), turn.point(w), limit)?;
    let kept = |corners: &[Point]| Rectangle {
        low: corners[0],
        high: corners[2],
    };
    Some(RectangleMove {
        limit: m.limit,
        velocity_a: m.velocity_a,
        velocity_b: m.velocity_b,
        a: kept(&m.a),
        b: kept(&m.b),
    })
}

/// At rest, along an axis, or any way, slow or fast.
fn any_way(rng: &mut Rng) -> Point {
    let speed = rng.size(1, 2 * REACH);
    match rng.index(6) {
        0 | 1 => point(0, 0),
        2 => point(rng.range(-speed, speed), 0),
        3 => point(0, rng.range(-speed, speed)),
        4 => rng.within(3),
        _ => rng.within(speed),
    }
}

type Layout = (Rectangle, Rectangle);

/// As laid out at time zero, or a hair off.
fn at_zero(rng: &mut Rng, (a, b): Layout, w: Point) -> Option<RectangleMove> {
    let hair = if rng.one_in(8) {
        rng.nonzero_within(1)
    } else {
        point(0, 0)
    };
    let limit = any_limit(rng);
    put(rng, (a, shifted(b, hair)), w, limit)
}

fn laid(rng: &mut Rng, out: impl Fn(&mut Rng) -> Layout) -> Option<RectangleMove> {
    let layout = out(rng);
    let w = any_way(rng);
    at_zero(rng, layout, w)
}

// ---------------------------------------------------------------------------
// How the rectangles lie

/// B to the right of A, both of some size; B as high up as `up` says of their
/// heights.
fn beside(rng: &mut Rng, up: impl Fn(&mut Rng, i128, i128) -> i128) -> Layout {
    let size = rng.size(1, 6000);
    let mut side = || rng.size(1, size);
    let (width, height, other_width, other_height) = (side(), side(), side(), side());
    let other_height = if rng.one_in(6) { height } else { other_height };
    let low = point(width, up(rng, height, other_height));
    let a = from(point(0, 0), width, height);
    (a, from(low, other_width, other_height))
}

/// Along some length of an edge of each: often both from one height on, up to
/// one height, or the one within the other's length.
fn by_edges(rng: &mut Rng) -> Layout {
    beside(rng, |rng, height, other| match rng.index(5) {
        0 => 0,
        1 => height - other,
        2 => rng.range(0.min(height - other), 0.max(height - other)),
        _ => rng.range(1 - other, height - 1),
    })
}

fn by_corners(rng: &mut Rng) -> Layout {
    beside(rng, |_, height, _| height)
}

fn in_other(rng: &mut Rng) -> Layout {
    let size = rng.size(1, 2 * REACH);
    let (width, height) = (rng.size(1, size), rng.size(1, size));
    let mut part = |whole: i128| {
        let length = match rng.index(3) {
            0 => whole,
            _ => rng.range(1, whole),
        };
        let room = whole - length;
        let any = rng.range(0, room);
        (rng.pick(&[0, room, any, any]), length)
    };
    let ((x, other_width), (y, other_height)) = (part(width), part(height));
    let a = from(point(0, 0), width, height);
    (a, from(point(x, y), other_width, other_height))
}

/// A lies along x and B stands on it. They stick out on both sides, or are
/// flush at some end.
fn crosswise(rng: &mut Rng) -> Layout {
    let size = rng.size(1, 2000);
    let mut side = || rng.size(1, size);
    let (thick, other_thick) = (side(), side());
    let (left, right, down, up) = (side(), side(), side(), side());
    let mut out = |by: i128| if rng.one_in(16) { 0 } else { by };
    let (left, right, down, up) = (out(left), out(right), out(down), out(up));
    let a = from(point(-left, 0), left + other_thick + right, thick);
    (a, from(point(0, -down), other_thick, down + thick + up))
}

// ---------------------------------------------------------------------------
// Coming in

/// B is some way to the right and comes left. About when it arrives it is
/// beside A, so that they meet, or just above or below.
fn arriving(rng: &mut Rng) -> Option<RectangleMove> {
    let (a, b) = by_edges(rng);
    let gap = rng.size(1, 8000);
    let speed = rng.size(1, 8000);
    let rise = rng.range(-speed, speed);
    let hair = if rng.one_in(4) { rng.range(-2, 2) } else { 0 };
    let b = shifted(b, point(gap, hair - rise * gap / speed));
    let limit = match rng.index(4) {
        0 => any_limit(rng),
        1 => gap / speed + rng.range(0, 1),
        _ => rng.range((gap / speed).min(REACH), REACH),
    };
    put(rng, (a, b), point(-speed, rise), limit)
}

/// Corner to corner at a time n/d, having come in along both axes.
fn together(rng: &mut Rng) -> Option<RectangleMove> {
    let (a, b) = by_corners(rng);
    let (n, d) = (rng.size(1, 90), rng.size(1, 90));
    let (along_x, along_y) = (rng.size(1, 100), rng.size(1, 100));
    let b = shifted(b, point(along_x * n, along_y * n));
    let w = point(-along_x * d, -along_y * d);
    let limit = match rng.index(4) {
        0 => n / d + rng.range(0, 1),
        _ => any_limit(rng),
    };
    put(rng, (a, b), w, limit)
}

/// B comes down past A while it comes in from the right: about when it has
/// come across it is past below.
fn passing(rng: &mut Rng) -> Option<RectangleMove> {
    let size = rng.size(1, 1000);
    let mut side = || rng.size(1, size);
    let a = from(point(0, 0), side(), side());
    let (width, height, above) = (side(), side(), side());
    let (in_by, down_by) = (side(), side());
    // When B's upper edge comes to A's lower one it has come in by so much.
    let down = a.high.y + above + height;
    let late = [0, 0, 1, 1, 2, side()];
    let gap = in_by * down / down_by + rng.pick(&late);
    let b = from(point(a.high.x + gap, a.high.y + above), width, height);
    let limit = match rng.index(4) {
        0 => any_limit(rng),
        _ => rng.range((gap / in_by + 1).min(REACH), REACH),
    };
    put(rng, (a, b), point(-in_by, -down_by), limit)
}

fn at_limit(rng: &mut Rng) -> Option<RectangleMove> {
    let (a, b) = match rng.index(3) {
        0 => by_corners(rng),
        _ => by_edges(rng),
    };
    let speed = rng.size(1, 200);
    let time = rng.size(1, 8000 / speed);
    // In, or along the line between them, past one another.
    let w = match rng.index(3) {
        0 => point(0, rng.pick(&[-speed, speed])),
        _ => point(-speed, rng.range(-speed, speed)),
    };
    let b = shifted(b, w.times(-time));
    let limit = time + rng.pick(&[-1, 0, 0, 0, 1]);
    put(rng, (a, b), w, limit)
}

/// Any of the ways to lie, or anywhere about.
fn any_layout(rng: &mut Rng) -> Layout {
    match rng.index(5) {
        0 => by_edges(rng),
        1 => by_corners(rng),
        2 => in_other(rng),
        3 => crosswise(rng),
        _ => {
            let (a, b) = by_edges(rng);
            let size = a.high.x.max(a.high.y);
            (a, shifted(b, rng.within(size)))
        }
    }
}

fn standing(rng: &mut Rng) -> Option<RectangleMove> {
    let layout = any_layout(rng);
    at_zero(rng, layout, point(0, 0))
}

fn no_time(rng: &mut Rng) -> Option<RectangleMove> {
    let layout = any_layout(rng);
    let w = any_way(rng);
    put(rng, layout, w, 0)
}

/// Anywhere, often right against the ends of the range; B mostly aimed at A.
fn wide(rng: &mut Rng) -> RectangleMove {
    let mut ends = || loop {
        let mut one = || match rng.index(8) {
            0 => -REACH,
            1 => REACH,
            _ => rng.range(-REACH, REACH),
        };
        let (p, q) = (one(), one());
        if p != q {
            return (p.min(q), p.max(q));
        }
    };
    let mut one = || {
        let (x, y) = (ends(), ends());
        Rectangle {
            low: point(x.0, y.0),
            high: point(x.1, y.1),
        }
    };
    let (a, b) = (one(), one());
    let velocity_a = point(full_speed(rng), full_speed(rng));
    let velocity_b = if rng.one_in(3) {
        point(full_speed(rng), full_speed(rng))
    } else {
        let gap = rng.pick(&a.corners()).minus(rng.pick(&b.corners()));
        let time = rng.size(1, 2000);
        let aimed = velocity_a.plus(point(gap.x / time, gap.y / time));
        point(aimed.x.clamp(-REACH, REACH), aimed.y.clamp(-REACH, REACH))
    };
    RectangleMove {
        limit: any_limit(rng),
        velocity_a,
        velocity_b,
        a,
        b,
    }
}

// ---------------------------------------------------------------------------
// Lines to refuse

fn any_sound(rng: &mut Rng) -> RectangleMove {
    let class = rng.pick(&TRAYS[..ACCEPTED]).0;
    sound_move(rng, class)
}

fn either<'a>(rng: &mut Rng, m: &'a mut RectangleMove) -> &'a mut Rectangle {
    if rng.one_in(2) {
        &mut m.a
    } else {
        &mut m.b
    }
}

/// In x, in y or in both low becomes high, or the two change places.
fn spoil(rng: &mut Rng, r: &mut Rectangle) {
    let which = rng.pick(&[(true, false), (false, true), (true, true)]);
    let mut one = |low: &mut i128, high: &mut i128| match rng.index(3) {
        0 => *low = *high,
        1 => *high = *low,
        _ => std::mem::swap(low, high),
    };
    if which.0 {
        one(&mut r.low.x, &mut r.high.x);
    }
    if which.1 {
        one(&mut r.low.y, &mut r.high.y);
    }
}

fn not_below(rng: &mut Rng) -> RectangleMove {
    let mut m = any_sound(rng);
    match rng.index(5) {
        0 | 1 => spoil(rng, &mut m.a),
        2 | 3 => spoil(rng, &mut m.b),
        _ => {
            spoil(rng, &mut m.a);
            spoil(rng, &mut m.b);
        }
    }
    m
}

fn limit_outside(rng: &mut Rng, m: &mut RectangleMove) {
    m.limit = rng.pick(&[REACH + 1, REACH + 1, 32_768, 65_535]);
}

fn speed_outside(rng: &mut Rng, m: &mut RectangleMove) {
    let value = just_outside(rng);
    let velocity = if rng.one_in(2) {
        &mut m.velocity_a
    } else {
        &mut m.velocity_b
    };
    put_coordinate(rng, velocity, value);
}

fn place_outside(rng: &mut Rng, m: &mut RectangleMove) {
    let value = just_outside(rng);
    let rectangle = either(rng, m);
    let corner = if value < 0 {
        &mut rectangle.low
    } else {
        &mut rectangle.high
    };
    put_coordinate(rng, corner, value);
}

fn out_of_range(rng: &mut Rng) -> RectangleMove {
    let mut m = any_sound(rng);
    match rng.index(4) {
        0 => limit_outside(rng, &mut m),
        1 => speed_outside(rng, &mut m),
        2 => place_outside(rng, &mut m),
        _ => {
            let rectangle = either(rng, &mut m);
            spoil(rng, rectangle);
            if rng.one_in(2) {
                limit_outside(rng, &mut m);
            }
            if rng.one_in(2) {
                speed_outside(rng, &mut m);
            }
            place_outside(rng, &mut m);
        }
    }
    m
}

/// Most are of no kind that there is; 01 and 03 are kinds of other frames.
fn other_kind(rng: &mut Rng) -> Vec<u8> {
    let mut line = write(&any_sound(rng));
    let kind = rng.pick(&[0x00, 0x03, 0x04, 0x05, 0x12, 0x20, 0x80, 0x81, 0xff, 0x01]);
    line[..2].copy_from_slice(&hex(&[kind]));
    if rng.one_in(4) {
        // A line of another length that is refused for its kind all the same.
        line.truncate(2 * (1 + rng.index(BYTES)));
    }
    line
}

/// Cut or lengthened, by a little or down to one byte and up to as many as a
/// line may have; now and then the length that a line of kind 01 would have.
fn other_length(rng: &mut Rng) -> Vec<u8> {
    let mut line = write(&any_sound(rng));
    let bytes = match rng.index(6) {
        0 => BYTES - 1,
        1 => BYTES + 1,
        2 => rng.pick(&[1, 2, 3, 25, 29, 141]),
        3 => 13 + 4 * rng.range(6, 32) as usize,
        4 => 1 + rng.index(BYTES - 1),
        _ => rng.range(BYTES as i128 + 1, 141) as usize,
    };
    while line.len() < 2 * bytes {
        line.extend(any_digits(rng, 2));
    }
    line.truncate(2 * bytes);
    line
}

fn no_digits(rng: &mut Rng) -> Vec<u8> {
    let mut line = write(&any_sound(rng));
    let at = rng.index(line.len());
    match rng.index(8) {
        0 => {
            line.pop();
        }
        1 => line.push(b'0'),
        2 => line[at] = rng.pick(b"ABCDEF"),
        3 => line.push(b'\r'),
        4 => line[at] = no_digit(rng),
        5 => line.insert(rng.pick(&[0, 2, 54]), b' '),
        6 => line.resize(MOST_DIGITS + rng.range(1, 4) as usize, b'0'),
        _ => line.resize(rng.size(MOST_DIGITS as i128 + 1, 5000) as usize, b'0'),
    }
    line
}

fn faults(rng: &mut Rng) -> Vec<u8> {
    let mut m = not_below(rng);
    if rng.one_in(4) {
        limit_outside(rng, &mut m);
    }
    if rng.one_in(3) {
        speed_outside(rng, &mut m);
    }
    if rng.one_in(2) {
        place_outside(rng, &mut m);
    }
    let mut line = write(&m);
    if rng.one_in(4) {
        line[1] = b'7';
    }
    if rng.one_in(4) {
        let more = 2 * rng.range(1, 3) as usize;
        line.extend(any_digits(rng, more));
    }
    if rng.one_in(4) {
        let last = line.len() - 1;
        line[last] = no_digit(rng);
    }
    line
}
