//! Works out every number of docs/BY-HAND.md from its move lines, in the
//! order of the definitions. See tests/by-hand.
//!
//!     by_hand --print          the blocks of the document, in its order
//!     by_hand --lines          the move lines
//!     by_hand --answers        the answer lines
//!     by_hand --log            the lines of the log
//!     by_hand --log-answers    their answer lines
//!     by_hand --second         the move lines worked in the second edition
//!     by_hand --second-numbers the twelve numbers of their answers
//!
//! It shares no code with the program or with the independent one. What the
//! document concludes from the numbers is checked here before it is printed:
//! the weights against the definition of a common point, each statement about
//! a side against the corners at many times, the edge that is wrong against
//! what a sound outline is, the two spans of rectangles against the sides of
//! their four corners, and the spans of the second edition against the intervals
//! at many times.

use std::fmt;

/// Ends the program, so that tests/by-hand fails, unless `holds`.
fn check(holds: bool, what: &str) {
    if !holds {
        println!("by_hand: this does not hold: {what}");
        std::process::exit(1);
    }
}

// ---------------------------------------------------------------------------
// Points and times.

#[derive(Clone, Copy, PartialEq)]
struct Point(i128, i128);

impl Point {
    fn plus(self, q: Point) -> Point {
        Point(self.0 + q.0, self.1 + q.1)
    }

    fn minus(self, q: Point) -> Point {
        Point(self.0 - q.0, self.1 - q.1)
    }

    fn times(self, k: i128) -> Point {
        Point(k * self.0, k * self.1)
    }

    fn dot(self, q: Point) -> i128 {
        self.0 * q.0 + self.1 * q.1
    }

    fn cross(self, q: Point) -> i128 {
        self.0 * q.1 - self.1 * q.0
    }
}

impl fmt::Display for Point {
    fn fmt(&self, f: &mut fmt::Formatter) -> fmt::Result {
        write!(f, "({},{})", self.0, self.1)
    }
}

/// A fraction n/d, d at least 1.
#[derive(Clone, Copy, PartialEq)]
struct Time {
    n: i128,
    d: i128,
}

fn gcd(a: i128, b: i128) -> i128 {
    if b == 0 {
        a.abs()
    } else {
        gcd(b, a % b)
    }
}

impl Time {
    fn reduced(self) -> Time {
        let g = gcd(self.n, self.d);
        let (n, d) = (self.n / g, self.d / g);
        Time { n, d }
    }

    fn before(self, other: Time) -> bool {
        self.n * other.d < other.n * self.d
    }

    /// As found, and what it comes to: in lowest terms, or cut to the move.
    fn becomes(self, other: Time) -> String {
        match (self == other, self.reduced() == other) {
            (true, _) => format!("{self}"),
            (_, true) => format!("{self} = {other}"),
            _ => format!("{self} → {other}"),
        }
    }
}

impl fmt::Display for Time {
    fn fmt(&self, f: &mut fmt::Formatter) -> fmt::Result {
        write!(f, "{}/{}", self.n, self.d)
    }
}

// ---------------------------------------------------------------------------
// The move, read from its line.

struct Move {
    line: &'static str,
    frame: Vec<u8>,
    limit: i128,
    va: Point,
    vb: Point,
    a: Vec<Point>,
    b: Vec<Point>,
}

/// A move whose outlines are sound.
fn read(line: &'static str) -> Move {
    let m = read_any(line);
    check(is_sound(&m.a) && is_sound(&m.b), "both outlines are sound");
    m
}

fn read_any(line: &'static str) -> Move {
    let byte = |i: usize| u8::from_str_radix(&line[2 * i..2 * i + 2], 16);
    let frame: Result<Vec<u8>, _> = (0..line.len() / 2).map(byte).collect();
    let frame = frame.expect("two digits a byte");
    let (count_a, count_b) = (frame[1] as usize, frame[2] as usize);
    check(frame[0] == 1, "the line is a move");
    check(frame.len() == 13 + 4 * (count_a + count_b), "its length");
    let signed = |at: usize| i16::from_be_bytes([frame[at], frame[at + 1]]) as i128;
    let pair = |at: usize| Point(signed(at), signed(at + 2));
    let corners = |at: usize, count: usize| (0..count).map(|i| pair(at + 4 * i)).collect();
    Move {
        line,
        limit: frame[3] as i128 * 256 + frame[4] as i128,
        va: pair(5),
        vb: pair(9),
        a: corners(13, count_a),
        b: corners(13 + 4 * count_a, count_b),
        frame,
    }
}

fn next(outline: &[Point], i: usize) -> usize {
    (i + 1) % outline.len()
}

fn edge(outline: &[Point], i: usize) -> Point {
    outline[next(outline, i)].minus(outline[i])
}

/// The cross products of each edge with the step from its start to p.
fn crosses(outline: &[Point], p: Point) -> Vec<i128> {
    let cross = |i| edge(outline, i).cross(p.minus(outline[i]));
    (0..outline.len()).map(cross).collect()
}

/// Whether every three corners have the cross product zero.
fn on_one_line(outline: &[Point]) -> bool {
    let turn = |p: Point, q: Point, r: Point| q.minus(p).cross(r.minus(p));
    let all = || outline.iter().copied();
    all().all(|p| all().all(|q| all().all(|r| turn(p, q, r) == 0)))
}

fn is_sound(outline: &[Point]) -> bool {
    let differ = |i: usize| outline[i + 1..].iter().all(|p| *p != outline[i]);
    (0..outline.len()).all(differ)
        && !on_one_line(outline)
        && outline.iter().all(|&p| inside(outline, p))
}

/// Why an edge is wrong: all corners are on one line, or this corner is to the
/// right of the edge's line, or it equals the edge's start.
#[derive(Clone, Copy)]
enum Fault {
    OneLine,
    Right(usize),
    Same(usize),
}

/// Edge 0 where all corners are on one line, else the lowest edge that has a
/// corner to its right or whose start equals another corner.
fn wrong_edge(outline: &[Point]) -> Option<(usize, Fault)> {
    let fault = |i: usize| {
        let right = |&k: &usize| crosses(outline, outline[k])[i] < 0;
        let same = |&k: &usize| k != i && outline[k] == outline[i];
        let of_right = (0..outline.len()).find(right).map(Fault::Right);
        of_right.or_else(|| (0..outline.len()).find(same).map(Fault::Same))
    };
    let found = match on_one_line(outline) {
        true => Some((0, Fault::OneLine)),
        false => (0..outline.len()).find_map(|i| fault(i).map(|f| (i, f))),
    };
    check(
        found.is_none() == is_sound(outline),
        "sound if no edge is wrong",
    );
    found
}

/// Outlines that the document does not work, with the edge that is wrong.
fn check_wrong_edges() {
    let expect = |outline: &[(i128, i128)], edge: Option<usize>| {
        let outline: Vec<Point> = outline.iter().map(|&(x, y)| Point(x, y)).collect();
        check(wrong_edge(&outline).map(|found| found.0) == edge, "the edge that is wrong");
    };
    // Straight corners, in order and not.
    expect(&[(0, 0), (1, 0), (2, 0), (0, 2)], None);
    expect(&[(0, 0), (1, 0), (2, 0), (1, 1), (0, 2), (0, 1)], None);
    expect(&[(0, 0), (2, 0), (1, 0), (3, 0), (0, 3)], Some(1));
    expect(&[(1, 0), (3, 0), (0, 3), (0, 0), (2, 0)], Some(4));
    // A corner twice, beside and apart.
    expect(&[(0, 0), (2, 0), (2, 0), (0, 2)], Some(1));
    expect(&[(0, 0), (2, 0), (2, 2), (0, 2), (2, 0)], Some(1));
    // Twice round, where no corner is to the right of an edge.
    expect(&[(0, 0), (3, 0), (0, 3), (0, 0), (3, 0), (0, 3)], Some(0));
    // All on one line, at one place, and clockwise.
    expect(&[(0, 0), (1, 0), (2, 0)], Some(0));
    expect(&[(4, 2), (0, 0), (2, 1), (6, 3)], Some(0));
    expect(&[(7, 7), (7, 7), (7, 7)], Some(0));
    expect(&[(0, 2), (1, 2), (2, 2), (2, 0), (0, 0)], Some(0));
}

fn inside(outline: &[Point], p: Point) -> bool {
    crosses(outline, p).iter().all(|&c| c >= 0)
}

/// The corners at n/d, times d.
fn moved(outline: &[Point], v: Point, t: Time) -> Vec<Point> {
    let moved = |c: &Point| c.times(t.d).plus(v.times(t.n));
    outline.iter().map(moved).collect()
}

// ---------------------------------------------------------------------------
// The sides and their spans.

type Span = (Time, Time);

struct Side {
    of: char,
    edge: usize,
    from: Point,
    to: Point,
    direction: Point,
    /// The products of the direction with the corners: all, least, greatest.
    on_a: Vec<i128>,
    on_b: Vec<i128>,
    a: (i128, i128),
    b: (i128, i128),
    /// The products with the velocities, and their difference.
    speed_a: i128,
    speed_b: i128,
    w: i128,
    lo: i128,
    hi: i128,
    /// Where w is not 0: when s w is lo and when it is hi, the earlier first.
    uncut: Option<Span>,
    span: Option<Span>,
}

fn side(m: &Move, k: usize) -> Side {
    let (of, outline, i) = match k.checked_sub(m.a.len()) {
        None => ('A', &m.a, k),
        Some(j) => ('B', &m.b, j),
    };
    let (from, to) = (outline[i], outline[next(outline, i)]);
    let Point(x, y) = to.minus(from);
    let direction = Point(y, -x);
    let products = |outline: &[Point]| -> Vec<i128> {
        let product = |c: &Point| direction.dot(*c);
        outline.iter().map(product).collect()
    };
    let ends = |all: &[i128]| (*all.iter().min().unwrap(), *all.iter().max().unwrap());
    let (on_a, on_b) = (products(&m.a), products(&m.b));
    let (a, b) = (ends(&on_a), ends(&on_b));
    let (speed_a, speed_b) = (direction.dot(m.va), direction.dot(m.vb));
    let (w, lo, hi) = (speed_b - speed_a, a.0 - b.1, a.1 - b.0);
    let uncut = match w.signum() {
        1 => Some((Time { n: lo, d: w }, Time { n: hi, d: w })),
        -1 => Some((Time { n: -hi, d: -w }, Time { n: -lo, d: -w })),
        _ => None,
    };
    Side {
        span: span(uncut, lo <= 0 && 0 <= hi, m.limit),
        of,
        edge: i,
        from,
        to,
        direction,
        on_a,
        on_b,
        a,
        b,
        speed_a,
        speed_b,
        w,
        lo,
        hi,
        uncut,
    }
}

/// The part from 0 to the limit, if there is one. Without a relative speed
/// the intervals share a value always or never.
fn span(uncut: Option<Span>, always: bool, limit: i128) -> Option<Span> {
    let (zero, limit) = (Time { n: 0, d: 1 }, Time { n: limit, d: 1 });
    let Some((from, to)) = uncut else {
        return always.then_some((zero, limit));
    };
    if to.before(zero) || limit.before(from) {
        return None;
    }
    let begin = if zero.before(from) { from } else { zero };
    let end = if to.before(limit) { to } else { limit };
    Some((begin.reduced(), end.reduced()))
}

// ---------------------------------------------------------------------------
// The verdict.

#[derive(Clone, Copy)]
enum Showing {
    CornerOfA(usize),
    CornerOfB(usize),
}

#[derive(Clone, Copy)]
enum Verdict {
    ClearByOne(usize),
    /// The sides with the greatest begin and the least end.
    ClearByTwo(usize, usize),
    /// The bearing side, the side with the least end, and what shows.
    Contact(usize, usize, Showing),
}

/// The greatest begin and the least end.
fn extremes(sides: &[Side]) -> Span {
    let mut spans = sides.iter().filter_map(|s| s.span);
    let some = spans.next().expect("a side with a span");
    spans.fold(some, |(first, last), (begin, end)| {
        let first = if first.before(begin) { begin } else { first };
        (first, if end.before(last) { end } else { last })
    })
}

fn verdict(m: &Move, sides: &[Side]) -> Verdict {
    if let Some(k) = sides.iter().position(|s| s.span.is_none()) {
        return Verdict::ClearByOne(k);
    }
    let (first, last) = extremes(sides);
    let i = sides.iter().position(|s| s.span.unwrap().0 == first);
    let j = sides.iter().position(|s| s.span.unwrap().1 == last);
    let (i, j) = (i.unwrap(), j.unwrap());
    if last.before(first) {
        return Verdict::ClearByTwo(i, j);
    }
    let bearing = if first.n > 0 {
        i
    } else {
        touched_at_zero(sides)
    };
    check(
        shared_at(&sides[bearing], first) == 0,
        "at first the bearing side's intervals share exactly one value",
    );
    let (a, b) = (moved(&m.a, m.va, first), moved(&m.b, m.vb, first));
    let of_a = a.iter().position(|&p| inside(&b, p));
    let of_b = b.iter().position(|&p| inside(&a, p));
    let showing = match (of_a, of_b) {
        (Some(i), _) => Showing::CornerOfA(i),
        (None, Some(j)) => Showing::CornerOfB(j),
        (None, None) => panic!("the document has no contact shown by edges"),
    };
    Verdict::Contact(bearing, j, showing)
}

/// The greater of the lows and the lesser of the highs at time 0.
fn shared(s: &Side) -> (i128, i128) {
    (s.a.0.max(s.b.0), s.a.1.min(s.b.1))
}

/// How long the part is that the intervals share at n/d, times d.
fn shared_at(s: &Side, Time { n, d }: Time) -> i128 {
    let at = |end: i128, speed: i128| d * end + n * speed;
    let low = at(s.a.0, s.speed_a).max(at(s.b.0, s.speed_b));
    at(s.a.1, s.speed_a).min(at(s.b.1, s.speed_b)) - low
}

/// The lowest side on which the intervals at time 0 share exactly one value.
fn touched_at_zero(sides: &[Side]) -> usize {
    let touched = |s: &Side| shared(s).0 == shared(s).1;
    for s in sides {
        let at_an_end = s.lo == 0 || s.hi == 0;
        check(touched(s) == at_an_end, "one value where lo or hi is 0");
    }
    let side = sides.iter().position(touched);
    side.expect("each contact of the document has a bearing side")
}

/// Weights on the corners of the outline for the point p, which is a corner
/// of it or lies on an edge of it: on that corner, or on the edge's two ends.
fn weights(outline: &[Point], p: Point) -> Vec<i128> {
    let mut all = vec![0; outline.len()];
    if let Some(i) = outline.iter().position(|&c| c == p) {
        all[i] = 1;
        return all;
    }
    // Edges that meet in a straight corner have one line: p has to be between the ends.
    let is_on = |&i: &usize| {
        let (step, part) = (edge(outline, i), p.minus(outline[i]));
        step.cross(part) == 0 && (0..=step.dot(step)).contains(&step.dot(part))
    };
    let on = (0..outline.len()).find(is_on);
    let i = on.expect("where a side bears, a contact begins on an edge");
    let (step, part) = (edge(outline, i), p.minus(outline[i]));
    let (step, part) = match step.0 {
        0 => (step.1.abs(), part.1.abs()),
        _ => (step.0.abs(), part.0.abs()),
    };
    let g = gcd(step, part);
    all[i] = (step - part) / g;
    all[next(outline, i)] = part / g;
    all
}

fn weighted(weights: &[i128], outline: &[Point]) -> Point {
    let products = weights.iter().zip(outline).map(|(&w, c)| c.times(w));
    products.fold(Point(0, 0), Point::plus)
}

/// The outlines at first, and the weights on A's corners and on B's of the
/// point that the showing names.
struct Common {
    first: Time,
    a: Vec<Point>,
    b: Vec<Point>,
    on_a: Vec<i128>,
    on_b: Vec<i128>,
    /// The point's coordinates, over the total and the d of first.
    x: Time,
    y: Time,
}

fn common_point(m: &Move, first: Time, showing: Showing) -> Common {
    let (a, b) = (moved(&m.a, m.va, first), moved(&m.b, m.vb, first));
    let (mut on_a, mut on_b) = (vec![0; a.len()], vec![0; b.len()]);
    match showing {
        Showing::CornerOfA(i) => {
            on_b = weights(&b, a[i]);
            on_a[i] = on_b.iter().sum();
        }
        Showing::CornerOfB(j) => {
            on_a = weights(&a, b[j]);
            on_b[j] = on_a.iter().sum();
        }
    }
    let (total, sum) = (on_a.iter().sum::<i128>(), weighted(&on_a, &a));
    check(on_a.iter().all(|&w| w >= 0), "no weight on A is negative");
    check(on_b.iter().all(|&w| w >= 0), "no weight on B is negative");
    check(total > 0, "the total is above zero");
    check(total == on_b.iter().sum(), "the totals are the same");
    check(sum == weighted(&on_b, &b), "the weighted sums agree");
    let over = |n: i128| Time {
        n,
        d: total * first.d,
    };
    let (x, y) = (over(sum.0), over(sum.1));
    Common {
        first,
        a,
        b,
        on_a,
        on_b,
        x,
        y,
    }
}

// ---------------------------------------------------------------------------
// The blocks.

fn list<T: ToString>(items: &[T]) -> String {
    let all: Vec<String> = items.iter().map(T::to_string).collect();
    all.join(", ")
}

fn hex(bytes: &[u8]) -> String {
    bytes.iter().map(|b| format!("{b:02x}")).collect()
}

/// A table with this head, its columns parted by `|`.
fn table(head: &str, rows: &[String]) -> String {
    let rule = "---|".repeat(head.split('|').count());
    let rows: String = rows.iter().map(|r| format!("| {r} |\n")).collect();
    format!("| {head} |\n|{rule}\n{rows}")
}

/// A line and its bytes: for each field how many they are, and their meaning.
fn frame_table(frame: &[u8], fields: &[(usize, String)]) -> String {
    let (mut at, mut rows) = (0, Vec::new());
    for (size, meaning) in fields {
        let to = at + size - 1;
        let places = match size {
            1 => format!("{at}"),
            _ => format!("{at} to {to}"),
        };
        rows.push(format!("{places} | `{}` | {meaning}", hex(&frame[at..=to])));
        at = to + 1;
    }
    check(at == frame.len(), "the table has every byte of the line");
    let table = table("Bytes | Digits | Meaning", &rows);
    format!("    {}\n\n{table}", hex(frame))
}

fn goes(v: Point) -> String {
    match v {
        Point(0, 0) => "stands still".to_string(),
        _ => format!("moves by {v} per unit of time"),
    }
}

/// The move in words, and the answer to the question about it.
fn move_block(m: &Move, sides: &[Side], v: Verdict) -> String {
    let named = |k: usize| {
        let Side {
            of, edge, from, to, ..
        } = &sides[k];
        format!("side {k} ({of}'s edge {edge}, at time 0 from {from} to {to})")
    };
    let (first, last) = extremes(sides);
    let answer = match v {
        Verdict::ClearByOne(k) => format!(
            "*Which side keeps them apart, for the whole of the move?* One: {}.",
            named(k)
        ),
        Verdict::ClearByTwo(i, j) => format!(
            "*Which side keeps them apart, for the whole of the move?* At each time one of two: \
             before {first}, {}; after {last}, {}.",
            named(i),
            named(j)
        ),
        Verdict::Contact(bearing, _, showing) => {
            let Common { x, y, .. } = common_point(m, first, showing);
            let shown = match showing {
                Showing::CornerOfA(i) => format!("A's corner {i}"),
                Showing::CornerOfB(j) => format!("B's corner {j}"),
            };
            format!(
                "*At what instant would the outlines first have met, and where?* At {first}, \
                 at x = {}, y = {}, where {shown} is then. The bearing side is {}.",
                x.reduced(),
                y.reduced(),
                named(bearing).trim_start_matches("side ")
            )
        }
    };
    format!(
        "A is {} and {}. B is {} and {}. The limit T is {}.\n\n{answer}\n",
        list(&m.a),
        goes(m.va),
        list(&m.b),
        goes(m.vb),
        m.limit
    )
}

fn line_block(m: &Move) -> String {
    let mut fields = vec![
        (1, "a move".into()),
        (1, format!("A has {} corners", m.a.len())),
        (1, format!("B has {} corners", m.b.len())),
        (2, format!("the limit T is {}", m.limit)),
        (4, format!("velocity of A: {}", m.va)),
        (4, format!("velocity of B: {}", m.vb)),
    ];
    for (name, outline) in [('A', &m.a), ('B', &m.b)] {
        for (i, c) in outline.iter().enumerate() {
            fields.push((4, format!("{name}'s corner {i}: {c}")));
        }
    }
    let pairs: Vec<Point> = [&[m.va, m.vb], &m.a[..], &m.b[..]].concat();
    frame_table(&m.frame, &fields) + &signs(&pairs)
}

/// How those of the numbers that are below zero are read.
fn signs(pairs: &[Point]) -> String {
    let mut numbers: Vec<i128> = pairs.iter().flat_map(|p| [p.0, p.1]).collect();
    numbers.retain(|&v| v < 0);
    numbers.sort_by_key(|v| -v);
    numbers.dedup();
    if numbers.is_empty() {
        return String::new();
    }
    let read = |v: &i128| {
        let u = v + 65536;
        format!("`{u:04x}` is {u}, read as {u} - 65536 = {v}")
    };
    let all: Vec<String> = numbers.iter().map(read).collect();
    format!("\nWith a sign: {}.\n", all.join("; "))
}

/// The line of P3, by its difference from that of P1.
fn limit_block(m: &Move, p1: &Move) -> String {
    check(m.frame[..3] == p1.frame[..3], "the bytes before the limit");
    check(m.frame[5..] == p1.frame[5..], "the bytes after the limit");
    let (line, digits, limit) = (m.line, hex(&m.frame[3..5]), m.limit);
    format!("    {line}\n\nThe line is P1's except for bytes 3 to 4, `{digits}`: the limit T is {limit}.\n")
}

fn sides_block(sides: &[Side]) -> String {
    let row = |(k, s): (usize, &Side)| {
        let Side {
            of, edge, from, to, ..
        } = s;
        let (step, direction) = (to.minus(*from), s.direction);
        format!("{k} | {of}'s edge {edge} | {from} | {to} | {step} | {direction}")
    };
    let rows: Vec<String> = sides.iter().enumerate().map(row).collect();
    table(
        "Side | Edge | From | To | Step (x, y) | Direction (y, -x)",
        &rows,
    )
}

/// p - q, and its value v
fn difference(p: i128, q: i128, v: i128) -> String {
    check(p - q == v, "the difference has this value");
    match q < 0 {
        true => format!("{p} - ({q}) = {v}"),
        false => format!("{p} - {q} = {v}"),
    }
}

/// The spans; where one is empty, up to the lowest such side.
fn spans_block(m: &Move, sides: &[Side]) -> String {
    let empty = sides.iter().position(|s| s.span.is_none());
    let shown = empty.map_or(sides.len(), |k| k + 1);
    let row = |(k, s): (usize, &Side)| {
        let span = match (s.span, s.uncut) {
            (Some((begin, end)), Some((from, to))) => {
                format!("{} | {}", from.becomes(begin), to.becomes(end))
            }
            (Some((begin, end)), None) => format!("{begin} | {end}"),
            (None, Some((from, _))) if from.n > m.limit * from.d => {
                let from = from.becomes(from.reduced());
                format!("none: {from} is after {}/1 | none", m.limit)
            }
            _ => panic!("the document has no such empty span"),
        };
        let w = difference(s.speed_b, s.speed_a, s.w);
        let lo = difference(s.a.0, s.b.1, s.lo);
        let hi = difference(s.a.1, s.b.0, s.hi);
        let a = format!("{} | {} to {}", list(&s.on_a), s.a.0, s.a.1);
        let b = format!("{} | {} to {}", list(&s.on_b), s.b.0, s.b.1);
        format!("{k} | {a} | {b} | {w} | {lo} | {hi} | {span}")
    };
    let rows: Vec<String> = sides[..shown].iter().enumerate().map(row).collect();
    table(
        "Side | A's products | A's interval | B's products | B's interval | w | lo | hi | Begin | End",
        &rows,
    )
}

fn verdict_block(sides: &[Side], v: Verdict) -> String {
    if let Verdict::ClearByOne(k) = v {
        return format!("The lowest side whose span is empty is {k}: **clear by side {k}**.\n");
    }
    let (first, last) = extremes(sides);
    let having = |t: Time, of: fn(Span) -> Time| {
        let has = |k: &usize| sides[*k].span.map(of) == Some(t);
        let all: Vec<usize> = (0..sides.len()).filter(has).collect();
        match all[..] {
            [k] => format!("of side {k}"),
            _ => format!("of sides {}; the lowest is {}", list(&all), all[0]),
        }
    };
    let rows = [
        format!("greatest begin | {first} | {}", having(first, |s| s.0)),
        format!("least end | {last} | {}", having(last, |s| s.1)),
    ];
    let (l, r) = (first.n * last.d, last.n * first.d);
    let end = match v {
        Verdict::Contact(bearing, ..) => {
            let bearing = match first.n {
                0 => "First is zero: the bearing side is looked for at time 0.".to_string(),
                _ => format!("First is above zero: the bearing side is {bearing}."),
            };
            format!("{l} does not exceed {r}: **contact from {first} to {last}**. {bearing}")
        }
        Verdict::ClearByTwo(i, j) => format!(
            "{l} exceeds {r}, so the greatest begin exceeds the least end: \
             **clear by sides {i} and {j}**."
        ),
        Verdict::ClearByOne(_) => unreachable!(),
    };
    format!(
        "{}\nNo span is empty. {}·{} = {l} and {}·{} = {r}; {end}\n",
        table(" | Time | Sides", &rows),
        first.n,
        last.d,
        last.n,
        first.d
    )
}

/// The intervals at time 0, up to the bearing side.
fn bearing_block(sides: &[Side], bearing: usize) -> String {
    let row = |(k, s): (usize, &Side)| {
        let (low, high) = shared(s);
        let much = match high - low {
            0 => format!("**one value: {low}**"),
            _ => format!("more: from {low} to {high}"),
        };
        let (a, b) = (s.a, s.b);
        let intervals = format!("{} to {} | {} to {}", a.0, a.1, b.0, b.1);
        format!("{k} | {intervals} | {low} | {high} | {much}")
    };
    let rows: Vec<String> = sides[..=bearing].iter().enumerate().map(row).collect();
    let head = "Side | A's interval | B's interval | Greater of the lows | Lesser of the highs | They share";
    let s = &sides[bearing];
    let value = shared(s).0;
    let (low, high) = if s.a.1 == value {
        ('A', 'B')
    } else {
        ('B', 'A')
    };
    format!(
        "{}\nThe bearing side is {bearing}. On it {low} has no product above {value} and {high} none below.\n",
        table(head, &rows)
    )
}

/// k·d + v·n
fn term(k: i128, v: i128) -> String {
    match v.signum() {
        0 => format!("{k}·d"),
        1 => format!("{k}·d + {v}·n"),
        _ => format!("{k}·d - {}·n", -v),
    }
}

/// When side k keeps the outlines apart: before its begin, or after its end.
fn apart_row(m: &Move, sides: &[Side], k: usize, early: bool) -> String {
    let s = &sides[k];
    let a_below = early == (s.w < 0);
    // The greatest of the lower and the least of the upper, as p·d + v·n.
    let ((lower, p, v), (upper, q, u)) = if a_below {
        (('A', s.a.1, s.speed_a), ('B', s.b.0, s.speed_b))
    } else {
        (('B', s.b.1, s.speed_b), ('A', s.a.0, s.speed_a))
    };
    let (from, to) = s.uncut.expect("a named side has a relative speed");
    let (when, that) = if early {
        check(v > u && q > p, "the side's intervals come together");
        let that = format!("n/d is before {}", from.reduced());
        (format!("{}·n < {}·d", v - u, q - p), that)
    } else {
        check(u > v && p > q, "the side's intervals part");
        let that = format!("n/d is after {}", to.reduced());
        (format!("{}·d < {}·n", p - q, u - v), that)
    };
    // Against the corners themselves, at every n/d of the move with d up to 12.
    for t in (1..=12).flat_map(|d| (0..=m.limit * d).map(move |n| Time { n, d })) {
        let said = if early { t.before(from) } else { to.before(t) };
        let (a, b) = (moved(&m.a, m.va, t), moved(&m.b, m.vb, t));
        let (low, high) = if a_below { (a, b) } else { (b, a) };
        let below = |p: &Point, q: &Point| s.direction.dot(*p) < s.direction.dot(*q);
        let below = low.iter().all(|p| high.iter().all(|q| below(p, q)));
        check(said == below, "the side keeps the outlines apart just then");
    }
    let (lower, upper) = (
        format!("{lower}: {}", term(p, v)),
        format!("{upper}: {}", term(q, u)),
    );
    format!("{k} | {lower} | {upper} | {when} | {that}")
}

fn apart_block(m: &Move, sides: &[Side], v: Verdict) -> String {
    let (first, last) = extremes(sides);
    let (rows, end) = match v {
        Verdict::ClearByOne(k) => {
            let s = &sides[k];
            let (t, w, gap) = (m.limit, s.w.abs(), s.uncut.unwrap().0.n);
            let most = w * t;
            check(most < gap, "the limit is before the begin");
            let end = format!(
                "\nThe move ends at {t}/1: n is at most {t}·d, so {w}·n is at most {most}·d, \
                 and {most}·d is less than {gap}·d. \
                 At every time of the move side {k} keeps the outlines apart.\n"
            );
            (vec![apart_row(m, sides, k, true)], end)
        }
        Verdict::ClearByTwo(i, j) => {
            check(last.before(first), "no time is left out");
            let end = format!(
                "\n{last} is before {first}. So a time that is not before {first} is after {last}: \
                 at every time of the move side {i} or side {j} keeps the outlines apart. \
                 Up to {last} side {i} does, from {first} on side {j} does, \
                 and between the two both do.\n"
            );
            let rows = [(i, true), (j, false)].map(|(k, early)| apart_row(m, sides, k, early));
            (rows.to_vec(), end)
        }
        Verdict::Contact(i, j, _) => {
            let rows = [(i, true), (j, false)].map(|(k, early)| apart_row(m, sides, k, early));
            (rows.to_vec(), String::new())
        }
    };
    let head = "Side | Greatest of the lower | Least of the upper | The lower is below exactly when | That is";
    table(head, &rows) + &end
}

fn moved_block(m: &Move, c: &Common) -> String {
    let Time { n, d } = c.first;
    let mut rows = Vec::new();
    for (name, outline, v, moved) in [('A', &m.a, m.va, &c.a), ('B', &m.b, m.vb, &c.b)] {
        for (i, corner) in outline.iter().enumerate() {
            rows.push(format!(
                "{name}'s {i} | {d}·{corner} + {n}·{v} = {}",
                moved[i]
            ));
        }
    }
    table(&format!("Corner | At {}, times {d}", c.first), &rows)
}

/// The corners of one outline against the edges of another, up to the lowest
/// that is inside or on it.
fn inside_table(name: char, corners: &[Point], other: char, outline: &[Point]) -> String {
    let edges: Vec<String> = (0..outline.len())
        .map(|i| format!("{other}'s edge {i}"))
        .collect();
    let found = corners.iter().position(|&p| inside(outline, p));
    let shown = found.map_or(corners.len(), |i| i + 1);
    let row = |i: usize| {
        let products = list(&crosses(outline, corners[i])).replace(", ", " | ");
        let yes = if found == Some(i) { "**yes**" } else { "no" };
        format!("{i}: {} | {products} | {yes}", corners[i])
    };
    let rows: Vec<String> = (0..shown).map(row).collect();
    let edges = edges.join(" | ");
    table(
        &format!("{name}'s corner | {edges} | Inside or on {other}"),
        &rows,
    )
}

fn showing_block(c: &Common, showing: Showing) -> String {
    let of_a = inside_table('A', &c.a, 'B', &c.b);
    match showing {
        Showing::CornerOfA(i) => format!("{of_a}\nKind 0: A's corner {i} shows.\n"),
        Showing::CornerOfB(j) => format!(
            "{of_a}\nNo corner of A shows; then B's corners are tried.\n\n\
             {}\nKind 1: B's corner {j} shows.\n",
            inside_table('B', &c.b, 'A', &c.a)
        ),
    }
}

/// How the weights on an outline are found, given a corner of the other one.
fn found(corner: String, p: Point, other: char, outline: &[Point], on: &[i128]) -> String {
    let used: Vec<usize> = (0..on.len()).filter(|&k| on[k] > 0).collect();
    if let [k] = used[..] {
        check(outline[k] == p, "the two corners are at one place");
        let w = on[k];
        return format!("{corner} is where {other}'s corner {k} is, at {p}: weight {w} on each.");
    }
    let edges = (0..on.len()).find(|&e| used.contains(&e) && used.contains(&next(outline, e)));
    let e = edges.expect("the weights are on an edge");
    let f = next(outline, e);
    let (start, stop, total) = (outline[e], outline[f], on[e] + on[f]);
    let (step, part) = (stop.minus(start), p.minus(start));
    check(used.len() == 2, "the weights are on one edge alone");
    check(
        part.times(total) == step.times(on[f]),
        "the parts of the edge",
    );
    format!(
        "{corner} lies on {other}'s edge {e}. The edge's step is {stop} - {start} = {step}; \
         the step from its start to the corner is {p} - {start} = {part}, \
         which is {of} of {total} parts of it. \
         So the weight is {of} on the edge's end, corner {f}, \
         and {total} - {of} = {} on its start, corner {e}; {corner} takes the total, {total}.",
        on[e],
        of = on[f]
    )
}

fn weights_block(c: &Common, showing: Showing) -> String {
    let how = match showing {
        Showing::CornerOfA(i) => found(format!("A's corner {i}"), c.a[i], 'B', &c.b, &c.on_b),
        Showing::CornerOfB(j) => found(format!("B's corner {j}"), c.b[j], 'A', &c.a, &c.on_a),
    };
    let mut rows = Vec::new();
    for (name, outline, on) in [('A', &c.a, &c.on_a), ('B', &c.b, &c.on_b)] {
        for (i, corner) in outline.iter().enumerate() {
            let (w, product) = (on[i], corner.times(on[i]));
            rows.push(format!("{name}'s {i} | {corner} | {w} | {product}"));
        }
        let (total, sum) = (on.iter().sum::<i128>(), weighted(on, outline));
        rows.push(format!("**{name} in all** |  | **{total}** | **{sum}**"));
    }
    let table = table("Corner | Moved | Weight | Weight times moved corner", &rows);
    let (total, d, over) = (c.on_a.iter().sum::<i128>(), c.first.d, c.x.d);
    let (x, y) = (c.x.becomes(c.x.reduced()), c.y.becomes(c.y.reduced()));
    format!(
        "{how}\n\n{table}\nBoth totals are {total} and both sums {}: a common point. \
         To name the place, divide by the total and by the {d} of the moved corners, \
         {total}·{d} = {over}: x = {x}, y = {y}.\n",
        weighted(&c.on_a, &c.a)
    )
}

/// The answer frame, with what each of its fields means.
fn answer(sides: &[Side], v: Verdict) -> (Vec<u8>, Vec<(usize, String)>) {
    let mut frame = vec![0x81];
    let mut fields = vec![(1, "an answer".to_string())];
    let mut byte = |value: usize, meaning: String| {
        frame.push(value as u8);
        fields.push((1, meaning));
    };
    match v {
        Verdict::ClearByOne(k) => {
            byte(0, "clear by one side".into());
            byte(k, format!("side {k}"));
        }
        Verdict::ClearByTwo(i, j) => {
            byte(1, "clear by two sides".into());
            byte(i, format!("side {i}, the lowest with the greatest begin"));
            byte(j, format!("side {j}, the lowest with the least end"));
        }
        Verdict::Contact(bearing, _, showing) => {
            byte(2, "contact".into());
            let (first, last) = extremes(sides);
            for (name, value) in [
                ("first, n", first.n),
                ("first, d", first.d),
                ("last, n", last.n),
                ("last, d", last.d),
            ] {
                frame.extend((value as u32).to_be_bytes());
                fields.push((4, format!("{name}: {value}")));
            }
            let (kind, of, i) = match showing {
                Showing::CornerOfA(i) => (0, 'A', i),
                Showing::CornerOfB(j) => (1, 'B', j),
            };
            frame.extend([bearing as u8, kind, i as u8, 0]);
            fields.extend([
                (1, format!("bearing side {bearing}")),
                (1, format!("showing of kind {kind}: a corner of {of}")),
                (1, format!("corner {i}")),
                (1, "not used by this kind".into()),
            ]);
        }
    }
    (frame, fields)
}

// ---------------------------------------------------------------------------
// The moves.

/// P1 is line 1 of the examples, and so on.
fn example(number: usize) -> &'static str {
    let lines = include_str!("../examples/moves.txt");
    lines.lines().nth(number - 1).expect("the examples have it")
}

/// A is the triangle (0,0), (3,0), (1,3) and moves by (1,1); B is the
/// quadrilateral (4,2), (6,2), (9,4), (6,4) and moves by (0,1); T is 10.
const F: &str = "010304000a0001000100000001\
                 000000000003000000010003\
                 00040002000600020009000400060004";

/// A is the triangle (0,0), (1,0), (2,0), (0,2) with a straight corner and stands
/// still; B is the triangle (2,-6), (4,-6), (3,-3) and moves by (-1,2); T is 10.
const E: &str = "010403000a00000000ffff0002\
                 00000000000100000002000000000002\
                 0002fffa0004fffa0003fffd";

/// A is the square (0,0), (2,0), (2,2), (0,2), and B is not sound: the
/// quadrilateral (0,0), (4,0), (1,1), (0,4); both stand still; T is 10.
const D: &str = "010404000a0000000000000000\
                 00000000000200000002000200000002\
                 00000000000400000001000100000004";

/// Likewise, with B (0,0), (4,0), (4,3), (4,0), (0,3).
const W: &str = "010405000a0000000000000000\
                 00000000000200000002000200000002\
                 0000000000040000000400030004000000000003";

/// Likewise, with B (0,0), (4,2), (6,3), (2,1).
const L: &str = "010404000a0000000000000000\
                 00000000000200000002000200000002\
                 00000000000400020006000300020001";

/// The line of a move by its name.
fn named(name: &str) -> &'static str {
    match (name, name.strip_prefix('P')) {
        (_, Some(number)) => example(number.parse().expect("a case has a number")),
        ("F", None) => F,
        ("E", None) => E,
        ("D", None) => D,
        ("W", None) => W,
        ("L", None) => L,
        _ => panic!("no move has the name {name}"),
    }
}

fn sides_of(m: &Move) -> Vec<Side> {
    (0..m.a.len() + m.b.len()).map(|k| side(m, k)).collect()
}

// ---------------------------------------------------------------------------
// Outlines that are not sound.

/// Why a move is refused for its outlines: which is not sound, its refusal's
/// number, the edge named and why it is.
struct Wrong<'a> {
    of: char,
    refusal: u8,
    outline: &'a [Point],
    edge: usize,
    fault: Fault,
}

fn wrong(m: &Move) -> Option<Wrong<'_>> {
    let of = |of, refusal, outline| {
        wrong_edge(outline).map(|(edge, fault)| Wrong {
            of,
            refusal,
            outline,
            edge,
            fault,
        })
    };
    of('A', 8, &m.a[..]).or_else(|| of('B', 9, &m.b[..]))
}

impl Wrong<'_> {
    fn answer(&self) -> Vec<u8> {
        vec![0x81, 0xff, self.refusal, self.edge as u8]
    }

    fn named(&self) -> String {
        let (i, outline) = (self.edge, self.outline);
        let (from, to) = (outline[i], outline[next(outline, i)]);
        format!("{}'s edge {i}, from {from} to {to}", self.of)
    }
}

/// The move in words, its line, and the answer to the question about it.
fn refused_block(m: &Move, w: &Wrong) -> String {
    let why = match w.fault {
        Fault::OneLine => "all corners lie on one line".to_string(),
        Fault::Right(k) => format!("corner {k}, {}, lies to its right", w.outline[k]),
        Fault::Same(k) => format!("corner {k} equals its start"),
    };
    format!(
        "A is {}. B is {}. The line:\n\n    {}\n\n*Which edge is wrong?* {}: {why}.\n",
        list(&m.a),
        list(&m.b),
        m.line,
        w.named()
    )
}

/// x·v - y·u, and its value.
fn cross_text(Point(x, y): Point, Point(u, v): Point) -> String {
    let factor = |n: i128| match n < 0 {
        true => format!("({n})"),
        false => n.to_string(),
    };
    let (first, second) = (x * v, y * u);
    let products = format!("{x}·{} - {}·{}", factor(v), factor(y), factor(u));
    format!("{products} = {}", difference(first, second, first - second))
}

const CROSS_HEAD: &str =
    "Edge | Step (x, y) | Corner | Step from the edge's start (u, v) | x·v - y·u";

/// A row of such a table: edge i and corner k.
fn cross_row(outline: &[Point], i: usize, k: usize) -> String {
    let (step, to_corner) = (edge(outline, i), outline[k].minus(outline[i]));
    let cross = cross_text(step, to_corner);
    format!("{i} | {step} | {k} | {to_corner} | {cross}")
}

/// The corners that are no ends of edge i.
fn no_ends(outline: &[Point], i: usize) -> impl Iterator<Item = usize> + '_ {
    (0..outline.len()).filter(move |&k| k != i && k != next(outline, i))
}

/// What shows that the edge named is wrong.
fn edge_block(w: &Wrong) -> String {
    let (i, outline) = (w.edge, w.outline);
    let (start, stop) = (outline[i], outline[next(outline, i)]);
    match w.fault {
        Fault::OneLine => {
            check(start != stop, "the ends of edge 0 differ: it has a line");
            let rows: Vec<String> = no_ends(outline, i)
                .map(|k| cross_row(outline, i, k))
                .collect();
            format!(
                "{}\nEdge {i} has some length, and all are zero: all corners lie on its line.\n",
                table(CROSS_HEAD, &rows)
            )
        }
        Fault::Right(k) => {
            let corner = outline[k];
            let (step, to_corner) = (stop.minus(start), corner.minus(start));
            let cross = step.cross(to_corner);
            check(cross < 0, "the cross product is below zero");
            format!(
                "The step of edge {i} is {stop} - {start} = {step}; the step from its start to corner {k} \
                 is {corner} - {start} = {to_corner}.\n\n{}\n\n{cross} is below zero: corner {k} lies to the right of the edge's line.\n",
                cross_text(step, to_corner)
            )
        }
        Fault::Same(k) => {
            check(k != i && outline[k] == start, "another corner is there");
            format!("The start of edge {i} is corner {i}, {start}. Corner {k} is {start}, too.\n")
        }
    }
}

/// The cross products of the lower edges, none below zero.
fn lower_block(w: &Wrong) -> String {
    if w.edge == 0 {
        return "No edge is lower than 0.\n".into();
    }
    let (outline, mut rows, mut off) = (w.outline, Vec::new(), None);
    for i in 0..w.edge {
        check(edge(outline, i) != Point(0, 0), "the edge's ends differ");
        for k in no_ends(outline, i) {
            let cross = crosses(outline, outline[k])[i];
            check(cross >= 0, "a lower edge has no corner to its right");
            check(outline[k] != outline[i], "its start equals no other");
            off = off.or((cross != 0).then_some(cross));
            rows.push(cross_row(outline, i, k));
        }
    }
    let off = off.expect("some product is not zero");
    format!(
        "{}\nNone is below zero: no corner lies to the right. No step is {}: no corner equals a start. \
         {off} is not zero: not all corners lie on one line.\n",
        table(CROSS_HEAD, &rows),
        Point(0, 0)
    )
}

/// That an outline with a straight corner is sound: the cross products of its
/// edges with its corners.
fn sound_block(of: char, outline: &[Point]) -> String {
    check(is_sound(outline), "it is sound");
    let all = 0..outline.len();
    let product = |i: usize, k: usize| crosses(outline, outline[k])[i];
    let row = |i: usize| {
        let products: Vec<i128> = all.clone().map(|k| product(i, k)).collect();
        let products = list(&products).replace(", ", " | ");
        format!("{i} | {} | {products}", edge(outline, i))
    };
    let rows: Vec<String> = all.clone().map(row).collect();
    let head = |k: usize| format!(" | Corner {k}: {}", outline[k]);
    let head: String = all.clone().map(head).collect();
    let off = all.clone().find(|&k| product(0, k) != 0);
    let off = off.expect("a corner off the line of edge 0");
    let after = |i: usize| next(outline, next(outline, i));
    let i = all.clone().find(|&i| product(i, after(i)) == 0);
    let i = i.expect("a straight corner");
    let j = next(outline, i);
    format!(
        "{}\nAll corners differ. The product of edge 0 with corner {off} is not zero: not all lie on one line. \
         No product is below zero: no corner lies to the right of an edge's line. So {of} is sound. \
         Corner {j} is straight: edges {i} and {j} lie on one line.\n",
        table(&format!("{of}'s edge | Step (x, y){head}"), &rows)
    )
}

fn refusal_block(w: &Wrong) -> String {
    let (of, refusal, edge) = (w.of, w.refusal, w.edge);
    let fields = [
        (1, "an answer".to_string()),
        (1, "refused".to_string()),
        (1, format!("refusal {refusal}: {of} is not sound")),
        (1, format!("edge {edge} of {of}")),
    ];
    frame_table(&w.answer(), &fields)
}

// ---------------------------------------------------------------------------
// Rectangles.

/// A is from (0,0) to (4,2) and moves by (1,0); B is from (9,4) to (12,7) and
/// moves by (-1,-2); T is 10.
const R: &str = "02000a00010000fffffffe\
                 0000000000040002\
                 00090004000c0007";

/// A move of two rectangles: low and high corner of each.
struct Trays {
    frame: Vec<u8>,
    limit: i128,
    va: Point,
    vb: Point,
    a: (Point, Point),
    b: (Point, Point),
}

fn read_trays(line: &str) -> Trays {
    let byte = |i: usize| u8::from_str_radix(&line[2 * i..2 * i + 2], 16);
    let frame: Result<Vec<u8>, _> = (0..line.len() / 2).map(byte).collect();
    let frame = frame.expect("two digits a byte");
    check(frame[0] == 2, "the line is one of rectangles");
    check(frame.len() == 27, "its length");
    let signed = |at: usize| i16::from_be_bytes([frame[at], frame[at + 1]]) as i128;
    let pair = |at: usize| Point(signed(at), signed(at + 2));
    let trays = Trays {
        limit: frame[1] as i128 * 256 + frame[2] as i128,
        va: pair(3),
        vb: pair(7),
        a: (pair(11), pair(15)),
        b: (pair(19), pair(23)),
        frame,
    };
    for (low, high) in [trays.a, trays.b] {
        check(low.0 < high.0 && low.1 < high.1, "low is below high");
    }
    trays
}

fn four_corners((low, high): (Point, Point)) -> Vec<Point> {
    vec![low, Point(high.0, low.1), high, Point(low.0, high.1)]
}

/// The line of two outlines that has the same answer.
fn corners_line(t: &Trays) -> String {
    let (a, b) = (four_corners(t.a), four_corners(t.b));
    let mut frame = vec![1, 4, 4, t.frame[1], t.frame[2]];
    for p in [t.va, t.vb].iter().chain(&a).chain(&b) {
        frame.extend((p.0 as i16).to_be_bytes());
        frame.extend((p.1 as i16).to_be_bytes());
    }
    hex(&frame)
}

/// What there is on one axis: where A and B are on it at time zero, how fast they
/// go, and when they share a value of it.
struct Along {
    name: char,
    lowest: usize,
    a: (i128, i128),
    b: (i128, i128),
    speed_a: i128,
    speed_b: i128,
    w: i128,
    lo: i128,
    hi: i128,
    uncut: Span,
    span: Span,
}

fn along(t: &Trays, name: char) -> Along {
    let of = |p: Point| if name == 'x' { p.0 } else { p.1 };
    let ends = |(low, high)| (of(low), of(high));
    let (a, b, speed_a, speed_b) = (ends(t.a), ends(t.b), of(t.va), of(t.vb));
    let (w, lo, hi) = (speed_b - speed_a, a.0 - b.1, a.1 - b.0);
    check(w < 0, "on both axes of the document B comes from above");
    let uncut = (Time { n: -hi, d: -w }, Time { n: -lo, d: -w });
    let span = span(Some(uncut), false, t.limit);
    Along {
        name,
        lowest: if name == 'y' { 0 } else { 1 },
        a,
        b,
        speed_a,
        speed_b,
        w,
        lo,
        hi,
        uncut,
        span: span.expect("no span of the document's rectangles is empty"),
    }
}

/// The rectangles worked out from two spans: y, which has side 0, then x.
struct Trayed<'a> {
    t: &'a Trays,
    axes: [Along; 2],
    /// The places in it of the greatest begin and of the least end.
    latest: usize,
    soonest: usize,
    first: Time,
    last: Time,
    /// Where they are at first, times its d.
    a: (Point, Point),
    b: (Point, Point),
    /// The lowest corner of A inside or on B.
    corner: usize,
}

fn holds((low, high): (Point, Point), p: Point) -> bool {
    low.0 <= p.0 && p.0 <= high.0 && low.1 <= p.1 && p.1 <= high.1
}

fn trayed(t: &Trays) -> Trayed<'_> {
    let axes = ['y', 'x'].map(|name| along(t, name));
    let [y, x] = &axes;
    let latest = if y.span.0.before(x.span.0) { 1 } else { 0 };
    let soonest = if x.span.1.before(y.span.1) { 1 } else { 0 };
    let (first, last) = (axes[latest].span.0, axes[soonest].span.1);
    check(!last.before(first) && first.n > 0, "a contact after zero");
    let at = |(low, high), v| {
        let corners = moved(&[low, high], v, first);
        (corners[0], corners[1])
    };
    let (a, b) = (at(t.a, t.va), at(t.b, t.vb));
    let corner = four_corners(a).iter().position(|&p| holds(b, p));
    let corner = corner.expect("a corner of A shows");

    // Against the eight sides of the four corners.
    let m = read(Box::leak(corners_line(t).into_boxed_str()));
    let sides = sides_of(&m);
    for (k, side) in sides.iter().enumerate() {
        let of = &axes[k % 2];
        check(side.span == Some(of.span), "a side has its axis's span");
    }
    let bearing = axes[latest].lowest;
    let same = match verdict(&m, &sides) {
        Verdict::Contact(side, end, Showing::CornerOfA(i)) => {
            (side, end, i) == (bearing, axes[soonest].lowest, corner)
        }
        _ => false,
    };
    check(same, "the verdict is that on the four corners");
    check(extremes(&sides) == (first, last), "with its times");
    Trayed {
        t,
        axes,
        latest,
        soonest,
        first,
        last,
        a,
        b,
        corner,
    }
}

impl Trayed<'_> {
    fn corners(&self) -> Move {
        read(Box::leak(corners_line(self.t).into_boxed_str()))
    }

    fn move_block(&self) -> String {
        let t = self.t;
        let (at, axis) = (four_corners(self.a)[self.corner], &self.axes[self.latest]);
        let place = |n: i128| Time { n, d: self.first.d }.reduced();
        format!(
            "A is from {} to {} and {}. B is from {} to {} and {}. The limit T is {}.\n\n\
             *At what instant would the rectangles first have met, and where?* At {}, at x = {}, y = {}, \
             where A's corner {} is then. It is {} that bears, on side {}.\n",
            t.a.0,
            t.a.1,
            goes(t.va),
            t.b.0,
            t.b.1,
            goes(t.vb),
            t.limit,
            self.first,
            place(at.0),
            place(at.1),
            self.corner,
            axis.name,
            axis.lowest
        )
    }

    fn line_block(&self) -> String {
        let t = self.t;
        let fields = [
            (1, "a move of two rectangles".to_string()),
            (2, format!("the limit T is {}", t.limit)),
            (4, format!("velocity of A: {}", t.va)),
            (4, format!("velocity of B: {}", t.vb)),
            (4, format!("A's low corner: {}", t.a.0)),
            (4, format!("A's high corner: {}", t.a.1)),
            (4, format!("B's low corner: {}", t.b.0)),
            (4, format!("B's high corner: {}", t.b.1)),
        ];
        let pairs = [t.va, t.vb, t.a.0, t.a.1, t.b.0, t.b.1];
        frame_table(&t.frame, &fields) + &signs(&pairs)
    }

    fn sides_block(&self) -> String {
        let m = self.corners();
        let sides = sides_of(&m);
        let row = |k: usize| {
            let (side, axis) = (&sides[k], &self.axes[k % 2]);
            let Point(x, y) = side.direction;
            check(
                if axis.name == 'x' { y == 0 } else { x == 0 },
                "its direction",
            );
            let step = side.to.minus(side.from);
            let at = format!("{}'s edge {}", side.of, side.edge);
            format!("{k} | {at} | {step} | {} | {}", side.direction, axis.name)
        };
        let rows: Vec<String> = (0..8).map(row).collect();
        table(
            "Side | Edge | Step (x, y) | Direction (y, -x) | Axis",
            &rows,
        )
    }

    fn spans_block(&self) -> String {
        let row = |s: &Along| {
            let w = difference(s.speed_b, s.speed_a, s.w);
            let lo = difference(s.a.0, s.b.1, s.lo);
            let hi = difference(s.a.1, s.b.0, s.hi);
            let (begin, end) = (s.uncut.0.becomes(s.span.0), s.uncut.1.becomes(s.span.1));
            let places = format!("{} to {} | {} to {}", s.a.0, s.a.1, s.b.0, s.b.1);
            let lowest = s.lowest;
            format!(
                "{} | {lowest} | {places} | {w} | {lo} | {hi} | {begin} | {end}",
                s.name
            )
        };
        let rows: Vec<String> = self.axes.iter().map(row).collect();
        table(
            "Axis | Lowest side | A from low to high | B from low to high | w | lo | hi | Begin | End",
            &rows,
        )
    }

    fn verdict_block(&self) -> String {
        let (first, last) = (self.first, self.last);
        let row = |what: &str, t: Time, k: usize| {
            let axis = &self.axes[k];
            format!("{what} | {t} | {} | {}", axis.name, axis.lowest)
        };
        let rows = [
            row("greatest begin", first, self.latest),
            row("least end", last, self.soonest),
        ];
        let (l, r) = (first.n * last.d, last.n * first.d);
        format!(
            "{}\nNo span is empty. {}·{} = {l} and {}·{} = {r}; {l} does not exceed {r}: \
             **contact from {first} to {last}**. First is above zero: the bearing side is {}, the lowest of {}.\n",
            table(" | Time | Axis | Lowest side", &rows),
            first.n,
            last.d,
            last.n,
            first.d,
            self.axes[self.latest].lowest,
            self.axes[self.latest].name
        )
    }

    /// When an axis keeps the rectangles apart: before first, and after last.
    fn apart_block(&self) -> String {
        let (x, y) = (&self.axes[self.latest], &self.axes[self.soonest]);
        let early = format!(
            "{} | A: {} | B: {} | {}·n < {}·d | n/d is before {}",
            x.name,
            term(x.a.1, x.speed_a),
            term(x.b.0, x.speed_b),
            -x.w,
            -x.hi,
            self.first
        );
        let late = format!(
            "{} | B: {} | A: {} | {}·d < {}·n | n/d is after {}",
            y.name,
            term(y.b.1, y.speed_b),
            term(y.a.0, y.speed_a),
            -y.lo,
            -y.w,
            self.last
        );
        // Against the places themselves, at every n/d of the move with d up to 12.
        let limit = self.t.limit;
        for t in (1..=12).flat_map(|d| (0..=limit * d).map(move |n| Time { n, d })) {
            let at = |end: i128, speed: i128| t.d * end + t.n * speed;
            let below = at(x.a.1, x.speed_a) < at(x.b.0, x.speed_b);
            check(below == t.before(self.first), "apart before first");
            let below = at(y.b.1, y.speed_b) < at(y.a.0, y.speed_a);
            check(below == self.last.before(t), "apart after last");
        }
        let head = "Axis | High of the lower | Low of the upper | The lower is below exactly when | That is";
        table(head, &[early, late])
    }

    fn moved_block(&self) -> String {
        let (t, Time { n, d }) = (self.t, self.first);
        let mut rows = Vec::new();
        for (name, kept, v, at) in [('A', t.a, t.va, self.a), ('B', t.b, t.vb, self.b)] {
            for (end, from, to) in [("low", kept.0, at.0), ("high", kept.1, at.1)] {
                rows.push(format!("{name}'s {end} | {d}·{from} + {n}·{v} = {to}"));
            }
        }
        table(&format!("Corner | At {}, times {d}", self.first), &rows)
    }

    fn showing_block(&self) -> String {
        let (low, high) = self.b;
        let yes = |holds: bool| if holds { "yes" } else { "no" };
        let row = |i: usize| {
            let p = four_corners(self.a)[i];
            let (x, y) = (low.0 <= p.0 && p.0 <= high.0, low.1 <= p.1 && p.1 <= high.1);
            let both = if x && y { "**yes**" } else { "no" };
            format!("{i}: {p} | {} | {} | {both}", yes(x), yes(y))
        };
        let rows: Vec<String> = (0..=self.corner).map(row).collect();
        let head = format!(
            "A's corner | x from {} to {} | y from {} to {} | Inside or on B",
            low.0, high.0, low.1, high.1
        );
        format!(
            "{}\nKind 0: A's corner {} shows.\n",
            table(&head, &rows),
            self.corner
        )
    }

    fn weights_block(&self) -> String {
        let showing = Showing::CornerOfA(self.corner);
        weights_block(&common_point(&self.corners(), self.first, showing), showing)
    }

    fn answer(&self) -> Vec<u8> {
        let mut frame = vec![0x81, 0x02];
        for n in [self.first.n, self.first.d, self.last.n, self.last.d] {
            frame.extend((n as u32).to_be_bytes());
        }
        let bearing = self.axes[self.latest].lowest;
        frame.extend([bearing as u8, 0, self.corner as u8, 0]);
        frame
    }

    fn answer_block(&self) -> String {
        let m = self.corners();
        let sides = sides_of(&m);
        let (frame, fields) = answer(&sides, verdict(&m, &sides));
        check(frame == self.answer(), "the answer to the four corners");
        frame_table(&frame, &fields)
    }

    fn corners_block(&self) -> String {
        let (a, b) = (four_corners(self.t.a), four_corners(self.t.b));
        format!(
            "A is {} and B is {}:\n\n    {}\n",
            list(&a),
            list(&b),
            corners_line(self.t)
        )
    }

    fn print(&self) {
        block("R move", self.move_block());
        block("R line", self.line_block());
        block("R sides", self.sides_block());
        block("R spans", self.spans_block());
        block("R verdict", self.verdict_block());
        block("R apart", self.apart_block());
        block("R moved", self.moved_block());
        block("R showing", self.showing_block());
        block("R weights", self.weights_block());
        block("R answer", self.answer_block());
        block("R corners", self.corners_block());
    }
}

// ---------------------------------------------------------------------------
// The second edition.

/// The cases worked in it.
const SECOND: [&str; 2] = ["P2", "P8"];

struct Second {
    m: Move,
    sides: Vec<Side>,
    /// Of each side the bounds of the times at which the intervals share more
    /// than one value, if there are such times.
    spans: Vec<Option<Span>>,
}

/// Both ends of what is not cut are left out; the intervals have some length.
fn inner_span(s: &Side, limit: i128) -> Option<Span> {
    let (zero, limit) = (Time { n: 0, d: 1 }, Time { n: limit, d: 1 });
    check(zero.before(limit), "the limit is above zero");
    let Some((from, to)) = s.uncut else {
        return (s.lo < 0 && 0 < s.hi).then_some((zero, limit));
    };
    if !from.before(limit) || !zero.before(to) {
        return None;
    }
    let begin = if zero.before(from) { from } else { zero };
    let end = if to.before(limit) { to } else { limit };
    Some((begin.reduced(), end.reduced()))
}

fn second(name: &str) -> Second {
    let m = read(named(name));
    let sides = sides_of(&m);
    let spans: Vec<_> = sides.iter().map(|s| inner_span(s, m.limit)).collect();
    for (s, span) in sides.iter().zip(&spans) {
        // At every n/d of the move with d up to 12.
        for t in (1..=12).flat_map(|d| (0..=m.limit * d).map(move |n| Time { n, d })) {
            let said = span.is_some_and(|(begin, end)| {
                let after = begin.before(t) || (t.n == 0 && begin.n == 0);
                let to_limit = end.n == m.limit * end.d && t.n == m.limit * t.d;
                after && (t.before(end) || to_limit)
            });
            check(
                (shared_at(s, t) > 0) == said,
                "more than one value is shared just within the span",
            );
        }
    }
    Second { m, sides, spans }
}

/// A point inside an upright rectangle, given from low-low counterclockwise, as
/// weights on its four corners.
fn inner_weights(corners: &[Point], p: Point) -> Vec<i128> {
    let (low, high) = (corners[0], corners[2]);
    let (left, right) = (p.0 - low.0, high.0 - p.0);
    let (below, above) = (p.1 - low.1, high.1 - p.1);
    let all = [right * above, left * above, left * below, right * below];
    let g = all.iter().fold(0, |g, w| gcd(g, *w));
    all.iter().map(|w| w / g).collect()
}

impl Second {
    fn empty(&self) -> Option<usize> {
        self.spans.iter().position(|span| span.is_none())
    }

    /// How many spans are worked, in order, until one is empty or none is left.
    fn worked(&self) -> usize {
        let mut worked = 0;
        for span in &self.spans {
            worked += 1;
            if span.is_none() {
                break;
            }
        }
        worked
    }

    fn extremes(&self) -> Span {
        let spans: Vec<Span> = self.spans.iter().flatten().copied().collect();
        spans[1..]
            .iter()
            .fold(spans[0], |(first, last), &(begin, end)| {
                let first = if first.before(begin) { begin } else { first };
                (first, if end.before(last) { end } else { last })
            })
    }

    fn move_block(&self) -> String {
        let m = &self.m;
        let answer = match self.empty() {
            Some(k) => format!("No: on side {k} they share at most one value at each."),
            None => {
                let (first, last) = self.extremes();
                format!("Yes, at all times between {first} and {last} and at no others.")
            }
        };
        format!(
            "A is {} and {}. B is {} and {}. The limit T is {}.\n\n\
             *Do the outlines share an inner point at some time of the move?* {answer}\n",
            list(&m.a),
            goes(m.va),
            list(&m.b),
            goes(m.vb),
            m.limit
        )
    }

    /// The spans; where one is empty, up to the lowest such side.
    fn spans_block(&self) -> String {
        let shown = self.empty().map_or(self.sides.len(), |k| k + 1);
        let row = |k: usize| {
            let s = &self.sides[k];
            let span = match (self.spans[k], s.uncut) {
                (Some((begin, end)), Some((from, to))) => {
                    format!("{} | {}", from.becomes(begin), to.becomes(end))
                }
                (Some((begin, end)), None) => format!("{begin} | {end}"),
                (None, Some((from, _))) => {
                    let (at, limit) = (from.becomes(from.reduced()), self.m.limit);
                    check(from.n == limit * from.d, "the begin is the limit");
                    format!("none: {at} is not before {limit}/1 | none")
                }
                _ => panic!("the document has no such empty span"),
            };
            let w = difference(s.speed_b, s.speed_a, s.w);
            let lo = difference(s.a.0, s.b.1, s.lo);
            let hi = difference(s.a.1, s.b.0, s.hi);
            let (a, b) = (s.a, s.b);
            let intervals = format!("{} to {} | {} to {}", a.0, a.1, b.0, b.1);
            format!("{k} | {intervals} | {w} | {lo} | {hi} | {span}")
        };
        let rows: Vec<String> = (0..shown).map(row).collect();
        let head = "Side | A's interval | B's interval | w | lo | hi | Begin | End";
        table(head, &rows)
    }

    fn verdict_block(&self) -> String {
        if let Some(k) = self.empty() {
            check(
                self.sides[k].span.is_some_and(|(begin, end)| begin == end),
                "in the first edition it is one time",
            );
            return format!(
                "The lowest side whose span is empty is {k}: **clear by side {k}**. \
                 In edition 1 the span of side {k} is the one time {}/1, and the answer is contact.\n",
                self.m.limit
            );
        }
        let (first, last) = self.extremes();
        let (l, r) = (first.n * last.d, last.n * first.d);
        check(l < r, "the greatest begin is below the least end");
        format!(
            "The greatest begin is {first}, the least end is {last}. {}·{} = {l} and {}·{} = {r}; \
             {l} is below {r}: **contact from {first} to {last}**.\n",
            first.n, last.d, last.n, first.d
        )
    }

    /// When the intervals of the side share at most one value.
    fn apart_block(&self, k: usize) -> String {
        let s = &self.sides[k];
        let (t, w, gap) = (self.m.limit, s.speed_a - s.speed_b, s.b.0 - s.a.1);
        check(w > 0 && w * t == gap, "B comes down to A and is there at T");
        let row = format!(
            "{k} | A: {} | B: {} | {w}·n ≤ {gap}·d | n/d is not after {t}/1",
            term(s.a.1, s.speed_a),
            term(s.b.0, s.speed_b)
        );
        let head = "Side | Greatest of the lower | Least of the upper | The lower is not above exactly when | That is";
        table(head, &[row])
    }

    /// An inner common point at a time: the middle of what they have in common.
    fn weights_row(&self, t: Time) -> String {
        let m = &self.m;
        let (a, b) = (moved(&m.a, m.va, t), moved(&m.b, m.vb, t));
        let low = Point(a[0].0.max(b[0].0), a[0].1.max(b[0].1));
        let high = Point(a[2].0.min(b[2].0), a[2].1.min(b[2].1));
        let twice = |corners: &[Point]| corners.iter().map(|c| c.times(2)).collect::<Vec<_>>();
        let on_a = inner_weights(&twice(&a), low.plus(high));
        let on_b = inner_weights(&twice(&b), low.plus(high));
        let (total_a, total_b) = (on_a.iter().sum::<i128>(), on_b.iter().sum::<i128>());
        let g = gcd(total_a, total_b);
        let times = |all: &[i128], by: i128| all.iter().map(|w| w * by).collect::<Vec<_>>();
        let (on_a, on_b) = (times(&on_a, total_b / g), times(&on_b, total_a / g));
        let (total, sum) = (on_a.iter().sum::<i128>(), weighted(&on_a, &a));
        check(
            on_a.iter().chain(&on_b).all(|w| *w > 0),
            "all weights are above zero",
        );
        check(total == on_b.iter().sum(), "the totals are the same");
        check(sum == weighted(&on_b, &b), "the weighted sums agree");
        let of = |corners: &[Point], on: &[i128]| format!("{} | {}", list(corners), list(on));
        format!(
            "{t} | {} | {} | {total} | {sum}",
            of(&a, &on_a),
            of(&b, &on_b)
        )
    }

    fn weights_block(&self) -> String {
        let (first, last) = self.extremes();
        let row = |t: Time| {
            check(first.before(t) && t.before(last), "the time is between");
            self.weights_row(t)
        };
        let rows = [(7, 2), (5, 1), (13, 2)].map(|(n, d)| row(Time { n, d }));
        let head = "n/d | A's corners, times d | Weights | B's corners, times d | Weights | Each total | Each weighted sum";
        table(head, &rows)
    }

    /// As the linked library hands them out.
    fn numbers(&self) -> String {
        let mut all = [0; 12];
        all[11] = self.worked() as i128;
        match self.empty() {
            Some(k) => all[1] = k as i128,
            None => {
                let (first, last) = self.extremes();
                all[0] = 3;
                all[3..7].copy_from_slice(&[first.n, first.d, last.n, last.d]);
            }
        }
        all.map(|n| n.to_string()).join(" ")
    }

    fn numbers_block(&self) -> String {
        let meaning = match self.empty() {
            Some(k) => {
                check(
                    self.worked() == k + 1,
                    "the empty side is the last one worked",
                );
                format!("Case 0, clear by one; side {k}; {} sides worked, 0 to {k}. Nothing else is said.", self.worked())
            }
            None => {
                let (first, last) = self.extremes();
                format!("Case 3, contact in edition 2; no sides; first {first}; last {last}; no bearing, no showing; all {} sides worked.", self.worked())
            }
        };
        format!("    {}\n\n{meaning}\n", self.numbers())
    }

    fn print(&self, name: &str) {
        let block = |what: &str, content: String| block(&format!("{name} second {what}"), content);
        block("move", self.move_block());
        block("spans", self.spans_block());
        block("verdict", self.verdict_block());
        match self.empty() {
            Some(k) => block("apart", self.apart_block(k)),
            None => block("weights", self.weights_block()),
        }
        block("numbers", self.numbers_block());
    }
}

// ---------------------------------------------------------------------------
// The log.

/// The numbers are those of two bytes, and half of them, but for the line
/// itself, are forward of it.
const NUMBERS: i128 = 65536;
const FARTHEST: i128 = NUMBERS / 2 - 1;

/// The lines of the log: number and move.
const LOG: [(u16, &str); 9] = [
    (65534, "P1"),
    (65535, "P3"),
    (4, "F"),
    (4, "P3"),
    (3, "P6"),
    (5, "P12"),
    (5, "P6"),
    (32773, "P1"),
    (32772, "P9"),
];

/// A line of the log, worked out: its cells in the table, and what it leaves.
struct Logged {
    difference: String,
    order: String,
    lost: Option<i128>,
    answer: Vec<u8>,
    kept: Option<i128>,
}

fn logged(kept: Option<i128>, number: i128, m: &Move) -> Logged {
    let refused = |difference: String, order: String, answer: Vec<u8>| Logged {
        difference,
        order,
        lost: None,
        answer,
        kept,
    };
    if let Some(w) = wrong(m) {
        let why = format!(
            "{} is not sound: refusal {}, edge {}",
            w.of, w.refusal, w.edge
        );
        return refused("not asked".into(), why, w.answer());
    }
    let (difference, steps) = match kept {
        None => ("none".into(), 1),
        Some(kept) if number < kept => {
            let (below, steps) = (number - kept, number - kept + NUMBERS);
            let first = difference(number, kept, below);
            (format!("{first}; {below} + {NUMBERS} = {steps}"), steps)
        }
        Some(kept) => (difference(number, kept, number - kept), number - kept),
    };
    // Against counting: so many steps from number to number lead there.
    if let Some(kept) = kept {
        let next = |n: i128| if n == NUMBERS - 1 { 0 } else { n + 1 };
        let there = (0..steps).fold(kept, |n, _| next(n));
        check(there == number, "the difference leads to the number");
    }
    if !(1..=FARTHEST).contains(&steps) {
        let answer = vec![0x81, 0xff, 10];
        return refused(difference, "out of order: refusal 10".into(), answer);
    }
    let order = match kept {
        None => "the first".to_string(),
        Some(_) => "forward".to_string(),
    };
    let sides = sides_of(m);
    Logged {
        difference,
        order,
        lost: Some(steps - 1),
        answer: answer(&sides, verdict(m, &sides)).0,
        kept: Some(number),
    }
}

/// Each line of the log with what it comes to.
fn worked_log() -> Vec<(i128, &'static str, Option<i128>, Logged)> {
    let mut kept = None;
    let mut all = Vec::new();
    for (number, name) in LOG {
        let worked = logged(kept, number.into(), &read_any(named(name)));
        let before = std::mem::replace(&mut kept, worked.kept);
        all.push((number.into(), name, before, worked));
    }
    all
}

fn log_frame(number: i128, m: &Move) -> Vec<u8> {
    [
        &[3, (number / 256) as u8, (number % 256) as u8],
        &m.frame[..],
    ]
    .concat()
}

fn log_line_block() -> String {
    let (number, name) = LOG[0];
    let m = read(named(name));
    let fields = [
        (1, "a line of a log".to_string()),
        (2, format!("its number: {number}")),
        (m.frame.len(), format!("the move {name}")),
    ];
    frame_table(&log_frame(number.into(), &m), &fields)
}

fn log_rule_block() -> String {
    let rows = [
        format!("1 to {FARTHEST} | forward | the difference less 1"),
        format!(
            "0, and {} to {} | out of order: refusal 10 | none; the kept number stays",
            FARTHEST + 1,
            NUMBERS - 1
        ),
    ];
    format!(
        "The numbers are 0 to {}, and after {0} comes 0: {NUMBERS} of them.\n\n{}",
        NUMBERS - 1,
        table("Difference | The line is | Lines lost before it", &rows)
    )
}

fn log_block() -> String {
    let worked = worked_log();
    let row = |(i, (number, name, kept, line)): (usize, &(i128, &str, Option<i128>, Logged))| {
        let known = kept.map_or("none".to_string(), |kept| kept.to_string());
        let lost = match line.lost {
            None => String::new(),
            Some(lost) if kept.is_some() => difference(lost + 1, 1, lost),
            Some(lost) => lost.to_string(),
        };
        format!(
            "{} | `{number:04x}` = {number} | {known} | {} | {} | {lost} | {name} | `{}`",
            i + 1,
            line.difference,
            line.order,
            hex(&line.answer)
        )
    };
    let rows: Vec<String> = worked.iter().enumerate().map(row).collect();
    let head =
        "Line | Number | Kept before | Number less kept | The line is | Lost | Move | Answer line";
    let lost: Vec<i128> = worked.iter().filter_map(|w| w.3.lost).collect();
    let sum = list(&lost).replace(", ", " + ");
    format!(
        "{}\n{} of {} lines are accepted, and {sum} = {} lines were lost before them.\n",
        table(head, &rows),
        lost.len(),
        worked.len(),
        lost.iter().sum::<i128>()
    )
}

// ---------------------------------------------------------------------------

/// A block of the document.
fn block(name: &str, content: String) {
    print!("<!-- by-hand: {name} -->\n{content}<!-- end -->\n");
}

fn print(name: &str, m: &Move, p1: &Move, sides: &[Side], v: Verdict) {
    let block = |what: &str, content: String| block(&format!("{name} {what}"), content);
    block("move", move_block(m, sides, v));
    if name == "E" {
        block("sound", sound_block('A', &m.a));
    }
    if name == "P3" {
        block("line", limit_block(m, p1));
    } else {
        block("line", line_block(m));
        block("sides", sides_block(sides));
    }
    block("spans", spans_block(m, sides));
    block("verdict", verdict_block(sides, v));
    match (v, extremes(sides)) {
        (Verdict::Contact(bearing, ..), (Time { n: 0, .. }, last)) => {
            check(
                last == Time { n: m.limit, d: 1 },
                "no time of the move is outside first to last",
            );
            block("bearing", bearing_block(sides, bearing));
        }
        _ => block("apart", apart_block(m, sides, v)),
    }
    if let Verdict::Contact(_, _, showing) = v {
        let common = common_point(m, extremes(sides).0, showing);
        block("moved", moved_block(m, &common));
        block("showing", showing_block(&common, showing));
        block("weights", weights_block(&common, showing));
    }
    let (frame, fields) = answer(sides, v);
    block("answer", frame_table(&frame, &fields));
}

fn main() {
    let wanted = std::env::args().nth(1).unwrap_or_default();
    check_wrong_edges();
    let p1 = read(example(1));
    let worked = ["P1", "F", "E", "P9", "P3", "P6"].map(|name| {
        let m = read(named(name));
        let sides = sides_of(&m);
        let v = verdict(&m, &sides);
        (name, m, sides, v)
    });
    let refused = ["P12", "D", "W", "L"].map(|name| (name, read_any(named(name))));
    let wrong = refused.each_ref().map(|(name, m)| {
        let w = wrong(m);
        (*name, m, w.expect("an outline that is not sound"))
    });
    let trays = read_trays(R);
    let trayed = trayed(&trays);
    let seconds = SECOND.map(|name| (name, second(name)));
    match wanted.as_str() {
        "--print" => {
            for (name, m, sides, v) in &worked {
                print(name, m, &p1, sides, *v);
            }
            trayed.print();
            for (name, second) in &seconds {
                second.print(name);
            }
            for (name, m, w) in &wrong {
                block(&format!("{name} move"), refused_block(m, w));
                block(&format!("{name} edge"), edge_block(w));
                block(&format!("{name} lower"), lower_block(w));
                block(&format!("{name} answer"), refusal_block(w));
            }
            block("log line", log_line_block());
            block("log rule", log_rule_block());
            block("log", log_block());
        }
        "--lines" => {
            let moves = worked.iter().map(|(_, m, ..)| m);
            let all = moves.chain(refused.iter().map(|(_, m)| m));
            all.for_each(|m| println!("{}", m.line));
            println!("{R}\n{}", corners_line(&trays));
        }
        "--answers" => {
            let moves = worked.iter().map(|(_, _, sides, v)| answer(sides, *v).0);
            let all = moves.chain(wrong.iter().map(|(.., w)| w.answer()));
            all.for_each(|answer| println!("{}", hex(&answer)));
            println!("{0}\n{0}", hex(&trayed.answer()));
        }
        "--log" => LOG.iter().for_each(|(number, name)| {
            let m = read_any(named(name));
            println!("{}", hex(&log_frame((*number).into(), &m)));
        }),
        "--log-answers" => worked_log()
            .iter()
            .for_each(|(.., line)| println!("{}", hex(&line.answer))),
        "--second" => seconds.iter().for_each(|(_, s)| println!("{}", s.m.line)),
        "--second-numbers" => seconds
            .iter()
            .for_each(|(_, s)| println!("{}", s.numbers())),
        _ => {
            eprintln!("usage: by_hand --print | --lines | --answers | --log | --log-answers | --second | --second-numbers");
            std::process::exit(2);
        }
    }
}
