//! Tests of the linked library through `stonefruitle.rs`: the paper's twelve cases, many moves and logs compared with the
//! independent program, and the lent bytes that must stay, the places for a kind and an edge among them. Rectangles are in
//! `tests_rectangles.rs`, the editions in `tests_editions.rs`. `tests/linked` builds and runs them.

#[allow(dead_code)]
#[path = "../../independent/src/checker.rs"]
mod checker;
#[allow(dead_code)]
#[path = "../../independent/src/edition.rs"]
mod edition;
#[allow(dead_code)]
#[path = "../../independent/src/frame.rs"]
mod frame;
#[allow(dead_code)]
#[path = "../../independent/src/generate.rs"]
mod generate;
#[allow(dead_code)]
#[path = "../../independent/src/log.rs"]
mod log;
#[allow(dead_code)]
#[path = "../../independent/src/rails.rs"]
mod rails;
#[allow(dead_code)]
#[path = "../../independent/src/rectangle.rs"]
mod rectangle;
#[allow(dead_code)]
#[path = "../../independent/src/runs.rs"]
mod runs;
#[allow(dead_code)]
#[path = "../../independent/src/stops.rs"]
mod stops;
#[allow(dead_code)]
#[path = "../../independent/src/straight.rs"]
mod straight;
mod tests_editions;
mod tests_rectangles;
#[allow(dead_code)]
#[path = "../../independent/src/trays.rs"]
mod trays;

use checker::{edge_named, point, verdict, Point, Verdict};
use generate::{Rng, Set, AT_ZERO, BAD_EDGES, BASE, STRAIGHT_CORNERS};
use runs::{Log, LOG, LOG_BAD_EDGES, LOG_STRAIGHT_CORNERS};
use std::cell::Cell;
use stonefruitle::linked::*;
use stonefruitle::*;

const SEED: u64 = 20_261;
const COUNT: u64 = 50_000;

/// So many logs, of requests fewer, and so many lines of each.
const LOGS: u64 = 2_000;
const BAD_LOGS: u64 = 500;
const LINES: usize = 50;

/// What lent bytes hold beforehand. No line has such a byte.
const BEFORE: u8 = 0xa5;

// ---------------------------------------------------------------------------
// The twelve cases

const S: [i64; 8] = [0, 0, 2, 0, 2, 2, 0, 2];
const BLOCK: [i64; 8] = [0, 0, 10, 0, 10, 10, 0, 10];
const BAR: [i64; 8] = [-5, -1, 5, -1, 5, 1, -5, 1];
const POST: [i64; 8] = [-1, -5, 1, -5, 1, 5, -1, 5];
const STAR: [i64; 10] = [10, 0, -8, 6, 3, -9, 3, 9, -8, -6];

struct Case {
    name: &'static str,
    a: Vec<i64>,
    b: Vec<i64>,
    velocity_b: (i64, i64),
    limit: i64,
    answer: Result<Answer, Refusal>,
    line: &'static str,
}

impl Case {
    fn asked(&self) -> Move<'_> {
        Move {
            a: &self.a,
            b: &self.b,
            velocity_a: (0, 0),
            velocity_b: self.velocity_b,
            limit: self.limit,
        }
    }
}

fn square(x: i64, y: i64) -> Vec<i64> {
    S.chunks(2).flat_map(|c| [c[0] + x, c[1] + y]).collect()
}

fn contact(
    first: (u32, u32),
    last: (u32, u32),
    bearing: Option<u8>,
    showing: Showing,
) -> Result<Answer, Refusal> {
    let time = |(n, d)| Time { n, d };
    Ok(Answer::Contact {
        first: time(first),
        last: time(last),
        bearing,
        showing,
    })
}

fn cases() -> Vec<Case> {
    use Showing::*;
    let case = |name, a: &[i64], b: Vec<i64>, velocity_b, limit, answer, line| Case {
        name,
        a: a.to_vec(),
        b,
        velocity_b,
        limit,
        answer,
        line,
    };
    vec![
        case(
            "P1",
            &S,
            square(5, 0),
            (-1, 0),
            10,
            contact((3, 1), (7, 1), Some(1), CornerOfA(1)),
            "81020000000300000001000000070000000101000100",
        ),
        case(
            "P2",
            &S,
            square(5, 0),
            (-1, 0),
            3,
            contact((3, 1), (3, 1), Some(1), CornerOfA(1)),
            "81020000000300000001000000030000000101000100",
        ),
        case(
            "P3",
            &S,
            square(5, 0),
            (-1, 0),
            2,
            Ok(Answer::ClearByOne(1)),
            "810001",
        ),
        case(
            "P4",
            &S,
            square(5, 0),
            (1, 0),
            10,
            Ok(Answer::ClearByOne(1)),
            "810001",
        ),
        case(
            "P5",
            &S,
            square(5, 0),
            (-2, 0),
            10,
            contact((3, 2), (7, 2), Some(1), CornerOfA(1)),
            "81020000000300000002000000070000000201000100",
        ),
        case(
            "P6",
            &S,
            square(5, 4),
            (-1, -3),
            10,
            Ok(Answer::ClearByTwo(1, 0)),
            "81010100",
        ),
        case(
            "P7",
            &S,
            square(5, 4),
            (-1, -1),
            10,
            contact((3, 1), (6, 1), Some(1), CornerOfA(2)),
            "81020000000300000001000000060000000101000200",
        ),
        case(
            "P8",
            &S,
            square(5, 5),
            (-1, -1),
            10,
            contact((3, 1), (7, 1), Some(0), CornerOfA(2)),
            "81020000000300000001000000070000000100000200",
        ),
        case(
            "P9",
            &S,
            square(2, 0),
            (0, 0),
            10,
            contact((0, 1), (10, 1), Some(1), CornerOfA(1)),
            "810200000000000000010000000a0000000101000100",
        ),
        case(
            "P10",
            &BLOCK,
            square(4, 4),
            (0, 0),
            10,
            contact((0, 1), (10, 1), None, CornerOfB(0)),
            "810200000000000000010000000a00000001ff010000",
        ),
        case(
            "P11",
            &BAR,
            POST.to_vec(),
            (0, 0),
            0,
            contact((0, 1), (0, 1), None, Edges(0, 1)),
            "810200000000000000010000000000000001ff020001",
        ),
        case(
            "P12",
            &STAR,
            S.to_vec(),
            (0, 0),
            10,
            Err(Refusal::First(0)),
            "81ff0800",
        ),
    ]
}

fn move_lines() -> Vec<&'static [u8]> {
    include_bytes!("../../examples/moves.txt")
        .split(|b| *b == b'\n')
        .filter(|l| !l.is_empty())
        .collect()
}

#[test]
fn twelve_cases_from_lists() {
    for case in cases() {
        let (written, out) = asked(|out| answer_lists_into(&case.asked(), out), ANSWER_ROOM);
        assert_answered(
            case.name,
            written,
            &out,
            case.line.as_bytes(),
            case.answer.err(),
        );
        assert_eq!(answer_lists(&case.asked()), case.answer, "{}", case.name);
    }
}

#[test]
fn twelve_cases_from_lines() {
    let lines = move_lines();
    assert_eq!(lines.len(), cases().len());
    for (case, line) in cases().iter().zip(lines) {
        let (written, out) = asked(|out| answer_line_into(line, out), ANSWER_ROOM);
        assert_answered(
            case.name,
            written,
            &out,
            case.line.as_bytes(),
            case.answer.err(),
        );
        assert_eq!(answer_line(line), case.answer, "{}", case.name);
        let kind = case.answer.map(|_| Kind::Outlines);
        assert_eq!(read_line(line), kind, "{}", case.name);
        match read_move(line) {
            Ok(read) => assert_eq!(read.as_move(), case.asked(), "{}", case.name),
            Err(refusal) => assert_eq!(Some(refusal), case.answer.err(), "{}", case.name),
        }
        let closed = [line, b"\n"].concat();
        assert_eq!(
            write_move(&case.asked()),
            case.answer.map(|_| closed),
            "{}",
            case.name
        );
    }
}

#[test]
fn clear_cases_may_go() {
    for case in cases() {
        let clear = answer_lists(&case.asked()).is_ok_and(|answer| answer.is_clear());
        assert_eq!(
            clear,
            ["P3", "P4", "P6"].contains(&case.name),
            "{}",
            case.name
        );
    }
}

#[test]
fn calls_side_by_side() {
    let threads: Vec<_> = (0..8)
        .map(|_| {
            std::thread::spawn(|| {
                for (case, line) in cases()
                    .iter()
                    .cycle()
                    .zip(move_lines().iter().cycle())
                    .take(12_000)
                {
                    assert_eq!(answer_lists(&case.asked()), case.answer, "{}", case.name);
                    assert_eq!(answer_line(line), case.answer, "{}", case.name);
                }
            })
        })
        .collect();
    for thread in threads {
        thread
            .join()
            .expect("every thread gets the answers of its own moves");
    }
}

#[test]
fn outlines_of_the_cases() {
    for case in cases() {
        assert_eq!(
            test_outline(&case.a).err(),
            case.answer.err(),
            "{}",
            case.name
        );
        assert_eq!(test_outline(&case.b), Ok(()), "{}", case.name);
    }
}

// ---------------------------------------------------------------------------
// What the tests share

/// A refusal of the independent program as the library has it, with its edge.
fn refused(refusal: frame::Refusal) -> Refusal {
    match refusal {
        frame::Refusal::Digits => Refusal::Digits,
        frame::Refusal::Kind => Refusal::Kind,
        frame::Refusal::Count => Refusal::Count,
        frame::Refusal::Limit => Refusal::Limit,
        frame::Refusal::Speed => Refusal::Speed,
        frame::Refusal::Place => Refusal::Place,
        frame::Refusal::First(edge) => Refusal::First(edge as u8),
        frame::Refusal::Second(edge) => Refusal::Second(edge as u8),
        frame::Refusal::Order => Refusal::Order,
        frame::Refusal::Edition => Refusal::Edition,
    }
}

/// That of an answer, if it is one.
fn refusal_of<T>(answer: &Result<T, frame::Refusal>) -> Option<Refusal> {
    answer.as_ref().err().map(|refusal| refused(*refusal))
}

/// The place of a refusal in a list of counts; 0 is that of none.
fn place_of(refusal: Option<Refusal>) -> usize {
    refusal.map_or(0, |refusal| refusal.number().into())
}

/// A call with so many bytes lent, and the bytes afterwards.
fn asked(call: impl Fn(&mut [u8]) -> Written, room: usize) -> (Written, Vec<u8>) {
    let mut out = vec![BEFORE; room];
    let written = call(&mut out);
    (written, out)
}

/// The line with its 0a stands at the start, the bytes after it as they were.
fn assert_answered(
    what: &str,
    written: Written,
    out: &[u8],
    line: &[u8],
    refusal: Option<Refusal>,
) {
    assert_eq!(written.refusal, refusal, "{what}");
    let closed = [line, b"\n"].concat();
    assert_eq!(written.bytes, closed.len(), "{what}");
    assert_eq!(shown(&out[..written.bytes]), shown(&closed), "{what}");
    assert!(
        out[written.bytes..].iter().all(|b| *b == BEFORE),
        "{what}: a byte after the line changed"
    );
}

fn assert_nothing_written(what: &str, written: Written, out: &[u8], refusal: Refusal) {
    assert_eq!(written.refusal, Some(refusal), "{what}");
    assert_eq!(written.bytes, 0, "{what}");
    assert!(out.iter().all(|b| *b == BEFORE), "{what}: a byte changed");
}

fn shown(bytes: &[u8]) -> String {
    String::from_utf8_lossy(bytes).into_owned()
}

/// A move that owns its lists.
#[derive(Clone, Debug)]
struct Lists {
    a: Vec<i64>,
    b: Vec<i64>,
    velocity_a: (i64, i64),
    velocity_b: (i64, i64),
    limit: i64,
}

impl Lists {
    fn of(m: &checker::Move) -> Lists {
        let list = |corners: &[Point]| {
            corners
                .iter()
                .flat_map(|p| [p.x as i64, p.y as i64])
                .collect()
        };
        let pair = |p: Point| (p.x as i64, p.y as i64);
        Lists {
            a: list(&m.a),
            b: list(&m.b),
            velocity_a: pair(m.velocity_a),
            velocity_b: pair(m.velocity_b),
            limit: m.limit as i64,
        }
    }

    fn asked(&self) -> Move<'_> {
        Move {
            a: &self.a,
            b: &self.b,
            velocity_a: self.velocity_a,
            velocity_b: self.velocity_b,
            limit: self.limit,
        }
    }
}

// ---------------------------------------------------------------------------
// What is expected of lists, from the paper and the independent verdict

fn in_range(n: i64) -> bool {
    (-10_000..=10_000).contains(&n)
}

fn counted(list: &[i64]) -> bool {
    list.len() % 2 == 0 && (3..=16).contains(&(list.len() / 2))
}

fn corners(list: &[i64]) -> Vec<Point> {
    list.chunks(2)
        .map(|c| point(c[0].into(), c[1].into()))
        .collect()
}

fn expected(m: &Lists) -> Result<checker::Move, frame::Refusal> {
    let pair = |(x, y): (i64, i64)| point(x.into(), y.into());
    let speeds = [
        m.velocity_a.0,
        m.velocity_a.1,
        m.velocity_b.0,
        m.velocity_b.1,
    ];
    if !counted(&m.a) || !counted(&m.b) {
        return Err(frame::Refusal::Count);
    }
    if !(0..=10_000).contains(&m.limit) {
        return Err(frame::Refusal::Limit);
    }
    if !speeds.into_iter().all(in_range) {
        return Err(frame::Refusal::Speed);
    }
    if !m.a.iter().chain(&m.b).all(|n| in_range(*n)) {
        return Err(frame::Refusal::Place);
    }
    if let Some(edge) = edge_named(&corners(&m.a)) {
        return Err(frame::Refusal::First(edge));
    }
    if let Some(edge) = edge_named(&corners(&m.b)) {
        return Err(frame::Refusal::Second(edge));
    }
    Ok(checker::Move {
        limit: m.limit.into(),
        velocity_a: pair(m.velocity_a),
        velocity_b: pair(m.velocity_b),
        a: corners(&m.a),
        b: corners(&m.b),
    })
}

fn expected_of_outline(list: &[i64]) -> Option<Refusal> {
    if !counted(list) {
        Some(Refusal::Count)
    } else if !list.iter().all(|n| in_range(*n)) {
        Some(Refusal::Place)
    } else {
        edge_named(&corners(list)).map(|edge| Refusal::First(edge as u8))
    }
}

/// The 71 numbers of the move of a line.
fn expected_numbers(m: Option<&checker::Move>) -> [i64; NUMBERS] {
    let mut numbers = [0; NUMBERS];
    if let Some(m) = m {
        let lists = Lists::of(m);
        let (va, vb) = (lists.velocity_a, lists.velocity_b);
        let counts = (m.a.len() as i64, m.b.len() as i64);
        numbers[..7].copy_from_slice(&[lists.limit, va.0, va.1, vb.0, vb.1, counts.0, counts.1]);
        numbers[7..7 + lists.a.len()].copy_from_slice(&lists.a);
        numbers[39..39 + lists.b.len()].copy_from_slice(&lists.b);
    }
    numbers
}

/// Holds every call that takes lists to what is expected.
fn check_lists(what: &str, m: &Lists, extra: usize) -> Result<Verdict, frame::Refusal> {
    let expected = expected(m);
    let refusal = refusal_of(&expected);
    let answer = expected.as_ref().map(verdict).map_err(|r| *r);

    let (written, out) = asked(
        |out| answer_lists_into(&m.asked(), out),
        ANSWER_ROOM + extra,
    );
    assert_answered(what, written, &out, &frame::write_answer(&answer), refusal);

    let (written, out) = asked(|out| write_move_into(&m.asked(), out), MOVE_ROOM + extra);
    match &expected {
        Ok(moved) => assert_answered(what, written, &out, &frame::write_move(moved), None),
        Err(refusal) => assert_nothing_written(what, written, &out, refused(*refusal)),
    }

    for list in [&m.a, &m.b] {
        let expected = expected_of_outline(list);
        assert_eq!(test_outline(list).err(), expected, "{what}");
        assert_edge(what, expected, extra, |edge| unsafe {
            stonefruitle_test_outline(list.as_ptr(), list.len(), edge)
        });
    }
    check_edges_of_lists(what, m, refusal, extra);
    tests_editions::check(what, m, &expected, extra);
    answer
}

/// Holds every call that takes a bare line to what is expected.
fn check_line(what: &str, line: &[u8], extra: usize) -> Result<Verdict, frame::Refusal> {
    let answer = frame::answer(line);
    let refusal = refusal_of(&answer);
    let (written, out) = asked(|out| answer_line_into(line, out), ANSWER_ROOM + extra);
    assert_answered(what, written, &out, &frame::write_answer(&answer), refusal);
    assert_eq!(answer_line(line).err(), refusal, "{what}");
    let kind = match frame::read_line(line) {
        Ok(frame::Asked::Outlines(_)) => Ok(Kind::Outlines),
        Ok(frame::Asked::Rectangles(_)) => Ok(Kind::Rectangles),
        Err(refusal) => Err(refused(refusal)),
    };
    assert_eq!(read_line(line), kind, "{what}");

    let read = frame::read_move(line);
    let mut numbers = [i64::MIN; NUMBERS];
    let returned = read_move_into(line, &mut numbers);
    assert_eq!(returned, refusal_of(&read), "{what}");
    assert_eq!(numbers, expected_numbers(read.as_ref().ok()), "{what}");
    tests_rectangles::check_read(what, line, extra);
    check_edges_of_line(what, line, refusal, refusal_of(&read), extra);
    answer
}

// ---------------------------------------------------------------------------
// Many moves

/// Lines of a set of classes; those that are moves also as lists, sound or not. How often each refusal came up.
fn check_lines(set: Set) -> [u64; 10] {
    let mut counts = [0; 10];
    for place in 0..COUNT {
        let class = generate::class_of_place(set, place);
        let line = generate::line(SEED, place, class);
        let what = format!("seed {SEED}, place {place}, {class:?}: {}", shown(&line));
        let extra = place as usize % 40;
        let answer = check_line(&what, &line, extra);
        let refusal = refusal_of(&answer);
        counts[place_of(refusal)] += 1;

        if let Some(m) = fields(&line, refusal) {
            let lists = Lists::of(&m);
            assert_eq!(check_lists(&what, &lists, extra), answer, "{what}");
            let moved = read_move(&line);
            let moved = moved.as_ref().map(ReadMove::as_move).map_err(|r| *r);
            assert_eq!(moved, refusal.map_or(Ok(lists.asked()), Err), "{what}");
        }
    }
    counts
}

/// The move of a line of kind 01 in which nothing is wrong but perhaps an outline.
fn fields(line: &[u8], refusal: Option<Refusal>) -> Option<checker::Move> {
    match refusal {
        None | Some(Refusal::First(_) | Refusal::Second(_)) => {
            let bytes = frame::bytes_of(line, frame::MOST_DIGITS)?;
            frame::read_fields(&bytes).ok()
        }
        _ => None,
    }
}

/// Lines of every class of document 01, the damaged among them.
#[test]
fn random_lines() {
    let counts = check_lines(BASE);
    println!("random lines by refusal: {counts:?}");
    assert!(
        counts[2..].iter().all(|n| *n > 0),
        "a refusal did not come up: {counts:?}"
    );
}

/// Lines of the classes of request Q-1, of which none is refused.
#[test]
fn random_lines_at_zero() {
    assert_eq!(check_lines(AT_ZERO)[0], COUNT);
}

/// Lines of the classes of request Q-3, which are refused with an edge, but for some with straight corners.
#[test]
fn random_lines_with_a_bad_edge() {
    let counts = check_lines(BAD_EDGES);
    assert!([0, 8, 9].iter().all(|r| counts[*r] > 0), "{counts:?}");
    assert_eq!(counts[0] + counts[8] + counts[9], COUNT);
}

/// Lines of the classes of request Q-8: accepted with straight corners, or refused with an edge.
#[test]
fn random_lines_with_straight_corners() {
    let counts = check_lines(STRAIGHT_CORNERS);
    assert!([0, 8, 9].iter().all(|r| counts[*r] > 0), "{counts:?}");
    assert_eq!(counts[0] + counts[8] + counts[9], COUNT);
}

/// Lists of a set of classes, none of them refused, with something changed: what no line can say is here, as an odd length
/// or a number of 64 bits.
fn check_changed_lists(set: Set) {
    let mut counts = [0; 10];
    for place in 0..COUNT {
        let mut rng = Rng::for_line(SEED + 1, place);
        let class = generate::class_of_place(set, place);
        let mut m = Lists::of(&generate::sound_move(&mut rng, class));
        for _ in 0..rng.range(0, 2) {
            change(&mut rng, &mut m);
        }
        let what = format!("seed {}, place {place}: {m:?}", SEED + 1);
        let answer = check_lists(&what, &m, place as usize % 40);
        counts[place_of(refusal_of(&answer))] += 1;
    }
    println!("random lists by refusal: {counts:?}");
    assert!(
        counts[4..].iter().all(|n| *n > 0),
        "a refusal did not come up: {counts:?}"
    );
}

#[test]
fn random_lists() {
    check_changed_lists(&BASE[..8]);
}

#[test]
fn random_lists_at_zero() {
    check_changed_lists(AT_ZERO);
}

#[test]
fn random_lists_with_straight_corners() {
    check_changed_lists(&STRAIGHT_CORNERS[..4]);
}

fn any_number(rng: &mut Rng) -> i64 {
    let chosen = [
        10_000,
        -10_000,
        10_001,
        -10_001,
        0,
        65_536,
        i64::MAX,
        i64::MIN,
    ];
    match rng.range(0, 3) {
        0 => rng.range(-11_000, 11_000) as i64,
        1 => rng.next() as i64,
        _ => chosen[rng.range(0, 7) as usize],
    }
}

fn change(rng: &mut Rng, m: &mut Lists) {
    let list = if rng.range(0, 1) == 0 {
        &mut m.a
    } else {
        &mut m.b
    };
    if list.is_empty() {
        return;
    }
    let at = rng.range(0, list.len() as i128 - 1) as usize;
    match rng.range(0, 9) {
        0 => list.truncate(at),
        1 => list.push(any_number(rng)),
        2 => {
            let length = rng.range(0, 40) as usize;
            list.resize(length, 1);
        }
        3 => m.limit = any_number(rng),
        4 => m.velocity_a.0 = any_number(rng),
        5 => m.velocity_b.1 = any_number(rng),
        6 => list[at] = any_number(rng),
        7 => list.swap(at, 0),
        8 => list.reverse(),
        _ => list[at] += rng.range(-2, 2) as i64,
    }
}

// ---------------------------------------------------------------------------
// Logs

fn log_lines() -> Vec<&'static [u8]> {
    include_bytes!("../../examples/log.txt")
        .split(|b| *b == b'\n')
        .filter(|l| !l.is_empty())
        .collect()
}

/// One step after any number, with all that it leaves, and with too little room.
fn check_step(what: &str, kept: Kept, line: &[u8], extra: usize) -> log::Step {
    let expected = log::step(kept, line);
    let refusal = refusal_of(&expected.answer);

    let mut out = vec![BEFORE; ANSWER_ROOM + extra];
    let step = log_step_into(kept, line, &mut out);
    let written = frame::write_answer(&expected.answer);
    assert_answered(what, step.written, &out, &written, refusal);
    assert_eq!(
        (step.kept, step.lost),
        (expected.kept, expected.lost),
        "{what}"
    );

    let room = extra.min(ANSWER_ROOM - 1);
    let mut out = vec![BEFORE; room];
    let step = log_step_into(kept, line, &mut out);
    assert_nothing_written(what, step.written, &out, Refusal::Room);
    assert_eq!((step.kept, step.lost), (kept, 0), "{what}");

    let step = log_step(kept, line);
    assert_eq!(step.answer.err(), refusal, "{what}");
    check_edges_of_step(what, kept, line, refusal, extra);
    assert_eq!(
        (step.kept, step.lost),
        (expected.kept, expected.lost),
        "{what}"
    );
    expected
}

/// The reader of log lines, which asks nothing of the order; and the bare line in a log line.
fn check_read_log(what: &str, line: &[u8]) -> Option<u16> {
    let expected = log::read_log(line);
    let refusal = refusal_of(&expected);
    let (mut number, mut numbers) = (0xa5a5, [i64::MIN; NUMBERS]);
    let returned = read_log_into(line, &mut number, &mut numbers);
    assert_eq!(returned, refusal, "{what}");
    let moved = expected.as_ref().ok().map(|(_, m)| m);
    assert_eq!(numbers, expected_numbers(moved), "{what}");
    assert_edge(what, refusal, line.len(), |edge| unsafe {
        let (mut number, mut numbers) = (0, [0; NUMBERS]);
        let (line, length) = (line.as_ptr(), line.len());
        stonefruitle_read_log(line, length, &mut number, numbers.as_mut_ptr(), edge)
    });
    assert_eq!(number, expected.as_ref().map_or(0, |(n, _)| *n), "{what}");

    match (read_log(line), expected) {
        (Ok((number, read)), Ok((expected, m))) => {
            assert_eq!(number, expected, "{what}");
            assert_eq!(read.as_move(), Lists::of(&m).asked(), "{what}");
            // Demand 2's one line: byte 03, the number and the frame that the move is written as.
            let frame = write_move(&read.as_move()).expect("what was read can be written");
            let written = [format!("03{number:04x}").as_bytes(), &frame].concat();
            assert_eq!(shown(&written), shown(line) + "\n", "{what}");
            Some(number)
        }
        (Err(given), Err(refusal)) => {
            assert_eq!(given, refused(refusal), "{what}");
            None
        }
        _ => panic!("{what}: one reads it and one does not"),
    }
}

/// Random logs. Each line is asked after the lines before it, and where it has a number, also after those from which it is
/// next, farthest forward, and out of order.
fn check_logs(set: runs::Set, logs: u64) -> [u64; 11] {
    let mut counts = [0u64; 11];
    let mut lost = 0;
    for run in 0..logs {
        let mut kept = None;
        for (place, (class, line)) in Log::new(SEED + run, set).take(LINES).enumerate() {
            let extra = (place + run as usize) % 60;
            let what = format!("seed {}, place {place}, {class:?}", SEED + run);
            let what = format!("{what}, after {kept:?}: {}", shown(&line));
            let expected = check_step(&what, kept, &line, extra);
            counts[place_of(refusal_of(&expected.answer))] += 1;
            lost += u64::from(expected.lost);
            let bare = refusal_of(&frame::answer(&line));
            assert_eq!(read_line(&line).err(), bare, "{what}");

            if let Some(number) = check_read_log(&what, &line) {
                for by in [0, 1, 2, 32_767, 32_768, 65_535] {
                    check_step(&what, Some(number.wrapping_sub(by)), &line, extra);
                }
                let after_none = check_step(&what, None, &line, extra);
                assert_eq!(after_none.answer, frame::answer(&line[6..]), "{what}");
                let bare = answer_line(&line[6..]);
                assert_eq!(log_step(None, &line).answer, bare, "{what}");
            }
            kept = expected.kept;
        }
    }
    println!("random logs by refusal: {counts:?}, {lost} lines lost");
    counts
}

#[test]
fn random_logs() {
    let counts = check_logs(LOG, LOGS);
    assert!(
        counts[0] > 0 && counts[2..].iter().all(|n| *n > 0),
        "a refusal did not come up: {counts:?}"
    );
}

/// Logs of request Q-8, in which lines with straight corners move the kept number.
#[test]
fn random_logs_with_straight_corners() {
    let counts = check_logs(LOG_STRAIGHT_CORNERS, BAD_LOGS);
    assert!([0, 8, 9, 10].iter().all(|r| counts[*r] > 0), "{counts:?}");
}

/// Logs of request Q-3, most of whose lines are refused with an edge.
#[test]
fn random_logs_with_a_bad_edge() {
    let counts = check_logs(LOG_BAD_EDGES, BAD_LOGS);
    assert!([0, 8, 9, 10].iter().all(|r| counts[*r] > 0), "{counts:?}");
}

/// The stored log, with each room for an answer that is too little.
#[test]
fn the_stored_log() {
    let answers: Vec<&str> = include_str!("../../examples/log-answers.txt")
        .lines()
        .collect();
    let (mut kept, mut lost) = (None, 0);
    for (line, answer) in log_lines().iter().zip(&answers) {
        for room in 0..ANSWER_ROOM {
            let expected = check_step(&shown(line), kept, line, room);
            let written = frame::write_answer(&expected.answer);
            assert_eq!(shown(&written), *answer);
        }
        let step = log_step(kept, line);
        kept = step.kept;
        lost += u32::from(step.lost);
    }
    assert_eq!((log_lines().len(), answers.len()), (24, 24));
    assert_eq!((kept, lost), (Some(0x8004), 32_769));
}

/// Every number after every one of some: forward, or out of order.
#[test]
fn every_difference() {
    let lines: Vec<Vec<u8>> = (0..=65_535)
        .map(|number| [format!("03{number:04x}").as_bytes(), move_lines()[2]].concat())
        .collect();
    for kept in [0u16, 1, 32_767, 32_768, 65_535] {
        for (number, line) in lines.iter().enumerate() {
            let step = log_step(Some(kept), line);
            // From the kept number up, round the rollover.
            let difference = (number + 65_536 - usize::from(kept)) % 65_536;
            let expected = match difference {
                1..=32_767 => (None, Some(number as u16), difference as u16 - 1),
                _ => (Some(Refusal::Order), Some(kept), 0),
            };
            let given = (step.answer.err(), step.kept, step.lost);
            assert_eq!(given, expected, "{number} after {kept}");
        }
    }
}

/// What C can hand in and the wrapper does not: a number beside "none is kept". It is not looked at and not handed on.
#[test]
fn a_number_that_is_not_kept() {
    let mut kept = 1u16;
    for line in log_lines() {
        for room in [ANSWER_ROOM - 1, ANSWER_ROOM] {
            kept = kept.wrapping_mul(31_421).wrapping_add(6_927);
            let expected = log::step(None, line);
            let mut out = [BEFORE; ANSWER_ROOM];
            let (mut some, mut number, mut lost, mut written, mut edge) =
                (true, 0xa5a5, 0xa5a5, 77, BEFORE);
            let refusal = unsafe {
                stonefruitle_log_step(
                    false,
                    kept,
                    line.as_ptr(),
                    line.len(),
                    out.as_mut_ptr(),
                    room,
                    &mut some,
                    &mut number,
                    &mut lost,
                    &mut written,
                    &mut edge,
                )
            };
            let after = match room {
                ANSWER_ROOM => expected.kept,
                _ => None,
            };
            let what = shown(line);
            assert_eq!(
                (some, number),
                (after.is_some(), after.unwrap_or(0)),
                "{what}"
            );
            assert_eq!(lost, 0, "{what}");
            if room < ANSWER_ROOM {
                assert_eq!((refusal, written, edge), (1, 0, BEFORE), "{what}");
                assert_eq!(out, [BEFORE; ANSWER_ROOM], "{what}");
            } else {
                let expected = refusal_of(&expected.answer);
                assert_eq!(usize::from(refusal), place_of(expected), "{what}");
                let named = expected.and_then(Refusal::edge);
                assert_eq!(edge, named.unwrap_or(BEFORE), "{what}");
            }
            if room == ANSWER_ROOM {
                let line = [frame::write_answer(&expected.answer), b"\n".to_vec()].concat();
                assert_eq!(shown(&out[..written]), shown(&line), "{what}");
            }
        }
    }
}

// ---------------------------------------------------------------------------
// Room

/// Refusal 1 comes before every other and writes nothing; with the least room a call writes.
#[test]
fn room() {
    let damaged: [&[u8]; 4] = [b"", b"0", b"02", b"not a line"];
    let lines = move_lines();
    for line in lines.iter().copied().chain(damaged) {
        for room in 0..ANSWER_ROOM {
            let (written, out) = asked(|out| answer_line_into(line, out), room);
            assert_nothing_written(&shown(line), written, &out, Refusal::Room);
        }
        let (written, out) = asked(|out| answer_line_into(line, out), ANSWER_ROOM);
        let answer = frame::answer(line);
        assert_answered(
            &shown(line),
            written,
            &out,
            &frame::write_answer(&answer),
            refusal_of(&answer),
        );
    }
    for case in cases() {
        let m = case.asked();
        for room in 0..ANSWER_ROOM {
            let (written, out) = asked(|out| answer_lists_into(&m, out), room);
            assert_nothing_written(case.name, written, &out, Refusal::Room);
        }
        for room in 0..MOVE_ROOM {
            let (written, out) = asked(|out| write_move_into(&m, out), room);
            assert_nothing_written(case.name, written, &out, Refusal::Room);
        }
    }
}

#[test]
fn empty_lists() {
    let none = Move {
        a: &[],
        b: &[],
        velocity_a: (0, 0),
        velocity_b: (0, 0),
        limit: 0,
    };
    assert_eq!(answer_lists(&none), Err(Refusal::Count));
    assert_eq!(write_move(&none), Err(Refusal::Count));
    assert_eq!(test_outline(&[]), Err(Refusal::Count));
    assert_eq!(answer_line(&[]), Err(Refusal::Digits));
    assert_eq!(read_line(&[]), Err(Refusal::Digits));
    assert_eq!(read_move(&[]), Err(Refusal::Digits));
    assert_eq!(read_log(&[]), Err(Refusal::Digits));
    assert_eq!(log_step(Some(7), &[]).answer, Err(Refusal::Digits));
}

#[test]
fn other_lines_are_no_answers() {
    let lines = [
        "",
        "81",
        "8100",
        "810001 ",
        "8102",
        "81ff00",
        "81ff0b",
        "820001",
        "81000101",
        // 8 and 9 come with an edge, the others without.
        "81ff08",
        "81ff09",
        "81ff080000",
        "81ff0200",
        "81ff0700",
        "81ff0a00",
    ];
    for line in lines {
        assert_eq!(Answer::of_line(line.as_bytes()), None, "{line}");
    }
}

/// Each refusal line says its refusal.
#[test]
fn refusal_lines() {
    let refusals = [
        ("81ff01", Refusal::Room),
        ("81ff02", Refusal::Digits),
        ("81ff03", Refusal::Kind),
        ("81ff04", Refusal::Count),
        ("81ff05", Refusal::Limit),
        ("81ff06", Refusal::Speed),
        ("81ff07", Refusal::Place),
        ("81ff0800", Refusal::First(0)),
        ("81ff080f", Refusal::First(15)),
        ("81ff0901", Refusal::Second(1)),
        ("81ff0a", Refusal::Order),
    ];
    for (line, refusal) in refusals {
        assert_eq!(Answer::of_line(line.as_bytes()), Some(Err(refusal)));
        assert_eq!(refusal.edge().is_some(), line.len() == 8);
        assert_eq!(line[4..6], format!("{:02x}", refusal.number()));
        assert_eq!(refusal.to_string().contains("edge"), line.len() == 8);
    }
}

// ---------------------------------------------------------------------------
// Straight corners

/// The outlines of request Q-8, and what they are taken for.
#[test]
fn straight_corners() {
    let edge = |list: &[i64]| match test_outline(list) {
        Ok(()) => None,
        Err(Refusal::First(edge)) => Some(edge),
        Err(other) => panic!("{list:?}: {other}"),
    };
    assert_eq!(edge(&[0, 0, 1, 0, 2, 0, 0, 2]), None);
    assert_eq!(edge(&STAR), Some(0));
    // Out of order along an edge, begun at each corner: that edge alone is wrong, the last one too.
    let mut corners = vec![0, 0, 2, 0, 1, 0, 3, 0, 0, 3];
    for back in [1, 0, 4, 3, 2] {
        assert_eq!(edge(&corners), Some(back), "{corners:?}");
        corners.rotate_left(2);
    }
    // A corner twice, beside and apart: the lower edge that starts there, whatever follows.
    assert_eq!(edge(&[0, 0, 2, 0, 2, 0, 0, 2]), Some(1));
    assert_eq!(edge(&[0, 0, 2, 0, 0, 2, 0, 0]), Some(0));
    assert_eq!(edge(&[0, 0, 2, 0, 2, 2, 0, 2, 2, 0]), Some(1));
    assert_eq!(edge(&[0, 0, 2, 0, 2, 2, 0, 2, 2, 2, 1, 3]), Some(2));
    // All on one line, and at one place.
    assert_eq!(edge(&[0, 0, 1, 0, 2, 0]), Some(0));
    assert_eq!(edge(&[4, 2, 0, 0, 2, 1, 6, 3, 2, 1]), Some(0));
    assert_eq!(edge(&[10_000; 32]), Some(0));
    // Twice round, where no corner is to the right of an edge.
    assert_eq!(edge(&[S, S].concat()), Some(0));
}

/// Sixteen corners of a triangle, begun at each: all are sound, and with two of them exchanged along an edge each edge is named.
#[test]
fn sixteen_corners_of_a_triangle() {
    let mut corners: Vec<i64> = vec![
        0, 0, 2, 0, 4, 0, 6, 0, 8, 0, 10, 0, 8, 2, 6, 4, 4, 6, 2, 8, 0, 10, 0, 8, 0, 6, 0, 4, 0, 2,
        0, 1,
    ];
    let mut exchanged = corners.clone();
    exchanged[2..6].rotate_left(2);
    let mut named = Vec::new();
    for _ in 0..16 {
        assert_eq!(test_outline(&corners), Ok(()));
        named.push(test_outline(&exchanged).unwrap_err().edge());
        corners.rotate_left(2);
        exchanged.rotate_left(2);
    }
    named.sort();
    assert_eq!(named, (0..16).map(Some).collect::<Vec<_>>());
}

// ---------------------------------------------------------------------------
// The place for an edge, which the wrapper keeps to itself

/// A call writes the edge of its refusal, and where that has none leaves what stood there, which differs from turn to turn.
fn assert_edge(what: &str, refusal: Option<Refusal>, turn: usize, call: impl Fn(*mut u8) -> u8) {
    let before = [BEFORE, 0, 1, 255][turn % 4];
    let mut edge = before;
    assert_eq!(usize::from(call(&mut edge)), place_of(refusal), "{what}");
    let named = refusal.and_then(Refusal::edge);
    assert_eq!(edge, named.unwrap_or(before), "{what}: the edge");
}

/// `of_kind_01` is what the reader of that kind refuses it with.
fn check_edges_of_line(
    what: &str,
    line: &[u8],
    refusal: Option<Refusal>,
    of_kind_01: Option<Refusal>,
    turn: usize,
) {
    let (at, length) = (line.as_ptr(), line.len());
    for (room, refusal) in [
        (ANSWER_ROOM, refusal),
        (ANSWER_ROOM - 1, Some(Refusal::Room)),
    ] {
        assert_edge(what, refusal, turn, |edge| unsafe {
            let (mut out, mut written) = ([0; ANSWER_ROOM], 0);
            stonefruitle_answer_line(at, length, out.as_mut_ptr(), room, &mut written, edge)
        });
    }
    // The kind is written where nothing is refused, and left alone otherwise.
    let before = [BEFORE, 0, 1, 2][turn / 4 % 4];
    let kind = Cell::new(before);
    assert_edge(what, refusal, turn, |edge| unsafe {
        stonefruitle_read_line(at, length, kind.as_ptr(), edge)
    });
    let expected = match refusal {
        Some(_) => before,
        None => line[1] - b'0',
    };
    assert_eq!(kind.get(), expected, "{what}: the kind");
    assert_edge(what, of_kind_01, turn, |edge| unsafe {
        let mut numbers = [0; NUMBERS];
        stonefruitle_read_move(at, length, numbers.as_mut_ptr(), edge)
    });
}

fn check_edges_of_lists(what: &str, m: &Lists, refusal: Option<Refusal>, turn: usize) {
    for (call, room) in [
        (stonefruitle_answer_lists as FromLists, ANSWER_ROOM),
        (stonefruitle_write_move as FromLists, MOVE_ROOM),
    ] {
        for (room, refusal) in [(room, refusal), (room - 1, Some(Refusal::Room))] {
            assert_edge(what, refusal, turn, |edge| {
                called(call, m, &mut vec![0; room], edge).0
            });
        }
    }
}

/// A call that takes lists: what it returns, and how many bytes it says that it wrote.
fn called(call: FromLists, m: &Lists, out: &mut [u8], edge: *mut u8) -> (u8, usize) {
    let mut written = 77;
    let ((vax, vay), (vbx, vby)) = (m.velocity_a, m.velocity_b);
    let returned = unsafe {
        call(
            m.a.as_ptr(),
            m.a.len(),
            m.b.as_ptr(),
            m.b.len(),
            vax,
            vay,
            vbx,
            vby,
            m.limit,
            out.as_mut_ptr(),
            out.len(),
            &mut written,
            edge,
        )
    };
    (returned, written)
}

fn check_edges_of_step(what: &str, kept: Kept, line: &[u8], refusal: Option<Refusal>, turn: usize) {
    for (room, refusal) in [
        (ANSWER_ROOM, refusal),
        (ANSWER_ROOM - 1, Some(Refusal::Room)),
    ] {
        assert_edge(what, refusal, turn, |edge| unsafe {
            let (mut out, mut written) = ([0; ANSWER_ROOM], 0);
            let (mut some, mut number, mut lost) = (false, 0, 0);
            stonefruitle_log_step(
                kept.is_some(),
                kept.unwrap_or(0),
                line.as_ptr(),
                line.len(),
                out.as_mut_ptr(),
                room,
                &mut some,
                &mut number,
                &mut lost,
                &mut written,
                edge,
            )
        });
    }
}
