//! Tests of rectangles (request Q-5) through the linked library: lines of kind 02, alone and mixed with kind 01, and lists of
//! any length. Each answer is compared with the independent program and with the library's own answer to the four corners.

use super::*;
use rectangle::RectangleMove as Expected;
use trays::{ACCEPTED, MIXED, TRAYS};

const ROOM: usize = RECTANGLES_ROOM;

// ---------------------------------------------------------------------------
// What is expected

/// Of a line, where only one of kind 02 will do.
fn expected_of_line(line: &[u8]) -> Result<Expected, frame::Refusal> {
    match frame::bytes_of(line, frame::MOST_DIGITS) {
        None => Err(frame::Refusal::Digits),
        Some(bytes) if bytes[0] != 2 => Err(frame::Refusal::Kind),
        Some(bytes) => rectangle::read_frame(&bytes),
    }
}

/// Of lists.
fn expected_of_lists(m: &Lists) -> Result<Expected, frame::Refusal> {
    let pair = |x: i64, y: i64| point(x.into(), y.into());
    let (&[ax, ay, au, av], &[bx, by, bu, bv]) = (&m.a[..], &m.b[..]) else {
        return Err(frame::Refusal::Count);
    };
    let expected = Expected {
        limit: m.limit.into(),
        velocity_a: pair(m.velocity_a.0, m.velocity_a.1),
        velocity_b: pair(m.velocity_b.0, m.velocity_b.1),
        a: rectangle::Rectangle {
            low: pair(ax, ay),
            high: pair(au, av),
        },
        b: rectangle::Rectangle {
            low: pair(bx, by),
            high: pair(bu, bv),
        },
    };
    match rectangle::refusal(&expected) {
        Some(refusal) => Err(refusal),
        None => Ok(expected),
    }
}

/// The lists of a move of kind 02.
fn lists_of(m: &Expected) -> Lists {
    let pair = |p: Point| (p.x as i64, p.y as i64);
    let list = |r: rectangle::Rectangle| [r.low.x, r.low.y, r.high.x, r.high.y].map(|n| n as i64);
    Lists {
        a: list(m.a).to_vec(),
        b: list(m.b).to_vec(),
        velocity_a: pair(m.velocity_a),
        velocity_b: pair(m.velocity_b),
        limit: m.limit as i64,
    }
}

/// The same as the wrapper takes it.
fn asked_of(m: &Expected) -> RectangleMove {
    let pair = |p: Point| (p.x as i64, p.y as i64);
    let one = |r: rectangle::Rectangle| Rectangle {
        low: pair(r.low),
        high: pair(r.high),
    };
    RectangleMove {
        a: one(m.a),
        b: one(m.b),
        velocity_a: pair(m.velocity_a),
        velocity_b: pair(m.velocity_b),
        limit: m.limit as i64,
    }
}

fn closed(line: Vec<u8>) -> Vec<u8> {
    [line, b"\n".to_vec()].concat()
}

// ---------------------------------------------------------------------------
// What every call is held to

/// The reader of lines of kind 02, for any line.
pub fn check_read(what: &str, line: &[u8], turn: usize) {
    let expected = expected_of_line(line);
    let refusal = refusal_of(&expected);
    let mut all = [0; RECTANGLES_NUMBERS];
    if let Ok(m) = &expected {
        let lists = lists_of(m);
        let (va, vb) = (lists.velocity_a, lists.velocity_b);
        all[..5].copy_from_slice(&[lists.limit, va.0, va.1, vb.0, vb.1]);
        all[5..9].copy_from_slice(&lists.a);
        all[9..].copy_from_slice(&lists.b);
    }
    let mut numbers = [i64::MIN; RECTANGLES_NUMBERS];
    assert_eq!(read_rectangles_into(line, &mut numbers), refusal, "{what}");
    assert_eq!(numbers, all, "{what}");
    assert_edge(what, refusal, turn, |edge| unsafe {
        let mut numbers = [0; RECTANGLES_NUMBERS];
        stonefruitle_read_rectangles(line.as_ptr(), line.len(), numbers.as_mut_ptr(), edge)
    });
    assert_eq!(
        read_rectangles(line),
        expected.map(|m| asked_of(&m)).map_err(refused),
        "{what}"
    );
}

/// A call that takes lists, with so much room: it returns the refusal, and has written the line and nothing else, or nothing
/// where there is none to write.
fn assert_called(
    what: &str,
    call: FromLists,
    m: &Lists,
    room: usize,
    refusal: Option<Refusal>,
    line: Option<&[u8]>,
) {
    let mut out = vec![BEFORE; room];
    let mut edge = BEFORE;
    let (returned, bytes) = called(call, m, &mut out, &mut edge);
    assert_eq!(usize::from(returned), place_of(refusal), "{what}");
    let named = refusal.and_then(Refusal::edge);
    assert_eq!(edge, named.unwrap_or(BEFORE), "{what}: the edge");
    let line = line.map_or(Vec::new(), |line| closed(line.to_vec()));
    assert_eq!(shown(&out[..bytes]), shown(&line), "{what}");
    assert!(out[bytes..].iter().all(|b| *b == BEFORE), "{what}");
}

/// Both calls that take lists, with all the room they ask for and more, and with one byte too little.
fn check_rectangle_lists(what: &str, m: &Lists, extra: usize) -> Result<Verdict, frame::Refusal> {
    let expected = expected_of_lists(m);
    let refusal = refusal_of(&expected);
    let answer = expected.map(|m| rectangle::verdict(&m));
    let answered = frame::write_answer(&answer);
    let call = stonefruitle_answer_rectangles as FromLists;
    assert_called(what, call, m, ANSWER_ROOM, refusal, Some(&answered));
    assert_called(what, call, m, ANSWER_ROOM + extra, refusal, Some(&answered));
    assert_called(what, call, m, ANSWER_ROOM - 1, Some(Refusal::Room), None);

    let line = expected.ok().map(|m| rectangle::write(&m));
    let call = stonefruitle_write_rectangles as FromLists;
    assert_called(what, call, m, ROOM, refusal, line.as_deref());
    assert_called(what, call, m, ROOM + extra, refusal, line.as_deref());
    assert_called(what, call, m, ROOM - 1, Some(Refusal::Room), None);

    if let (Ok(expected), Some(line)) = (&expected, line) {
        check_ways_round(what, &asked_of(expected), &line);
    }
    answer
}

/// A move that is accepted: what is written is read as it was, the wrapper gives what the calls give, and from numbers, from
/// the line of kind 02 and from the four corners the answer is the same.
fn check_ways_round(what: &str, m: &RectangleMove, line: &[u8]) {
    assert_eq!(write_rectangles(m), Ok(closed(line.to_vec())), "{what}");
    assert_eq!(read_rectangles(line).as_ref(), Ok(m), "{what}");
    assert_eq!(read_line(line), Ok(Kind::Rectangles), "{what}");
    assert_eq!(read_move(line), Err(Refusal::Kind), "{what}");

    let answer = answer_rectangles(m);
    assert!(answer.is_ok(), "{what}");
    assert_eq!(answer_line(line), answer, "{what}");
    let (a, b) = (m.a.outline(), m.b.outline());
    let corners = Move {
        a: &a,
        b: &b,
        velocity_a: m.velocity_a,
        velocity_b: m.velocity_b,
        limit: m.limit,
    };
    assert_eq!(
        answer_edition(1, &corners).map(|answered| answered.answer),
        answer.map(EditionAnswer::First),
        "{what}"
    );
    let from_numbers = asked(|out| answer_rectangles_into(m, out), 60);
    let from_corners = asked(|out| answer_lists_into(&corners, out), 60);
    assert_eq!(from_numbers, from_corners, "{what}");
    let written = write_move(&corners).expect("four corners of a rectangle are sound");
    let line_of_corners = &written[..written.len() - 1];
    assert_eq!(answer_line(line_of_corners), answer, "{what}");
    assert_eq!(read_line(line_of_corners), Ok(Kind::Outlines), "{what}");
    assert_eq!(read_rectangles(line_of_corners), Err(Refusal::Kind));
}

// ---------------------------------------------------------------------------
// The cases of document 01

fn rectangle_lines() -> Vec<&'static [u8]> {
    include_bytes!("../../examples/rectangles.txt")
        .split(|b| *b == b'\n')
        .filter(|l| !l.is_empty())
        .collect()
}

/// P1 to P11 as rectangles have the answers of document 01; what follows them is P11 with names exchanged, and two refusals.
#[test]
fn cases_from_rectangles() {
    let lines = rectangle_lines();
    for (case, line) in cases()[..11].iter().zip(&lines) {
        assert_eq!(answer_line(line), case.answer, "{}", case.name);
        let m = read_rectangles(line).expect(case.name);
        assert_eq!(m.a.outline()[..], case.a, "{}", case.name);
        assert_eq!(m.b.outline()[..], case.b, "{}", case.name);
        assert_eq!(answer_rectangles(&m), case.answer, "{}", case.name);
    }
    let exchanged = contact((0, 1), (0, 1), None, Showing::Edges(1, 0));
    assert_eq!(answer_line(lines[11]), exchanged);
    assert_eq!(answer_line(lines[12]), Err(Refusal::First(0)));
    assert_eq!(answer_line(lines[13]), Err(Refusal::Second(0)));
    assert_eq!(lines.len(), 14);
}

#[test]
fn rectangles_side_by_side() {
    let threads: Vec<_> = (0..8)
        .map(|_| {
            std::thread::spawn(|| {
                let pairs = rectangle_lines().into_iter().zip(move_lines()).take(11);
                for (rectangles, corners) in pairs.collect::<Vec<_>>().iter().cycle().take(11_000) {
                    assert_eq!(answer_line(rectangles), answer_line(corners));
                }
            })
        })
        .collect();
    for thread in threads {
        thread
            .join()
            .expect("every thread gets the answers of its own moves");
    }
}

// ---------------------------------------------------------------------------
// Many moves

/// Lines of a set; those of kind 02 in which all fields can be read also as lists. How often each refusal came up.
fn check_tray_lines(set: trays::Set, count: u64) -> [u64; 10] {
    let mut counts = [0; 10];
    for place in 0..count {
        let class = trays::class_of_place(set, place);
        let line = trays::line(SEED, place, class);
        let what = format!("seed {SEED}, place {place}, {class:?}: {}", shown(&line));
        let extra = place as usize % 40;
        let answer = check_line(&what, &line, extra);
        counts[place_of(refusal_of(&answer))] += 1;
        if let Some(lists) = lists_in(&line) {
            assert_eq!(
                check_rectangle_lists(&what, &lists, extra),
                answer,
                "{what}"
            );
        }
        // In a log a line of kind 02 is of no kind that there is.
        if line.starts_with(b"02") && answer.is_ok() {
            let in_log = [format!("03{:04x}", place % 65_536).as_bytes(), &line].concat();
            let step = log_step(Some(place as u16), &in_log);
            assert_eq!(step.answer, Err(Refusal::Kind), "{what}");
            assert_eq!((step.kept, step.lost), (Some(place as u16), 0), "{what}");
            assert_eq!(read_log(&in_log), Err(Refusal::Kind), "{what}");
        }
    }
    println!("random lines with rectangles by refusal: {counts:?}");
    counts
}

/// The numbers of a line of kind 02, whatever they are.
fn lists_in(line: &[u8]) -> Option<Lists> {
    let bytes = frame::bytes_of(line, frame::MOST_DIGITS)?;
    if bytes[0] != 2 || bytes.len() != rectangle::BYTES {
        return None;
    }
    let signed = |at: usize| i64::from(i16::from_be_bytes([bytes[at], bytes[at + 1]]));
    let four = |at: usize| [0, 2, 4, 6].map(|by| signed(at + by)).to_vec();
    Some(Lists {
        a: four(11),
        b: four(19),
        velocity_a: (signed(3), signed(5)),
        velocity_b: (signed(7), signed(9)),
        limit: i64::from(u16::from_be_bytes([bytes[1], bytes[2]])),
    })
}

#[test]
fn random_rectangles() {
    let counts = check_tray_lines(TRAYS, COUNT);
    assert!(
        counts[0] > 0 && counts[2..].iter().all(|n| *n > 0),
        "a refusal did not come up: {counts:?}"
    );
}

#[test]
fn random_lines_of_both_kinds() {
    check_tray_lines(MIXED, COUNT / 2);
}

/// Lists with something changed: what no line can say is here, as another length or a number of 64 bits.
#[test]
fn random_lists_of_rectangles() {
    let mut counts = [0; 10];
    for place in 0..COUNT {
        let mut rng = Rng::for_line(SEED + 2, place);
        let class = trays::class_of_place(&TRAYS[..ACCEPTED], place);
        let mut m = lists_of(&trays::sound_move(&mut rng, class));
        for _ in 0..rng.range(0, 2) {
            change(&mut rng, &mut m);
        }
        let what = format!("seed {}, place {place}: {m:?}", SEED + 2);
        let answer = check_rectangle_lists(&what, &m, place as usize % 40);
        counts[place_of(refusal_of(&answer))] += 1;
    }
    println!("random lists of rectangles by refusal: {counts:?}");
    assert!(
        counts[0] > 0 && counts[4..].iter().all(|n| *n > 0),
        "a refusal did not come up: {counts:?}"
    );
}

/// Lists of every length up to 40, on either side and on both: only four numbers will do.
#[test]
fn lists_of_other_lengths() {
    let lengths = (0..40).flat_map(|n| [(n, 4), (4, n), (n, n)]);
    for (a, b) in lengths {
        let list = |length: usize| [0, 0, 2, 2].into_iter().cycle().take(length).collect();
        let m = Lists {
            a: list(a),
            b: list(b),
            velocity_a: (0, 0),
            velocity_b: (1, 0),
            limit: 10,
        };
        let answer = check_rectangle_lists(&format!("{a} and {b} numbers"), &m, 3);
        assert_eq!(answer.is_ok(), a == 4 && b == 4);
        if answer.is_err() {
            assert_eq!(answer, Err(frame::Refusal::Count));
        }
        // Refusal 4 comes before all that is wrong with the numbers.
        let wrong = Lists {
            limit: -1,
            velocity_a: (i64::MAX, 0),
            a: m.a.iter().map(|n| n + 20_000).collect(),
            ..m
        };
        let answer = check_rectangle_lists(&format!("{a} and {b} numbers"), &wrong, 3);
        assert!(answer.is_err());
    }
}

/// Refusal 1 comes before every other and writes nothing, at each room that is too little.
#[test]
fn room_for_rectangles() {
    for line in rectangle_lines() {
        let m = lists_in(line).expect("the examples have 27 bytes");
        let what = shown(line);
        for room in 0..ROOM {
            let call = stonefruitle_write_rectangles as FromLists;
            assert_called(&what, call, &m, room, Some(Refusal::Room), None);
        }
        for room in 0..ANSWER_ROOM {
            let call = stonefruitle_answer_rectangles as FromLists;
            assert_called(&what, call, &m, room, Some(Refusal::Room), None);
            let (written, out) = asked(|out| answer_line_into(line, out), room);
            assert_nothing_written(&what, written, &out, Refusal::Room);
        }
    }
}

#[test]
fn a_line_of_kind_02_of_another_length() {
    let p1 = rectangle_lines()[0];
    for length in 1..=141 {
        let line: Vec<u8> = p1.iter().copied().cycle().take(2 * length).collect();
        let refusal = (length != 27).then_some(Refusal::Count);
        assert_eq!(read_line(&line).err(), refusal, "{length}");
        assert_eq!(read_rectangles(&line).err(), refusal, "{length}");
        assert_eq!(answer_line(&line).err(), refusal, "{length}");
        assert_eq!(read_move(&line), Err(Refusal::Kind), "{length}");
        let answer = check_line(&format!("{length} bytes"), &line, length);
        assert_eq!(refusal_of(&answer), refusal, "{length}");
    }
    let long = [p1, &[b'0'; 230]].concat();
    assert_eq!(read_rectangles(&long), Err(Refusal::Digits));
    assert_eq!(read_rectangles(b""), Err(Refusal::Digits));
    assert_eq!(read_rectangles(b"01"), Err(Refusal::Kind));
    assert_eq!(read_rectangles(b"03"), Err(Refusal::Kind));
}
