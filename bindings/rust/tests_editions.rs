//! Tests of the two editions (request Q-6) and of the number of sides worked (request Q-7) through the linked library: the
//! numbers and the answer of each edition are compared with the independent program, which counts sides by its own loop; those of edition 1 also with the answer line; any other edition is refused before all else.
//! `check` is asked of all lists that are tested, whatever their class.

use super::*;
use generate::{RAILS, STOPS};

/// Each is 1 or 2 if bits of it are cut off, or next to one of them.
const OTHERS: [u64; 10] = [
    0,
    3,
    255,
    256 + 1,
    256 + 2,
    65_536 + 1,
    (1 << 32) + 1,
    (1 << 32) + 2,
    (1 << 63) + 1,
    u64::MAX,
];

fn time(t: checker::Fraction) -> Time {
    Time {
        n: t.n as u32,
        d: t.d as u32,
    }
}

/// What the independent program says, as the wrapper has it; of edition 1 by way of the answer line.
fn said(said: edition::Said) -> EditionAnswer {
    match said {
        edition::Said::OfFirst(verdict) => {
            let line = frame::write_answer(&Ok(verdict));
            EditionAnswer::First(Answer::of_line(&line).unwrap().unwrap())
        }
        edition::Said::OfSecond(second) => EditionAnswer::Second(match second {
            edition::Second::ClearByOne(k) => SecondAnswer::ClearByOne(k as u8),
            edition::Second::ClearByTwo(i, j) => SecondAnswer::ClearByTwo(i as u8, j as u8),
            edition::Second::Contact { first, last } => SecondAnswer::Contact {
                first: time(first),
                last: time(last),
            },
        }),
    }
}

/// The same with the number of sides worked.
fn answered(answer: edition::Answer) -> Answered {
    Answered {
        answer: said(answer.said),
        sides_worked: answer.worked as u8,
    }
}

/// The number of sides worked as document 02 says it by cases, from the answer that stands beside it.
fn worked_by_cases(m: &Lists, answer: EditionAnswer) -> usize {
    match answer {
        EditionAnswer::First(Answer::ClearByOne(k))
        | EditionAnswer::Second(SecondAnswer::ClearByOne(k)) => usize::from(k) + 1,
        _ => (m.a.len() + m.b.len()) / 2,
    }
}

/// The numbers that an answer line, without its 0a, says. It says nothing of the sides worked.
fn numbers_of_line(line: &[u8]) -> [u64; ANSWER_NUMBERS] {
    let frame = frame::bytes_of(line, frame::MOST_DIGITS).unwrap();
    let number = |at: usize| {
        let bytes = &frame[at..at + 4];
        bytes.iter().fold(0, |n, b| 256 * n + u64::from(*b))
    };
    let mut all = [0; ANSWER_NUMBERS];
    match frame[1] {
        0 => all[1] = frame[2].into(),
        1 => all[..3].copy_from_slice(&[1, frame[2].into(), frame[3].into()]),
        2 => {
            all[0] = 2;
            for (at, from) in [(3, 2), (4, 6), (5, 10), (6, 14)] {
                all[at] = number(from);
            }
            for (at, byte) in (7..).zip(&frame[18..]) {
                all[at] = u64::from(*byte);
            }
        }
        _ => {}
    }
    all
}

/// What a call returns, the numbers it leaves, and the edge, which stood as `before`.
fn called_in(edition: u64, m: &Lists, before: u8) -> (u8, [u64; ANSWER_NUMBERS], u8) {
    // One number more on each side, which have to stay.
    let mut numbers = [u64::MAX; ANSWER_NUMBERS + 2];
    let mut edge = before;
    let copy = m.clone();
    let returned = unsafe {
        stonefruitle_answer_edition(
            edition,
            m.a.as_ptr(),
            m.a.len(),
            m.b.as_ptr(),
            m.b.len(),
            m.velocity_a.0,
            m.velocity_a.1,
            m.velocity_b.0,
            m.velocity_b.1,
            m.limit,
            numbers[1..].as_mut_ptr(),
            &mut edge,
        )
    };
    assert_eq!((&m.a, &m.b), (&copy.a, &copy.b), "a list is written");
    assert_eq!(numbers[0], u64::MAX, "a number before the twelve");
    assert_eq!(numbers[13], u64::MAX, "a number after the twelve");
    let twelve = std::array::from_fn(|i| numbers[i + 1]);
    (returned, twelve, edge)
}

/// Holds the call to what is expected of these lists in both editions, and in one that there is none of.
pub fn check(what: &str, m: &Lists, expected: &Result<checker::Move, frame::Refusal>, turn: usize) {
    let read = expected.as_ref().map_err(|refusal| *refusal);
    for edition in [1, 2, OTHERS[turn % OTHERS.len()]] {
        let what = format!("edition {edition}, {what}");
        let expected = edition::answer(edition, read);
        let refusal = refusal_of(&expected);
        let before = [BEFORE, 0, 1, 255][turn % 4];
        let (returned, numbers, edge) = called_in(edition, m, before);
        assert_eq!(usize::from(returned), place_of(refusal), "{what}");
        assert_eq!(numbers, edition::numbers(&expected), "{what}");
        let named = refusal.and_then(Refusal::edge);
        assert_eq!(edge, named.unwrap_or(before), "{what}: the edge");

        let mut numbers = [7; ANSWER_NUMBERS];
        let given = answer_edition_into(edition, &m.asked(), &mut numbers);
        assert_eq!(given, refusal, "{what}");
        assert_eq!(numbers, edition::numbers(&expected), "{what}");
        let answer = expected.map(answered).map_err(refused);
        assert_eq!(answer_edition(edition, &m.asked()), answer, "{what}");
        match answer {
            Err(_) => assert_eq!(numbers, [0; ANSWER_NUMBERS], "{what}"),
            Ok(Answered {
                answer,
                sides_worked,
            }) => {
                let worked = usize::from(sides_worked);
                assert_eq!(worked, worked_by_cases(m, answer), "{what}");
                assert!((1..=32).contains(&worked), "{what}");
                assert_eq!(numbers[11], u64::from(sides_worked), "{what}");
            }
        }
    }

    // Edition 1 is the answer line.
    let (written, out) = asked(|out| answer_lists_into(&m.asked(), out), ANSWER_ROOM);
    let line = &out[..written.bytes - 1];
    let (returned, numbers, _) = called_in(1, m, BEFORE);
    assert_eq!(usize::from(returned), place_of(written.refusal), "{what}");
    assert_eq!(numbers[..11], numbers_of_line(line)[..11], "{what}");
    let answer = answer_lists(&m.asked()).map(EditionAnswer::First);
    assert_eq!(only_answer(1, &m.asked()), answer, "{what}");
}

/// The answer without the number of sides worked.
fn only_answer(edition: u64, m: &Move) -> Result<EditionAnswer, Refusal> {
    answer_edition(edition, m).map(|answered| answered.answer)
}

fn lists_of(case: &Case) -> Lists {
    Lists {
        a: case.a.clone(),
        b: case.b.clone(),
        velocity_a: (0, 0),
        velocity_b: case.velocity_b,
        limit: case.limit,
    }
}

/// The sides worked of the twelve cases, in edition 1 and in edition 2: side 1 is the second, and two squares have eight.
const WORKED: [(u64, u64); 12] = [
    (8, 8),
    (8, 2),
    (2, 2),
    (2, 2),
    (8, 8),
    (8, 8),
    (8, 8),
    (8, 8),
    (8, 2),
    (8, 8),
    (8, 8),
    (0, 0),
];

/// The twelve cases in edition 2: P2 and P9, which only touch, are clear; the others are as in edition 1.
#[test]
fn twelve_cases_in_edition_2() {
    use SecondAnswer::*;
    let contact = |first: (u32, u32), last: (u32, u32)| Contact {
        first: Time {
            n: first.0,
            d: first.1,
        },
        last: Time {
            n: last.0,
            d: last.1,
        },
    };
    let expected = [
        (Ok(contact((3, 1), (7, 1))), [3, 0, 0, 3, 1, 7, 1]),
        (Ok(ClearByOne(1)), [0, 1, 0, 0, 0, 0, 0]),
        (Ok(ClearByOne(1)), [0, 1, 0, 0, 0, 0, 0]),
        (Ok(ClearByOne(1)), [0, 1, 0, 0, 0, 0, 0]),
        (Ok(contact((3, 2), (7, 2))), [3, 0, 0, 3, 2, 7, 2]),
        (Ok(ClearByTwo(1, 0)), [1, 1, 0, 0, 0, 0, 0]),
        (Ok(contact((3, 1), (6, 1))), [3, 0, 0, 3, 1, 6, 1]),
        (Ok(contact((3, 1), (7, 1))), [3, 0, 0, 3, 1, 7, 1]),
        (Ok(ClearByOne(1)), [0, 1, 0, 0, 0, 0, 0]),
        (Ok(contact((0, 1), (10, 1))), [3, 0, 0, 0, 1, 10, 1]),
        (Ok(contact((0, 1), (0, 1))), [3, 0, 0, 0, 1, 0, 1]),
        (Err(Refusal::First(0)), [0; 7]),
    ];
    for ((case, (answer, numbers)), worked) in cases().iter().zip(expected).zip(WORKED) {
        let answer = answer.map(EditionAnswer::Second);
        assert_eq!(only_answer(2, &case.asked()), answer, "{}", case.name);
        let (_, given, _) = called_in(2, &lists_of(case), BEFORE);
        assert_eq!(given[..7], numbers, "{}", case.name);
        assert_eq!(given[7..11], [0; 4], "{}", case.name);
        assert_eq!(given[11], worked.1, "{}", case.name);
        let first = case.answer.map(EditionAnswer::First);
        assert_eq!(only_answer(1, &case.asked()), first, "{}", case.name);
        let (_, given, _) = called_in(1, &lists_of(case), BEFORE);
        assert_eq!(given[11], worked.0, "{}", case.name);
        let clear = answer.is_ok_and(|answer| answer.is_clear());
        let names = ["P2", "P3", "P4", "P6", "P9"];
        assert_eq!(clear, names.contains(&case.name), "{}", case.name);
    }
}

/// Refusal 11 comes before 4 and all that follows it, for every other number.
#[test]
fn other_editions() {
    let mut all: Vec<Lists> = cases().iter().map(lists_of).collect();
    let empty = Lists {
        a: vec![],
        b: vec![],
        velocity_a: (i64::MAX, 0),
        velocity_b: (0, i64::MIN),
        limit: -1,
    };
    let odd = Lists {
        a: vec![20_000; 7],
        ..empty.clone()
    };
    all.extend([empty.clone(), odd.clone()]);
    for m in &all {
        let near = (0..64).flat_map(|bit| [(1 << bit) + 1, (1 << bit) + 2, 1 << bit]);
        for edition in OTHERS.into_iter().chain(near) {
            if edition == 1 || edition == 2 {
                continue;
            }
            let given = called_in(edition, m, BEFORE);
            assert_eq!(given, (11, [0; ANSWER_NUMBERS], BEFORE), "{edition}: {m:?}");
            let refused = Err(Refusal::Edition);
            assert_eq!(answer_edition(edition, &m.asked()), refused, "{edition}");
        }
    }
    for edition in [1, 2] {
        assert_eq!(answer_edition(edition, &empty.asked()), Err(Refusal::Count));
        assert_eq!(answer_edition(edition, &odd.asked()), Err(Refusal::Count));
    }
    assert_eq!(Refusal::Edition.number(), 11);
    assert_eq!(Refusal::Edition.edge(), None);
}

/// Moves of the classes of Q-6, as lines and as lists in both editions. How often each case of edition 2 came up, how often
/// the editions differ, and how often each number of sides was worked.
#[test]
fn random_lines_of_rails() {
    assert_eq!(check_lines(RAILS)[0], COUNT);
    let mut counts = [0; 4];
    let mut differ = 0;
    let mut worked = [0; 33];
    for place in 0..COUNT {
        let class = generate::class_of_place(RAILS, place);
        let m = generate::sound_move(&mut Rng::for_line(SEED, place), class);
        let lists = Lists::of(&m);
        let first = answer_edition(1, &lists.asked()).expect("it is sound");
        let second = answer_edition(2, &lists.asked()).expect("it is sound");
        counts[called_in(2, &lists, BEFORE).1[0] as usize] += 1;
        for answered in [first, second] {
            worked[usize::from(answered.sides_worked)] += 1;
        }
        differ += u64::from(first.is_clear() != second.is_clear());
        // Contact in edition 2 is contact in edition 1.
        assert!(second.is_clear() || !first.is_clear(), "{lists:?}");
    }
    println!("random moves of Q-6 by case of edition 2: {counts:?}; clear there alone: {differ}");
    assert!(counts[0] > 1000 && counts[1] > 1000 && counts[3] > 1000);
    assert!(counts[2] == 0 && differ > 1000);
    println!("by sides worked, from 1: {:?}", &worked[1..]);
    assert!(worked[0] == 0 && worked[1] > 1000 && worked[32] > 100);
    assert!(worked[1..].iter().all(|count| *count > 0));
}

/// Lists of the classes of Q-7, by the side at which work stops.
#[test]
fn random_lists_of_stops() {
    let mut to_last = 0;
    for place in 0..14_000 {
        let class = generate::class_of_place(STOPS, place);
        let m = generate::sound_move(&mut Rng::for_line(SEED, place), class);
        let lists = Lists::of(&m);
        let what = format!("seed {SEED}, place {place}: {lists:?}");
        let given = answer_edition(1, &lists.asked()).expect("it is sound");
        let every = m.a.len() + m.b.len();
        let is_clear_by_one = matches!(given.answer, EditionAnswer::First(Answer::ClearByOne(_)));
        to_last += u64::from(is_clear_by_one && usize::from(given.sides_worked) == every);
        check(&what, &lists, &Ok(m), place as usize);
    }
    println!("clear by one at the last side: {to_last}");
    assert!(to_last >= 2000);
}

/// Lists of the classes of Q-6 with something changed.
#[test]
fn random_lists_of_rails() {
    check_changed_lists(RAILS);
}

#[test]
fn editions_side_by_side() {
    let threads: Vec<_> = (0..8u64)
        .map(|thread| {
            std::thread::spawn(move || {
                let all = cases();
                for turn in 0..12_000u64 {
                    let case = &all[(turn % 12) as usize];
                    let read = expected(&lists_of(case));
                    let read = read.as_ref().map_err(|refusal| *refusal);
                    let edition = 1 + (turn / 12 + thread) % 3;
                    let expected = edition::answer(edition, read);
                    let answer = expected.map(answered).map_err(refused);
                    assert_eq!(answer_edition(edition, &case.asked()), answer);
                }
            })
        })
        .collect();
    for thread in threads {
        thread
            .join()
            .expect("every thread gets the answers of its own edition");
    }
}
