//! Tests of logs (request Q-2), run by `rustc --test`.

use super::checker::Move;
use super::frame::{self, write_answer, write_move, Refusal};
use super::log::*;
use super::runs::{Log, LOG};
use super::tests::paper_cases;
use super::{count_log, log_cases, LOG_CASES};

fn p(case: usize) -> Move {
    paper_cases()[case - 1].0.clone()
}

/// What the program prints for a log.
fn printed(input: &[u8]) -> String {
    let mut output = Vec::new();
    super::answer_log(input, &mut output).unwrap();
    String::from_utf8(output).unwrap()
}

/// The log of such lines, and what is printed for it.
fn printed_of(lines: &[Vec<u8>]) -> String {
    printed(&lines.join(&b'\n'))
}

fn refusal(line: &str) -> u8 {
    read_log(line.as_bytes()).unwrap_err().number()
}

#[test]
fn a_log_line_is_03_a_number_and_a_frame() {
    let p1 = "010404000a00000000ffff00000000000000020000000200020000000200050000000700000007000200050002";
    assert_eq!(write_log(0, &p(1)), format!("030000{p1}").as_bytes());
    assert_eq!(write_log(258, &p(1)), format!("030102{p1}").as_bytes());
    assert_eq!(write_log(65_535, &p(1)), format!("03ffff{p1}").as_bytes());
    for number in 0..=65_535 {
        assert_eq!(read_log(&write_log(number, &p(1))), Ok((number, p(1))));
    }
}

#[test]
fn the_first_refusal_that_applies_is_given() {
    assert_eq!(refusal(""), 2);
    assert_eq!(refusal("0"), 2);
    assert_eq!(refusal("03000"), 2);
    assert_eq!(refusal("03000A"), 2);
    assert_eq!(refusal("030000\r"), 2);
    assert_eq!(refusal(&"0".repeat(287)), 2);
    assert_eq!(refusal(&"0".repeat(289)), 2);
    assert_eq!(refusal(&"0".repeat(290)), 2);
    assert_eq!(refusal(&"0".repeat(288)), 3);
    assert_eq!(refusal("00"), 3);
    assert_eq!(refusal("01"), 3);
    assert_eq!(refusal("020000"), 3);
    assert_eq!(refusal("03000000"), 3);
    assert_eq!(refusal("03000003"), 3);
    // Without a fourth byte its kind cannot be wrong.
    assert_eq!(refusal("03"), 4);
    assert_eq!(refusal("0300"), 4);
    assert_eq!(refusal("030000"), 4);
    assert_eq!(refusal("03000001"), 4);
    assert_eq!(refusal("0300000103"), 4);
    assert_eq!(refusal("030000010303"), 4);

    // A bare line, and a log line where bare ones are read.
    for case in 1..=12 {
        let bare = String::from_utf8(write_move(&p(case))).unwrap();
        assert_eq!(refusal(&bare), 3);
        assert_eq!(frame::answer(&write_log(7, &p(case))), Err(Refusal::Kind));
    }
    // After the head all is as it is for the bare line.
    let of = |change: &dyn Fn(&mut Move)| {
        let mut m = p(1);
        change(&mut m);
        read_log(&write_log(9, &m)).err().map(Refusal::number)
    };
    assert_eq!(of(&|_| ()), None);
    assert_eq!(of(&|m| m.a.truncate(2)), Some(4));
    assert_eq!(of(&|m| m.limit = 10_001), Some(5));
    assert_eq!(of(&|m| m.velocity_a.y = -10_001), Some(6));
    assert_eq!(of(&|m| m.b[0].x = 10_001), Some(7));
    assert_eq!(of(&|m| m.a.reverse()), Some(8));
    assert_eq!(of(&|m| m.b.reverse()), Some(9));
    // One byte too many and one too few.
    let good = String::from_utf8(write_log(9, &p(1))).unwrap();
    assert_eq!(refusal(&format!("{good}00")), 4);
    assert_eq!(refusal(&good[..good.len() - 2]), 4);
}

/// Against the request's words, at each difference: counted up one by one, the
/// step from 65,535 to 0 among them.
#[test]
fn numbers_are_taken_round_the_rollover() {
    for kept in [0u16, 1, 2, 12_345, 32_766, 32_767, 32_768, 65_534, 65_535] {
        let mut number = kept;
        for difference in 0..65_536 {
            let expected = match difference {
                1..=32_767 => Some(difference as u16 - 1),
                _ => None,
            };
            assert_eq!(lost(Some(kept), number), expected);
            number = if number == 65_535 { 0 } else { number + 1 };
        }
        assert_eq!(number, kept);
        assert_eq!(lost(None, kept), Some(0));
    }
}

#[test]
fn a_step_says_what_is_kept_and_lost() {
    let ask = |kept: Kept, number: u16, m: &Move| {
        let Step { answer, kept, lost } = step(kept, &write_log(number, m));
        (answer.err().map_or(0, Refusal::number), kept, lost)
    };
    let unsound = p(12);
    assert_eq!(ask(None, 0, &p(1)), (0, Some(0), 0));
    assert_eq!(ask(None, 40_000, &p(1)), (0, Some(40_000), 0));
    assert_eq!(ask(None, 40_000, &unsound), (8, None, 0));
    assert_eq!(ask(Some(7), 8, &p(1)), (0, Some(8), 0));
    assert_eq!(ask(Some(7), 9, &p(1)), (0, Some(9), 1));
    assert_eq!(ask(Some(7), 9, &unsound), (8, Some(7), 0));
    assert_eq!(ask(Some(7), 7, &p(1)), (10, Some(7), 0));
    assert_eq!(ask(Some(7), 6, &p(1)), (10, Some(7), 0));
    assert_eq!(ask(Some(7), 6, &unsound), (8, Some(7), 0));
    assert_eq!(ask(Some(7), 32_774, &p(1)), (0, Some(32_774), 32_766));
    assert_eq!(ask(Some(7), 32_775, &p(1)), (10, Some(7), 0));
    assert_eq!(ask(Some(65_535), 0, &p(1)), (0, Some(0), 0));
    assert_eq!(ask(Some(65_534), 3, &p(1)), (0, Some(3), 4));
    assert_eq!(ask(Some(0), 65_535, &p(1)), (10, Some(0), 0));
}

#[test]
fn lines_of_a_log_are_answered_in_order() {
    let p3 = |number| write_log(number, &p(3));
    assert_eq!(printed(b""), "");
    assert_eq!(printed(b"\n"), "81ff02\n");
    assert_eq!(printed(&p3(5)), "810001\n");
    assert_eq!(
        printed_of(&[p3(5), p3(5), p3(6)]),
        "810001\n81ff0a\n810001\n"
    );
    // Refused lines of each kind between, the last of them out of order.
    let damaged = ["", "0", "01", "03", "0300ff", "x", &"0".repeat(1_000_000)];
    for line in damaged {
        let log = [p3(5), line.into(), p3(9), line.into(), p3(6), p3(10)];
        let refused = write_answer(&Err(read_log(line.as_bytes()).unwrap_err()));
        let refused = String::from_utf8(refused).unwrap();
        let expected = format!("810001\n{refused}\n810001\n{refused}\n81ff0a\n810001\n");
        assert_eq!(printed_of(&log), expected);
    }
}

/// The answers for accepted lines equal those of the bare frames, in order;
/// and what is refused after its head is refused as a bare frame is.
#[test]
fn accepted_lines_are_answered_as_bare_ones() {
    let mut kept = None;
    for (class, line) in Log::new(5, LOG).take(20_000) {
        assert!(!line.contains(&b'\n'));
        let step = step(kept, &line);
        if let Ok((number, m)) = read_log(&line) {
            assert_eq!(write_log(number, &m), line, "{class:?}");
            let order = lost(kept, number);
            assert_eq!(step.answer.is_ok(), order.is_some());
            assert_eq!(step.lost, order.unwrap_or(0));
        }
        match step.answer {
            Err(Refusal::Digits | Refusal::Kind | Refusal::Count | Refusal::Order) => {
                assert_eq!(step.kept, kept)
            }
            Err(refusal) => {
                assert_eq!(frame::answer(&line[6..]), Err(refusal), "{class:?}");
                assert_eq!(step.kept, kept);
            }
            Ok(_) => {
                assert_eq!(step.answer, frame::answer(&line[6..]), "{class:?}");
                assert_eq!(write_log(step.kept.unwrap(), &frame_of(&line)), line);
            }
        }
        kept = step.kept;
    }
}

fn frame_of(line: &[u8]) -> Move {
    frame::read_move(&line[6..]).unwrap()
}

#[test]
fn the_generator_meets_every_case() {
    let (table, lost) = count_log(3, 20_000, LOG);
    let met = |column: usize| table.rows.iter().map(|row| row.2[column]).sum::<u64>();
    for (column, case) in LOG_CASES.iter().enumerate() {
        assert!(
            met(column) >= if *case == "first" { 1 } else { 300 },
            "{case}"
        );
    }
    assert!(lost > 0);
    let lengths: Vec<usize> = Log::new(3, LOG)
        .take(20_000)
        .map(|(_, l)| l.len())
        .collect();
    for length in [0, 1, 2, 4, 6, 8, 285, 286, 287, 288, 289, 290, 291] {
        assert!(lengths.contains(&length), "{length} digits");
    }
    // A log is the same each time, and another one for another seed.
    let of = |seed: u64| Log::new(seed, LOG).take(500).collect::<Vec<_>>();
    assert_eq!(of(3), of(3));
    assert_ne!(of(3), of(4));
}

/// The table of the stored log, row by row.
#[test]
fn the_stored_log_is_as_its_page_says() {
    let lines: Vec<&str> = include_str!("../../examples/log.txt").lines().collect();
    let answers: Vec<&str> = include_str!("../../examples/log-answers.txt")
        .lines()
        .collect();
    let page = include_str!("../../examples/README.md");
    let table = page
        .split("\n## A log\n")
        .nth(1)
        .expect("the page has a log");
    let rows: Vec<Vec<String>> = table
        .lines()
        .filter(|row| row.starts_with("| ") && !row.starts_with("| Line"))
        .map(|row| {
            row.split('|')
                .map(|c| c.replace(['`', ','], "").trim().to_string())
                .collect()
        })
        .collect();
    assert_eq!((lines.len(), answers.len()), (rows.len(), rows.len()));

    let (mut kept, mut all_lost, mut accepted) = (None, 0u32, 0);
    let mut met = Vec::new();
    for (i, (line, row)) in lines.iter().zip(&rows).enumerate() {
        let step = step(kept, line.as_bytes());
        let known = kept.map_or("none".to_string(), |kept: u16| kept.to_string());
        // The number and the difference of lines of which they can be read.
        let number = read_log(line.as_bytes()).map(|(number, _)| number).ok();
        let difference = match (kept, number) {
            (Some(kept), Some(number)) => steps(kept, number).to_string(),
            _ => String::new(),
        };
        let lost = step.answer.map_or(String::new(), |_| step.lost.to_string());
        let answer = String::from_utf8(write_answer(&step.answer)).unwrap();
        if !row[2].is_empty() {
            assert_eq!(row[2], line[2..6], "line {}", i + 1);
        }
        let expected = [(i + 1).to_string(), known, difference, lost, answer];
        let found = [&row[1], &row[3], &row[4], &row[5], &row[7]];
        assert_eq!(found, expected.each_ref(), "line {}", i + 1);
        assert_eq!(row[7], answers[i]);
        met.extend(log_cases(kept, line.as_bytes(), &step));
        kept = step.kept;
        all_lost += u32::from(step.lost);
        accepted += step.answer.is_ok() as u32;
    }
    assert_eq!((accepted, all_lost), (7, 32_769));
    assert!(LOG_CASES.iter().all(|case| met.contains(case)));
}
