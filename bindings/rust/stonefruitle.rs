//! The checker for Rust programs: safe functions over the static library.
//!
//! **`Ok` and "no refusal" mean "not refused", and a contact is not refused.** A caller who goes on `Ok` drives into the
//! other carriage. Let a move go where `is_clear` of its answer says so, and on nothing else: `examples/rust/answer.rs` does.
//! `docs/FORMAT.md` has every byte of the lines; the head of `include/stonefruitle.h` says what a call costs.
//!
//! Standard library only. From the top of the repository:
//!
//! ```text
//! (cd crates/stonefruitle_c && rt lib)
//! rustc -O --edition 2021 --crate-type rlib -L crates/stonefruitle_c/out bindings/rust/stonefruitle.rs --out-dir target
//! rustc -O --edition 2021 --extern stonefruitle=target/libstonefruitle.rlib PROGRAM.rs
//! ```
//!
//! What each function answers is proved of the library (`crates/stonefruitle_c/src/lib.rt`). Not proved is this file:
//! the calls below, and that `Answer::of_line` and `Answered` take answers apart as they are put together.

use linked::*;
use std::fmt;

/// The C functions as they are linked, below the safe ones; `include/stonefruitle.h` says what each asks of its pointers.
pub mod linked {
    #[link(name = "stonefruitle_c", kind = "static")]
    extern "C" {
        pub fn stonefruitle_answer_line(
            line: *const u8,
            line_length: usize,
            out: *mut u8,
            out_length: usize,
            written: *mut usize,
            edge: *mut u8,
        ) -> u8;
        pub fn stonefruitle_answer_lists(
            a: *const i64,
            a_length: usize,
            b: *const i64,
            b_length: usize,
            vax: i64,
            vay: i64,
            vbx: i64,
            vby: i64,
            limit: i64,
            out: *mut u8,
            out_length: usize,
            written: *mut usize,
            edge: *mut u8,
        ) -> u8;
        pub fn stonefruitle_answer_edition(
            edition: u64,
            a: *const i64,
            a_length: usize,
            b: *const i64,
            b_length: usize,
            vax: i64,
            vay: i64,
            vbx: i64,
            vby: i64,
            limit: i64,
            numbers: *mut u64,
            edge: *mut u8,
        ) -> u8;
        pub fn stonefruitle_write_move(
            a: *const i64,
            a_length: usize,
            b: *const i64,
            b_length: usize,
            vax: i64,
            vay: i64,
            vbx: i64,
            vby: i64,
            limit: i64,
            out: *mut u8,
            out_length: usize,
            written: *mut usize,
            edge: *mut u8,
        ) -> u8;
        pub fn stonefruitle_answer_rectangles(
            a: *const i64,
            a_length: usize,
            b: *const i64,
            b_length: usize,
            vax: i64,
            vay: i64,
            vbx: i64,
            vby: i64,
            limit: i64,
            out: *mut u8,
            out_length: usize,
            written: *mut usize,
            edge: *mut u8,
        ) -> u8;
        pub fn stonefruitle_write_rectangles(
            a: *const i64,
            a_length: usize,
            b: *const i64,
            b_length: usize,
            vax: i64,
            vay: i64,
            vbx: i64,
            vby: i64,
            limit: i64,
            out: *mut u8,
            out_length: usize,
            written: *mut usize,
            edge: *mut u8,
        ) -> u8;
        pub fn stonefruitle_read_line(
            line: *const u8,
            line_length: usize,
            kind: *mut u8,
            edge: *mut u8,
        ) -> u8;
        pub fn stonefruitle_read_move(
            line: *const u8,
            line_length: usize,
            numbers: *mut i64,
            edge: *mut u8,
        ) -> u8;
        pub fn stonefruitle_read_rectangles(
            line: *const u8,
            line_length: usize,
            numbers: *mut i64,
            edge: *mut u8,
        ) -> u8;
        pub fn stonefruitle_log_step(
            kept_some: bool,
            kept_number: u16,
            line: *const u8,
            line_length: usize,
            out: *mut u8,
            out_length: usize,
            kept_some_after: *mut bool,
            kept_number_after: *mut u16,
            lost: *mut u16,
            written: *mut usize,
            edge: *mut u8,
        ) -> u8;
        pub fn stonefruitle_read_log(
            line: *const u8,
            line_length: usize,
            number: *mut u16,
            numbers: *mut i64,
            edge: *mut u8,
        ) -> u8;
        pub fn stonefruitle_test_outline(
            coordinates: *const i64,
            length: usize,
            edge: *mut u8,
        ) -> u8;
    }

    /// The four functions that take a move as numbers and write a line.
    pub type FromLists = unsafe extern "C" fn(
        *const i64,
        usize,
        *const i64,
        usize,
        i64,
        i64,
        i64,
        i64,
        i64,
        *mut u8,
        usize,
        *mut usize,
        *mut u8,
    ) -> u8;
}

/// The least room for an answer line and for a move line of either kind, 0a included.
pub const ANSWER_ROOM: usize = 45;
pub const MOVE_ROOM: usize = 283;
pub const RECTANGLES_ROOM: usize = 55;

/// How many numbers a read move is, of outlines and of rectangles.
pub const NUMBERS: usize = 71;
pub const RECTANGLES_NUMBERS: usize = 13;

/// How many numbers an answer in an edition is.
pub const ANSWER_NUMBERS: usize = 12;

/// The kinds of a move line.
#[derive(Clone, Copy, Debug, PartialEq, Eq)]
pub enum Kind {
    /// 01: two outlines of 3 to 16 corners.
    Outlines,
    /// 02: two upright rectangles.
    Rectangles,
}

/// Why a move is turned away, with its number. Of several that apply, the first is given.
#[derive(Clone, Copy, Debug, PartialEq, Eq, PartialOrd, Ord)]
pub enum Refusal {
    /// 1: too few bytes lent for the line.
    Room,
    /// 2: a line that is empty, odd in length, over 282 digits (288 in a log), or with another character than 0-9 and a-f.
    Digits,
    /// 3: a line whose first byte is neither 01 nor 02, or of another kind than is read; in a log, not 03, or a fourth byte is
    /// there and is not 01.
    Kind,
    /// 4: a count of corners outside 3 to 16, a list of odd length, or a line of another length than its counts ask for; of
    /// rectangles, a list not of four numbers or a line not of 27 bytes.
    Count,
    /// 5: the limit is outside 0 to 10,000.
    Limit,
    /// 6: a velocity component is outside -10,000 to 10,000.
    Speed,
    /// 7: a coordinate is outside -10,000 to 10,000.
    Place,
    /// 8: the first outline is not sound: two corners are equal, all lie on one line, or one lies to the right of an edge's
    /// line. This is 0 if all are on one line, else its lowest edge that has a corner to its right or whose start equals
    /// another corner; edge i runs from corner i to the next, the last to corner 0. Of a rectangle, whose low is then not
    /// below its high in x or in y, it is 0.
    First(u8),
    /// 9: the second outline or rectangle, likewise.
    Second(u8),
    /// 10: a line of a log whose number does not follow the kept one.
    Order,
    /// 11: the edition named is neither 1 nor 2. It comes before `Count`.
    Edition,
}

impl Refusal {
    pub fn number(self) -> u8 {
        match self {
            Refusal::Room => 1,
            Refusal::Digits => 2,
            Refusal::Kind => 3,
            Refusal::Count => 4,
            Refusal::Limit => 5,
            Refusal::Speed => 6,
            Refusal::Place => 7,
            Refusal::First(_) => 8,
            Refusal::Second(_) => 9,
            Refusal::Order => 10,
            Refusal::Edition => 11,
        }
    }

    /// The edge that is wrong, with `First` and `Second`.
    pub fn edge(self) -> Option<u8> {
        match self {
            Refusal::First(edge) | Refusal::Second(edge) => Some(edge),
            _ => None,
        }
    }

    /// The refusal of a number from 1 to 11, with the edge that stands beside 8 and 9; it is not looked at beside the others.
    fn of(number: u8, edge: u8) -> Option<Refusal> {
        match number {
            1 => Some(Refusal::Room),
            2 => Some(Refusal::Digits),
            3 => Some(Refusal::Kind),
            4 => Some(Refusal::Count),
            5 => Some(Refusal::Limit),
            6 => Some(Refusal::Speed),
            7 => Some(Refusal::Place),
            8 => Some(Refusal::First(edge)),
            9 => Some(Refusal::Second(edge)),
            10 => Some(Refusal::Order),
            11 => Some(Refusal::Edition),
            _ => None,
        }
    }

    /// What a call returned and left as the edge: no refusal for 0. The library returns no number above 11.
    fn returned(number: u8, edge: u8) -> Option<Refusal> {
        match number {
            0 => None,
            n => Some(Refusal::of(n, edge).expect("a refusal is from 1 to 11")),
        }
    }
}

impl fmt::Display for Refusal {
    fn fmt(&self, f: &mut fmt::Formatter) -> fmt::Result {
        let why = match self {
            Refusal::Room => "too few bytes lent for the line",
            Refusal::Digits => "the line is not one of whole hexadecimal bytes",
            Refusal::Kind => "the line is not a move",
            Refusal::Count => "a count of corners or numbers is out of range or does not fit",
            Refusal::Limit => "the limit is out of range",
            Refusal::Speed => "a velocity is out of range",
            Refusal::Place => "a coordinate is out of range",
            Refusal::First(_) => "the first outline is not sound",
            Refusal::Second(_) => "the second outline is not sound",
            Refusal::Order => "the line of the log is out of order",
            Refusal::Edition => "there is no such edition",
        };
        match self.edge() {
            None => f.write_str(why),
            Some(edge) => write!(f, "{why}: its edge {edge} is wrong"),
        }
    }
}

impl std::error::Error for Refusal {}

/// A move: the coordinates x, y, x, y, .. of both outlines, their velocities per unit of time, and the time limit.
#[derive(Clone, Copy, Debug, PartialEq, Eq)]
pub struct Move<'a> {
    pub a: &'a [i64],
    pub b: &'a [i64],
    pub velocity_a: (i64, i64),
    pub velocity_b: (i64, i64),
    pub limit: i64,
}

/// A move that was read from a line.
#[derive(Clone, Debug, PartialEq, Eq)]
pub struct ReadMove {
    pub a: Vec<i64>,
    pub b: Vec<i64>,
    pub velocity_a: (i64, i64),
    pub velocity_b: (i64, i64),
    pub limit: i64,
}

impl ReadMove {
    fn of_numbers(numbers: &[i64; NUMBERS]) -> ReadMove {
        let list = |from: usize, count: i64| numbers[from..from + 2 * count as usize].to_vec();
        ReadMove {
            a: list(7, numbers[5]),
            b: list(39, numbers[6]),
            velocity_a: (numbers[1], numbers[2]),
            velocity_b: (numbers[3], numbers[4]),
            limit: numbers[0],
        }
    }

    pub fn as_move(&self) -> Move<'_> {
        Move {
            a: &self.a,
            b: &self.b,
            velocity_a: self.velocity_a,
            velocity_b: self.velocity_b,
            limit: self.limit,
        }
    }
}

/// A rectangle that stands square to the bed: two opposite corners.
#[derive(Clone, Copy, Debug, PartialEq, Eq)]
pub struct Rectangle {
    pub low: (i64, i64),
    pub high: (i64, i64),
}

impl Rectangle {
    /// Low x, low y, high x, high y, as the library takes it.
    pub fn numbers(&self) -> [i64; 4] {
        [self.low.0, self.low.1, self.high.0, self.high.1]
    }

    /// The coordinates x, y, x, y, .. of the four corners, from low-low counterclockwise: the outline that has the same answer.
    pub fn outline(&self) -> [i64; 8] {
        let ((x, y), (u, v)) = (self.low, self.high);
        [x, y, u, y, u, v, x, v]
    }

    fn of_numbers(numbers: &[i64]) -> Rectangle {
        Rectangle {
            low: (numbers[0], numbers[1]),
            high: (numbers[2], numbers[3]),
        }
    }
}

/// A move of two rectangles, handed in or read from a line.
#[derive(Clone, Copy, Debug, PartialEq, Eq)]
pub struct RectangleMove {
    pub a: Rectangle,
    pub b: Rectangle,
    pub velocity_a: (i64, i64),
    pub velocity_b: (i64, i64),
    pub limit: i64,
}

impl RectangleMove {
    fn of_numbers(numbers: &[i64; RECTANGLES_NUMBERS]) -> RectangleMove {
        RectangleMove {
            a: Rectangle::of_numbers(&numbers[5..9]),
            b: Rectangle::of_numbers(&numbers[9..13]),
            velocity_a: (numbers[1], numbers[2]),
            velocity_b: (numbers[3], numbers[4]),
            limit: numbers[0],
        }
    }

    /// The same move with other lists for its rectangles.
    fn with<'a>(&self, a: &'a [i64], b: &'a [i64]) -> Move<'a> {
        Move {
            a,
            b,
            velocity_a: self.velocity_a,
            velocity_b: self.velocity_b,
            limit: self.limit,
        }
    }
}

/// A time n/d in lowest terms.
#[derive(Clone, Copy, Debug, PartialEq, Eq)]
pub struct Time {
    pub n: u32,
    pub d: u32,
}

impl fmt::Display for Time {
    fn fmt(&self, f: &mut fmt::Formatter) -> fmt::Result {
        write!(f, "{}/{}", self.n, self.d)
    }
}

/// What shows a common point at the first time of contact.
#[derive(Clone, Copy, Debug, PartialEq, Eq)]
pub enum Showing {
    /// This corner of A is inside or on B.
    CornerOfA(u8),
    /// This corner of B is inside or on A.
    CornerOfB(u8),
    /// This edge of A and this edge of B share a point.
    Edges(u8, u8),
}

impl Showing {
    /// Of its kind and two numbers.
    fn of(kind: u8, p: u8, q: u8) -> Option<Showing> {
        match kind {
            0 => Some(Showing::CornerOfA(p)),
            1 => Some(Showing::CornerOfB(p)),
            2 => Some(Showing::Edges(p, q)),
            _ => None,
        }
    }
}

/// The answer to a move that is not refused: clear, or contact.
#[derive(Clone, Copy, Debug, PartialEq, Eq)]
pub enum Answer {
    /// This side keeps the outlines apart for the whole of the move.
    ClearByOne(u8),
    /// These two sides together do.
    ClearByTwo(u8, u8),
    /// The outlines share a point from the first time to the last.
    Contact {
        first: Time,
        last: Time,
        /// The side that bears: at the first time the outlines' intervals on it share exactly one value. Where that time is
        /// above zero it is the lowest side whose span begins then. At zero it is the lowest on which they share exactly one
        /// value; none, if they share more than one on every side: then the outlines overlap.
        bearing: Option<u8>,
        showing: Showing,
    },
}

impl Answer {
    /// Whether the outlines stay apart for the whole of the move, so that it may be let go.
    pub fn is_clear(&self) -> bool {
        match self {
            Answer::ClearByOne(_) | Answer::ClearByTwo(_, _) => true,
            Answer::Contact { .. } => false,
        }
    }

    /// The answer or the refusal that an answer line says; none where the line, with or without its 0a, is no answer line.
    pub fn of_line(line: &[u8]) -> Option<Result<Answer, Refusal>> {
        let frame = bytes_of(line.strip_suffix(b"\n").unwrap_or(line))?;
        let number = |at: usize| {
            frame[at..at + 4]
                .iter()
                .fold(0, |n, b| 256 * n + u32::from(*b))
        };
        let time = |at: usize| Time {
            n: number(at),
            d: number(at + 4),
        };
        match frame[..] {
            [0x81, 0x00, k] => Some(Ok(Answer::ClearByOne(k))),
            [0x81, 0x01, i, j] => Some(Ok(Answer::ClearByTwo(i, j))),
            [0x81, 0x02, .., bearing, kind, p, q] if frame.len() == 22 => {
                Some(Ok(Answer::Contact {
                    first: time(2),
                    last: time(10),
                    bearing: if bearing == 0xff { None } else { Some(bearing) },
                    showing: Showing::of(kind, p, q)?,
                }))
            }
            [0x81, 0xff, r, edge] if r == 8 || r == 9 => Refusal::of(r, edge).map(Err),
            // No line names an edition, so that none says 11.
            [0x81, 0xff, r] if r != 8 && r != 9 && r != 11 => Refusal::of(r, 0).map(Err),
            _ => None,
        }
    }
}

/// The answer in edition 2 of the house rule, in which only shared inner points count: outlines that touch are clear.
#[derive(Clone, Copy, Debug, PartialEq, Eq)]
pub enum SecondAnswer {
    /// On this side the outlines' intervals share at most one value for the whole of the move.
    ClearByOne(u8),
    /// At each time they do so on one of these two sides.
    ClearByTwo(u8, u8),
    /// The outlines share an inner point at some time of the move. These are the greatest lower and the least upper bound of
    /// such times, and need not be such times themselves.
    Contact { first: Time, last: Time },
}

/// The answer to a move that is not refused, in the edition that was named.
#[derive(Clone, Copy, Debug, PartialEq, Eq)]
pub enum EditionAnswer {
    /// Named 1: what `answer_lists` answers.
    First(Answer),
    /// Named 2.
    Second(SecondAnswer),
}

impl EditionAnswer {
    /// Whether the move may be let go by the edition that was named.
    pub fn is_clear(&self) -> bool {
        match self {
            EditionAnswer::First(answer) => answer.is_clear(),
            EditionAnswer::Second(SecondAnswer::Contact { .. }) => false,
            EditionAnswer::Second(_) => true,
        }
    }

    /// Of the first eleven numbers that a call in edition 1 or 2 leaves where it refuses nothing.
    fn of_numbers(edition: u64, numbers: &[u64; ANSWER_NUMBERS]) -> EditionAnswer {
        let byte = |at: usize| u8::try_from(numbers[at]).expect("sides and corners are few");
        let number = |at: usize| u32::try_from(numbers[at]).expect("n and d have four bytes");
        let time = |at: usize| Time {
            n: number(at),
            d: number(at + 1),
        };
        let (first, last) = (time(3), time(5));
        match (edition, numbers[0]) {
            (1, 0) => EditionAnswer::First(Answer::ClearByOne(byte(1))),
            (1, 1) => EditionAnswer::First(Answer::ClearByTwo(byte(1), byte(2))),
            (1, 2) => EditionAnswer::First(Answer::Contact {
                first,
                last,
                bearing: Some(byte(7)).filter(|side| *side != 255),
                showing: Showing::of(byte(8), byte(9), byte(10))
                    .expect("a showing is of kind 0 to 2"),
            }),
            (2, 0) => EditionAnswer::Second(SecondAnswer::ClearByOne(byte(1))),
            (2, 1) => EditionAnswer::Second(SecondAnswer::ClearByTwo(byte(1), byte(2))),
            (2, 3) => EditionAnswer::Second(SecondAnswer::Contact { first, last }),
            _ => panic!("an edition has three cases"),
        }
    }
}

/// What is answered in a named edition to a move that is not refused, so that a refusal has no number of sides worked.
#[derive(Clone, Copy, Debug, PartialEq, Eq)]
pub struct Answered {
    pub answer: EditionAnswer,
    /// How many sides' spans were worked out, 1 to 32: those in order up to and with the first empty one. So it is k + 1 for
    /// clear by one at side k, otherwise the sum of both counts of corners.
    pub sides_worked: u8,
}

impl Answered {
    /// Whether the move may be let go by the edition that was named.
    pub fn is_clear(&self) -> bool {
        self.answer.is_clear()
    }
}

/// What a call that writes to a lent buffer answers.
#[derive(Clone, Copy, Debug, PartialEq, Eq)]
pub struct Written {
    /// None for clear and for contact alike.
    pub refusal: Option<Refusal>,
    /// How many bytes it wrote at the start of the buffer. The others are as they were.
    pub bytes: usize,
}

/// The number of the last line of a log that was accepted; none where none was, as at its beginning.
pub type Kept = Option<u16>;

/// What a line of a log is answered with, and what it leaves for the next.
#[derive(Clone, Copy, Debug, PartialEq, Eq)]
pub struct LogStep {
    pub answer: Result<Answer, Refusal>,
    /// To be handed in with the next line: the line's number, or where it is refused what was kept before.
    pub kept: Kept,
    /// How many lines were lost before this one; 0 for the first that is accepted, and where the line is refused.
    pub lost: u16,
}

/// The same of a call that writes to a lent buffer.
#[derive(Clone, Copy, Debug, PartialEq, Eq)]
pub struct LogWritten {
    pub written: Written,
    pub kept: Kept,
    pub lost: u16,
}

/// The answer to a line of a log, which stands without its 0a, after lines that leave this kept.
pub fn log_step(kept: Kept, line: &[u8]) -> LogStep {
    let mut out = [0; ANSWER_ROOM];
    let step = log_step_into(kept, line, &mut out);
    LogStep {
        answer: said(&out, step.written),
        kept: step.kept,
        lost: step.lost,
    }
}

/// The answer to a move line of either kind, which stands without its 0a.
pub fn answer_line(line: &[u8]) -> Result<Answer, Refusal> {
    let mut out = [0; ANSWER_ROOM];
    let written = answer_line_into(line, &mut out);
    said(&out, written)
}

/// The answer to a move handed in as numbers.
pub fn answer_lists(m: &Move) -> Result<Answer, Refusal> {
    let mut out = [0; ANSWER_ROOM];
    let written = answer_lists_into(m, &mut out);
    said(&out, written)
}

/// The answer to a move handed in as numbers, in the edition named, 1 or 2, and how many sides were worked; any other number is
/// refused with `Edition`.
pub fn answer_edition(edition: u64, m: &Move) -> Result<Answered, Refusal> {
    let mut numbers = [0; ANSWER_NUMBERS];
    match answer_edition_into(edition, m, &mut numbers) {
        Some(refusal) => Err(refusal),
        None => Ok(Answered {
            answer: EditionAnswer::of_numbers(edition, &numbers),
            sides_worked: u8::try_from(numbers[11]).expect("there are at most 32 sides"),
        }),
    }
}

/// The answer to a move of two rectangles.
pub fn answer_rectangles(m: &RectangleMove) -> Result<Answer, Refusal> {
    let mut out = [0; ANSWER_ROOM];
    let written = answer_rectangles_into(m, &mut out);
    said(&out, written)
}

/// The line of a move, with its 0a.
pub fn write_move(m: &Move) -> Result<Vec<u8>, Refusal> {
    let mut out = [0; MOVE_ROOM];
    let written = write_move_into(m, &mut out);
    match written.refusal {
        Some(refusal) => Err(refusal),
        None => Ok(out[..written.bytes].to_vec()),
    }
}

/// The line of a move of two rectangles, with its 0a.
pub fn write_rectangles(m: &RectangleMove) -> Result<Vec<u8>, Refusal> {
    let mut out = [0; RECTANGLES_ROOM];
    let written = write_rectangles_into(m, &mut out);
    match written.refusal {
        Some(refusal) => Err(refusal),
        None => Ok(out[..written.bytes].to_vec()),
    }
}

/// Of which kind a line, which stands without its 0a, is. `Ok` says nothing of whether the outlines meet.
pub fn read_line(line: &[u8]) -> Result<Kind, Refusal> {
    let (mut kind, mut edge) = (0, 0);
    // The library reads `line.len()` bytes at the pointer, writes at most the kind and the edge, and keeps nothing.
    let refusal =
        unsafe { stonefruitle_read_line(line.as_ptr(), line.len(), &mut kind, &mut edge) };
    accepted(refusal, edge).map(|()| match kind {
        1 => Kind::Outlines,
        2 => Kind::Rectangles,
        _ => panic!("a line that is accepted is of kind 1 or 2"),
    })
}

/// The move of a line of kind 01, which stands without its 0a.
pub fn read_move(line: &[u8]) -> Result<ReadMove, Refusal> {
    let mut numbers = [0; NUMBERS];
    match read_move_into(line, &mut numbers) {
        Some(refusal) => Err(refusal),
        None => Ok(ReadMove::of_numbers(&numbers)),
    }
}

/// The move of a line of kind 02, which stands without its 0a.
pub fn read_rectangles(line: &[u8]) -> Result<RectangleMove, Refusal> {
    let mut numbers = [0; RECTANGLES_NUMBERS];
    match read_rectangles_into(line, &mut numbers) {
        Some(refusal) => Err(refusal),
        None => Ok(RectangleMove::of_numbers(&numbers)),
    }
}

/// The number and the move of a line of a log, which stands without its 0a. Whether it is in order is not looked at.
pub fn read_log(line: &[u8]) -> Result<(u16, ReadMove), Refusal> {
    let (mut number, mut numbers) = (0, [0; NUMBERS]);
    match read_log_into(line, &mut number, &mut numbers) {
        Some(refusal) => Err(refusal),
        None => Ok((number, ReadMove::of_numbers(&numbers))),
    }
}

/// Whether a list of coordinates x, y, x, y, .. is a sound outline; refused with `Count`, `Place` or `First`, which
/// says which edge is wrong.
pub fn test_outline(coordinates: &[i64]) -> Result<(), Refusal> {
    let mut edge = 0;
    let (list, length) = (coordinates.as_ptr(), coordinates.len());
    let refusal = unsafe { stonefruitle_test_outline(list, length, &mut edge) };
    accepted(refusal, edge)
}

/// The move of a line of kind 02 as 13 numbers, all of which are written: limit, velocity of A, velocity of B, low x, low y,
/// high x, high y of A, those of B. Where the line is refused they are all zero.
pub fn read_rectangles_into(
    line: &[u8],
    numbers: &mut [i64; RECTANGLES_NUMBERS],
) -> Option<Refusal> {
    let mut edge = 0;
    let refusal = unsafe {
        stonefruitle_read_rectangles(line.as_ptr(), line.len(), numbers.as_mut_ptr(), &mut edge)
    };
    Refusal::returned(refusal, edge)
}

/// The move of a line of kind 01 as 71 numbers, all of which are written: limit, velocity of A, velocity of B, count of A,
/// count of B, the coordinates of A's sixteen places, those of B's. Where the line is refused they are all zero.
pub fn read_move_into(line: &[u8], numbers: &mut [i64; NUMBERS]) -> Option<Refusal> {
    let mut edge = 0;
    let refusal = unsafe {
        stonefruitle_read_move(line.as_ptr(), line.len(), numbers.as_mut_ptr(), &mut edge)
    };
    Refusal::returned(refusal, edge)
}

/// The answer in an edition as 12 numbers, all of which are written: the case, two sides, n and d of first, n and d of last,
/// the bearing, the kind of the showing and its two numbers, the number of sides worked. `include/stonefruitle.h` says what each
/// means. Where the move is refused they are all zero.
pub fn answer_edition_into(
    edition: u64,
    m: &Move,
    numbers: &mut [u64; ANSWER_NUMBERS],
) -> Option<Refusal> {
    let mut edge = 0;
    // As below: the lengths are those of the lists, and the library writes the 12 numbers and one edge.
    let refusal = unsafe {
        stonefruitle_answer_edition(
            edition,
            m.a.as_ptr(),
            m.a.len(),
            m.b.as_ptr(),
            m.b.len(),
            m.velocity_a.0,
            m.velocity_a.1,
            m.velocity_b.0,
            m.velocity_b.1,
            m.limit,
            numbers.as_mut_ptr(),
            &mut edge,
        )
    };
    Refusal::returned(refusal, edge)
}

/// The number of a line of a log and its move as 71 numbers, likewise; the number is zero too where the line is refused.
pub fn read_log_into(
    line: &[u8],
    number: &mut u16,
    numbers: &mut [i64; NUMBERS],
) -> Option<Refusal> {
    let mut edge = 0;
    let refusal = unsafe {
        stonefruitle_read_log(
            line.as_ptr(),
            line.len(),
            number,
            numbers.as_mut_ptr(),
            &mut edge,
        )
    };
    Refusal::returned(refusal, edge)
}

/// The answer line to a line of a log, into a lent buffer. `Room` writes nothing; the other refusals write the refusal
/// line. Any refusal leaves what is kept as it is.
pub fn log_step_into(kept: Kept, line: &[u8], out: &mut [u8]) -> LogWritten {
    let (mut some, mut number, mut lost, mut bytes, mut edge) = (false, 0, 0, 0, 0);
    // As below; besides, the library writes the other places.
    let refusal = unsafe {
        stonefruitle_log_step(
            kept.is_some(),
            kept.unwrap_or(0),
            line.as_ptr(),
            line.len(),
            out.as_mut_ptr(),
            out.len(),
            &mut some,
            &mut number,
            &mut lost,
            &mut bytes,
            &mut edge,
        )
    };
    LogWritten {
        written: Written {
            refusal: Refusal::returned(refusal, edge),
            bytes,
        },
        kept: some.then_some(number),
        lost,
    }
}

/// The answer line to a move line of either kind, into a lent buffer. `Room` writes nothing; the other refusals write the
/// refusal line.
pub fn answer_line_into(line: &[u8], out: &mut [u8]) -> Written {
    let (mut bytes, mut edge) = (0, 0);
    // The library reads `line.len()` bytes, writes at most `out.len()` bytes, one count and one edge, and keeps nothing;
    // that the two buffers do not overlap is what their types say.
    let refusal = unsafe {
        stonefruitle_answer_line(
            line.as_ptr(),
            line.len(),
            out.as_mut_ptr(),
            out.len(),
            &mut bytes,
            &mut edge,
        )
    };
    Written {
        refusal: Refusal::returned(refusal, edge),
        bytes,
    }
}

/// The answer line to a move handed in as numbers, into a lent buffer, likewise.
pub fn answer_lists_into(m: &Move, out: &mut [u8]) -> Written {
    into(stonefruitle_answer_lists, m, out)
}

/// The line of a move, into a lent buffer. Any refusal writes nothing.
pub fn write_move_into(m: &Move, out: &mut [u8]) -> Written {
    into(stonefruitle_write_move, m, out)
}

/// The answer line to a move of two rectangles, into a lent buffer, as that to a move line.
pub fn answer_rectangles_into(m: &RectangleMove, out: &mut [u8]) -> Written {
    let (a, b) = (m.a.numbers(), m.b.numbers());
    into(stonefruitle_answer_rectangles, &m.with(&a, &b), out)
}

/// The line of a move of two rectangles, into a lent buffer. Any refusal writes nothing.
pub fn write_rectangles_into(m: &RectangleMove, out: &mut [u8]) -> Written {
    let (a, b) = (m.a.numbers(), m.b.numbers());
    into(stonefruitle_write_rectangles, &m.with(&a, &b), out)
}

fn into(call: FromLists, m: &Move, out: &mut [u8]) -> Written {
    let (mut bytes, mut edge) = (0, 0);
    // As above: the lengths are those of the lists and of the buffer.
    let refusal = unsafe {
        call(
            m.a.as_ptr(),
            m.a.len(),
            m.b.as_ptr(),
            m.b.len(),
            m.velocity_a.0,
            m.velocity_a.1,
            m.velocity_b.0,
            m.velocity_b.1,
            m.limit,
            out.as_mut_ptr(),
            out.len(),
            &mut bytes,
            &mut edge,
        )
    };
    Written {
        refusal: Refusal::returned(refusal, edge),
        bytes,
    }
}

fn accepted(number: u8, edge: u8) -> Result<(), Refusal> {
    match Refusal::returned(number, edge) {
        Some(refusal) => Err(refusal),
        None => Ok(()),
    }
}

fn said(out: &[u8], written: Written) -> Result<Answer, Refusal> {
    match written.refusal {
        Some(refusal) => Err(refusal),
        None => Answer::of_line(&out[..written.bytes]).expect("the library writes answer lines"),
    }
}

fn bytes_of(text: &[u8]) -> Option<Vec<u8>> {
    let digit = |c: u8| match c {
        b'0'..=b'9' => Some(c - b'0'),
        b'a'..=b'f' => Some(c - b'a' + 10),
        _ => None,
    };
    if text.len() % 2 != 0 {
        return None;
    }
    text.chunks(2)
        .map(|pair| Some(16 * digit(pair[0])? + digit(pair[1])?))
        .collect()
}
