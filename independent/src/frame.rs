//! Move lines in, answer lines out. Lines are held here without their 0a.

use super::checker::{edge_named, point, verdict, Move, Point, Showing, Verdict};
use super::rectangle::{self, RectangleMove};

/// Why a line is turned away. Refusal 1 is about lent room and cannot arise in
/// a program that owns its output.
#[derive(Clone, Copy, Debug, PartialEq, Eq)]
pub enum Refusal {
    Digits,
    Kind,
    Count,
    Limit,
    Speed,
    Place,
    /// With the edge that is wrong (requests ), as the next; of a
    /// rectangle with 0 (request Q-5).
    First(usize),
    Second(usize),
    /// In a log (request Q-2).
    Order,
    /// An edition that there is none of (request Q-6). No line names one.
    Edition,
}

impl Refusal {
    pub fn number(self) -> u8 {
        match self {
            Refusal::Digits => 2,
            Refusal::Kind => 3,
            Refusal::Count => 4,
            Refusal::Limit => 5,
            Refusal::Speed => 6,
            Refusal::Place => 7,
            Refusal::First(_) => 8,
            Refusal::Second(_) => 9,
            Refusal::Order => 10,
            Refusal::Edition => 11,
        }
    }

    pub fn edge(self) -> Option<usize> {
        match self {
            Refusal::First(edge) | Refusal::Second(edge) => Some(edge),
            _ => None,
        }
    }
}

/// The most digits a line may have, and the range of the numbers in it.
pub const MOST_DIGITS: usize = 282;
pub const REACH: i128 = 10_000;

/// The value of a digit. `char::to_digit` would take capitals too.
fn digit(byte: u8) -> Option<u8> {
    match byte {
        b'0'..=b'9' => Some(byte - b'0'),
        b'a'..=b'f' => Some(byte - b'a' + 10),
        _ => None,
    }
}

/// The bytes of a line of at most so many digits.
pub fn bytes_of(line: &[u8], most: usize) -> Option<Vec<u8>> {
    if line.is_empty() || line.len() % 2 != 0 || line.len() > most {
        return None;
    }
    line.chunks(2)
        .map(|pair| Some(digit(pair[0])? * 16 + digit(pair[1])?))
        .collect()
}

pub fn in_reach(p: Point) -> bool {
    (-REACH..=REACH).contains(&p.x) && (-REACH..=REACH).contains(&p.y)
}

/// What a bare line asks about: a move of kind 01, or one of kind 02 (request
///
#[derive(Clone, Debug, PartialEq, Eq)]
pub enum Asked {
    Outlines(Move),
    Rectangles(RectangleMove),
}

/// Reads a line of either kind, or gives the first refusal that applies to the
/// whole of it.
pub fn read_line(line: &[u8]) -> Result<Asked, Refusal> {
    let frame = bytes_of(line, MOST_DIGITS).ok_or(Refusal::Digits)?;
    match frame[0] {
        0x01 => read_frame(&frame).map(Asked::Outlines),
        0x02 => rectangle::read_frame(&frame).map(Asked::Rectangles),
        _ => Err(Refusal::Kind),
    }
}

/// The same where only a move of kind 01 will do.
pub fn read_move(line: &[u8]) -> Result<Move, Refusal> {
    let frame = bytes_of(line, MOST_DIGITS).ok_or(Refusal::Digits)?;
    if frame[0] != 0x01 {
        return Err(Refusal::Kind);
    }
    read_frame(&frame)
}

/// Reads a frame whose first byte is 01.
pub fn read_frame(frame: &[u8]) -> Result<Move, Refusal> {
    let m = read_fields(frame)?;
    if let Some(edge) = edge_named(&m.a) {
        return Err(Refusal::First(edge));
    }
    if let Some(edge) = edge_named(&m.b) {
        return Err(Refusal::Second(edge));
    }
    Ok(m)
}

/// The same where the outlines need not be sound.
pub fn read_fields(frame: &[u8]) -> Result<Move, Refusal> {
    let count = |at: usize| match frame.get(at) {
        Some(&c) if (3..=16).contains(&c) => Ok(c as usize),
        _ => Err(Refusal::Count),
    };
    let (count_a, count_b) = (count(1)?, count(2)?);
    if frame.len() != 13 + 4 * (count_a + count_b) {
        return Err(Refusal::Count);
    }

    let limit = u16::from_be_bytes([frame[3], frame[4]]) as i128;
    let signed = |at: usize| i16::from_be_bytes([frame[at], frame[at + 1]]) as i128;
    let pair = |at: usize| point(signed(at), signed(at + 2));
    let corners = |from: usize, count: usize| -> Vec<Point> {
        (0..count).map(|i| pair(from + 4 * i)).collect()
    };
    let m = Move {
        limit,
        velocity_a: pair(5),
        velocity_b: pair(9),
        a: corners(13, count_a),
        b: corners(13 + 4 * count_a, count_b),
    };

    if m.limit > REACH {
        return Err(Refusal::Limit);
    }
    if !in_reach(m.velocity_a) || !in_reach(m.velocity_b) {
        return Err(Refusal::Speed);
    }
    if !m.a.iter().chain(&m.b).all(|corner| in_reach(*corner)) {
        return Err(Refusal::Place);
    }
    Ok(m)
}

pub fn hex(bytes: &[u8]) -> Vec<u8> {
    const DIGIT: &[u8; 16] = b"0123456789abcdef";
    bytes
        .iter()
        .flat_map(|b| [DIGIT[(b >> 4) as usize], DIGIT[(b & 15) as usize]])
        .collect()
}

/// Writes a move line as it stands. It checks nothing, since the generator
/// needs lines that must be refused.
pub fn write_move(m: &Move) -> Vec<u8> {
    let mut frame = vec![0x01, m.a.len() as u8, m.b.len() as u8];
    frame.extend((m.limit as u16).to_be_bytes());
    for p in [m.velocity_a, m.velocity_b].iter().chain(&m.a).chain(&m.b) {
        frame.extend((p.x as i16).to_be_bytes());
        frame.extend((p.y as i16).to_be_bytes());
    }
    hex(&frame)
}

pub fn write_answer(answer: &Result<Verdict, Refusal>) -> Vec<u8> {
    let mut frame = vec![0x81];
    match *answer {
        Err(refusal) => {
            frame.extend([0xff, refusal.number()]);
            frame.extend(refusal.edge().map(|edge| edge as u8));
        }
        Ok(Verdict::ClearByOne(k)) => frame.extend([0x00, k as u8]),
        Ok(Verdict::ClearByTwo(i, j)) => frame.extend([0x01, i as u8, j as u8]),
        Ok(Verdict::Contact {
            first,
            last,
            bearing,
            showing,
        }) => {
            frame.push(0x02);
            for number in [first.n, first.d, last.n, last.d] {
                let fits = u32::try_from(number).expect("a time fits its four bytes");
                frame.extend(fits.to_be_bytes());
            }
            frame.push(bearing.map_or(0xff, |side| side as u8));
            let (kind, p, q) = match showing {
                Showing::CornerOfA(i) => (0, i, 0),
                Showing::CornerOfB(j) => (1, j, 0),
                Showing::Edges(i, j) => (2, i, j),
            };
            frame.extend([kind, p as u8, q as u8]);
        }
    }
    hex(&frame)
}

/// What a line is answered with, before it is written.
pub fn answer(line: &[u8]) -> Result<Verdict, Refusal> {
    read_line(line).map(|asked| match asked {
        Asked::Outlines(m) => verdict(&m),
        Asked::Rectangles(m) => rectangle::verdict(&m),
    })
}
