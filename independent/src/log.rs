//! Move logs (request Q-2): lines with a number, one after the other. Lines are
//! held here without their 0a.

use super::checker::{verdict, Move, Verdict};
use super::frame::{bytes_of, hex, read_frame, write_move, Refusal};

/// The most digits a log line may have.
pub const MOST_DIGITS: usize = 288;

/// How many numbers there are: after the last one comes 0 again.
pub const NUMBERS: i32 = 65_536;

/// The farthest that is still forward.
pub const FARTHEST: i32 = 32_767;

/// The number of the last line that was accepted, if there was one.
pub type Kept = Option<u16>;

/// Reads the number and the move of a log line, or gives the first refusal
/// that applies. The order of lines is not looked at here.
pub fn read_log(line: &[u8]) -> Result<(u16, Move), Refusal> {
    let bytes = bytes_of(line, MOST_DIGITS).ok_or(Refusal::Digits)?;
    if bytes[0] != 0x03 || bytes.get(3).is_some_and(|fourth| *fourth != 0x01) {
        return Err(Refusal::Kind);
    }
    if bytes.len() < 4 {
        return Err(Refusal::Count);
    }
    let m = read_frame(&bytes[3..])?;
    Ok((u16::from_be_bytes([bytes[1], bytes[2]]), m))
}

/// Writes a log line as it stands, and checks nothing.
pub fn write_log(number: u16, m: &Move) -> Vec<u8> {
    [head(number), write_move(m)].concat()
}

/// What stands in a log line before its move: 03 and the number.
pub fn head(number: u16) -> Vec<u8> {
    let [high, low] = number.to_be_bytes();
    hex(&[0x03, high, low])
}

/// How many steps forward lead from the one number to the other, the step
/// from 65,535 to 0 among them: 0 to 65,535.
pub fn steps(from: u16, to: u16) -> i32 {
    (i32::from(to) - i32::from(from)).rem_euclid(NUMBERS)
}

/// How many lines were lost before a line with this number; none if it is out
/// of order.
pub fn lost(kept: Kept, number: u16) -> Option<u16> {
    match kept.map_or(1, |kept| steps(kept, number)) {
        forward @ 1..=FARTHEST => Some(forward as u16 - 1),
        _ => None,
    }
}

/// What a line of a log is answered with, and what it leaves for the next.
#[derive(Clone, Debug, PartialEq)]
pub struct Step {
    pub answer: Result<Verdict, Refusal>,
    pub kept: Kept,
    pub lost: u16,
}

pub fn step(kept: Kept, line: &[u8]) -> Step {
    let accepted = read_log(line)
        .and_then(|(number, m)| Ok((number, lost(kept, number).ok_or(Refusal::Order)?, m)));
    match accepted {
        Ok((number, lost, m)) => Step {
            answer: Ok(verdict(&m)),
            kept: Some(number),
            lost,
        },
        Err(refusal) => Step {
            answer: Err(refusal),
            kept,
            lost: 0,
        },
    }
}
