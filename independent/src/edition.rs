//! The touch rule of the 2nd edition (request Q-6): only shared inner points
//! count. Moves come as lists, and the caller names the edition. Beside the
//! verdict stands how many sides were worked (request Q-7).

use super::checker::{
    self, directions, interval, verdict, Fraction, Move, Point, Showing, Span, Verdict,
};
use super::frame::Refusal;

/// The verdict of edition 2: as that of edition 1, without bearing and showing.
#[derive(Clone, Copy, Debug, PartialEq, Eq)]
pub enum Second {
    ClearByOne(usize),
    ClearByTwo(usize, usize),
    Contact { first: Fraction, last: Fraction },
}

/// The verdict of the edition named.
#[derive(Clone, Copy, Debug, PartialEq, Eq)]
pub enum Said {
    OfFirst(Verdict),
    OfSecond(Second),
}

/// What is answered to a move that is not refused.
#[derive(Clone, Copy, Debug, PartialEq, Eq)]
pub struct Answer {
    pub said: Said,
    /// How many sides' spans were worked out.
    pub worked: usize,
}

/// A condition on the time s, `rate * s < room`.
#[derive(Clone, Copy)]
struct Below {
    rate: i128,
    room: i128,
}

/// The bounds of the times from zero to the limit at which the projections on a
/// side share more than one value, or none if there are no such times. Neither
/// projection is a single value, so they do exactly when each starts below the
/// other's end.
pub fn span(m: &Move, direction: Point) -> Option<Span> {
    let ((low_a, high_a), (low_b, high_b)) = (interval(&m.a, direction), interval(&m.b, direction));
    let speed = direction.dot(m.velocity_a) - direction.dot(m.velocity_b);
    let conditions = [
        Below {
            rate: speed,
            room: high_b - low_a,
        },
        Below {
            rate: -speed,
            room: high_a - low_b,
        },
    ];
    if m.limit == 0 {
        // There is one time only, and it is asked itself.
        let zero = Fraction::whole(0);
        let shares = conditions.iter().all(|c| 0 < c.room);
        return shares.then_some(Span {
            begin: zero,
            end: zero,
        });
    }
    let (mut begin, mut end) = (Fraction::whole(0), Fraction::whole(m.limit));
    for Below { rate, room } in conditions {
        if rate > 0 {
            end = end.min(Fraction::new(room, rate));
        } else if rate < 0 {
            begin = begin.max(Fraction::new(room, rate));
        } else if room <= 0 {
            return None;
        }
    }
    // Each condition leaves an end out, so that between equal bounds there is
    // no time, and between others there is.
    (begin < end).then_some(Span { begin, end })
}

/// All spans of edition 2, by side.
pub fn spans(m: &Move) -> Vec<Option<Span>> {
    directions(m).into_iter().map(|d| span(m, d)).collect()
}

/// The verdict on a move whose outlines are sound.
pub fn second(m: &Move) -> Second {
    let spans = spans(m);
    if let Some(side) = spans.iter().position(|s| s.is_none()) {
        return Second::ClearByOne(side);
    }
    let spans: Vec<Span> = spans.into_iter().flatten().collect();
    let first = spans.iter().map(|s| s.begin).max().unwrap();
    let last = spans.iter().map(|s| s.end).min().unwrap();
    if m.limit > 0 && first >= last {
        let latest = spans.iter().position(|s| s.begin == first).unwrap();
        let soonest = spans.iter().position(|s| s.end == last).unwrap();
        return Second::ClearByTwo(latest, soonest);
    }
    Second::Contact { first, last }
}

/// The spans worked, in order: all up to and with the first empty one.
pub fn worked(m: &Move, span: impl Fn(&Move, Point) -> Option<Span>) -> Vec<Option<Span>> {
    let mut worked = Vec::new();
    for direction in directions(m) {
        let next = span(m, direction);
        worked.push(next);
        if next.is_none() {
            break;
        }
    }
    worked
}

/// The answer in the edition named. Any number but 1 and 2 is refused before
/// all that is wrong with the move.
pub fn answer(edition: u64, asked: Result<&Move, Refusal>) -> Result<Answer, Refusal> {
    match edition {
        1 => asked.map(|m| Answer {
            said: Said::OfFirst(verdict(m)),
            worked: worked(m, checker::span).len(),
        }),
        2 => asked.map(|m| Answer {
            said: Said::OfSecond(second(m)),
            worked: worked(m, span).len(),
        }),
        _ => Err(Refusal::Edition),
    }
}

/// The twelve numbers that the linked library hands out: case, two sides, n and
/// d of first, n and d of last, bearing, kind and two numbers of the showing,
/// and how many sides were worked. What is not said is 0.
pub fn numbers(answer: &Result<Answer, Refusal>) -> [u64; 12] {
    let mut all = [0; 12];
    let Ok(Answer { said, worked }) = *answer else {
        return all;
    };
    all[11] = worked as u64;
    let number = |n: i128| u64::try_from(n).expect("no time is negative");
    let times = |first: Fraction, last: Fraction| [first.n, first.d, last.n, last.d].map(number);
    match said {
        Said::OfFirst(Verdict::ClearByOne(k)) | Said::OfSecond(Second::ClearByOne(k)) => {
            all[1] = k as u64;
        }
        Said::OfFirst(Verdict::ClearByTwo(i, j)) | Said::OfSecond(Second::ClearByTwo(i, j)) => {
            all[..3].copy_from_slice(&[1, i as u64, j as u64]);
        }
        Said::OfFirst(Verdict::Contact {
            first,
            last,
            bearing,
            showing,
        }) => {
            all[0] = 2;
            all[3..7].copy_from_slice(&times(first, last));
            all[7] = bearing.map_or(255, |side| side as u64);
            let (kind, p, q) = match showing {
                Showing::CornerOfA(i) => (0, i, 0),
                Showing::CornerOfB(j) => (1, j, 0),
                Showing::Edges(i, j) => (2, i, j),
            };
            all[8..11].copy_from_slice(&[kind, p as u64, q as u64]);
        }
        Said::OfSecond(Second::Contact { first, last }) => {
            all[0] = 3;
            all[3..7].copy_from_slice(&times(first, last));
        }
    }
    all
}
