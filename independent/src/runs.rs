//! Seeded logs (requests ). The numbers of a log walk on from line to line,
//! so that a line depends on the seed, its place and the number that the lines
//! before it leave kept. The class of a line is drawn, and not taken in turn,
//! so that each comes after each.

use super::checker::Move;
use super::frame::write_move;
use super::generate::{
    any_digits, bad_move, damaged, is_strict, limit_outside, no_digit, outline, place_outside,
    scattered, sound_move, speed_outside, unsound, Class as MoveClass, Rng, AT_ZERO, BASE,
};
use super::log::{head, read_log, step, write_log, Kept, MOST_DIGITS};
use super::straight::{self, Drawn, Misdrawn};

#[derive(Clone, Copy, Debug, PartialEq, Eq)]
pub enum Class {
    /// The number after the kept one.
    Next,
    /// Forward by more than one.
    Ahead,
    /// The kept number once more.
    Again,
    /// Back by a little or by much.
    Behind,
    /// 32,766 to 32,769 on, mostly the two in the middle.
    Halfway,
    /// A number right before or after the rollover, or across it.
    Rollover,
    /// A limit, a speed or a place out of range.
    Outside,
    /// Outlines that are not sound.
    Unsound,
    /// 285 to 291 digits.
    Longest,
    /// At most four bytes, mostly fewer.
    Short,
    /// A bare line.
    Bare,
    /// Another first or fourth byte.
    Kind,
    /// Cut, lengthened or changed anywhere.
    Damaged,
    /// A move of a class of request Q-3.
    Bad(MoveClass),
    /// A move of a class of request Q-8.
    Drawn(Drawn),
    Misdrawn(Misdrawn),
}

pub type Set = &'static [(Class, &'static str)];

pub const LOG: Set = &[
    (Class::Next, "next"),
    (Class::Ahead, "ahead"),
    (Class::Again, "again"),
    (Class::Behind, "behind"),
    (Class::Halfway, "halfway"),
    (Class::Rollover, "rollover"),
    (Class::Outside, "outside"),
    (Class::Unsound, "log-unsound"),
    (Class::Longest, "longest"),
    (Class::Short, "short"),
    (Class::Bare, "bare"),
    (Class::Kind, "kind"),
    (Class::Damaged, "log-damaged"),
];

/// Of request Q-3: lines that are not strict, among some that are.
pub const LOG_BAD_EDGES: Set = &[
    (Class::Next, "next"),
    (Class::Again, "again"),
    (Class::Bad(MoveClass::BadFirst), "log-first"),
    (Class::Bad(MoveClass::BadMiddle), "log-middle"),
    (Class::Bad(MoveClass::BadLast), "log-last"),
    (Class::Bad(MoveClass::BadSeveral), "log-several"),
    (Class::Bad(MoveClass::BadBoth), "log-both"),
    (Class::Bad(MoveClass::Clockwise), "log-clockwise"),
    (Class::Bad(MoveClass::Repeated), "log-repeated"),
    (Class::Bad(MoveClass::Straight), "log-straight"),
];

/// Of request Q-8: lines with straight corners, and some that are not sound.
pub const LOG_STRAIGHT_CORNERS: Set = &[
    (Class::Next, "next"),
    (Class::Again, "again"),
    (Class::Drawn(Drawn::OneEdge), "log-one-edge"),
    (Class::Drawn(Drawn::AllEdges), "log-all-edges"),
    (Class::Drawn(Drawn::Sixteen), "log-sixteen"),
    (Class::Drawn(Drawn::Both), "log-on-both"),
    (Class::Misdrawn(Misdrawn::HairOff), "log-hair-off"),
    (Class::Misdrawn(Misdrawn::OutOfOrder), "log-out-of-order"),
    (Class::Misdrawn(Misdrawn::Apart), "log-apart"),
    (Class::Misdrawn(Misdrawn::OneLine), "log-one-line"),
];

pub const SETS: [(&str, Set); 3] = [
    ("Q-2", LOG),
    ("Q-3-log", LOG_BAD_EDGES),
    ("Q-8-log", LOG_STRAIGHT_CORNERS),
];

pub fn set_named(name: &str) -> Option<Set> {
    SETS.iter().find(|(n, _)| *n == name).map(|(_, set)| *set)
}

/// The class of this name as a set of its own.
pub fn class_named(name: &str) -> Option<Set> {
    let all = SETS.iter().flat_map(|(_, set)| set.chunks(1));
    all.into_iter().find(|one| one[0].1 == name)
}

/// The lines of one log without end, each with its class. A line has no 0a.
pub struct Log {
    seed: u64,
    set: Set,
    place: u64,
    kept: Kept,
}

impl Log {
    pub fn new(seed: u64, set: Set) -> Log {
        Log {
            seed,
            set,
            place: 0,
            kept: None,
        }
    }
}

impl Iterator for Log {
    type Item = (Class, Vec<u8>);

    fn next(&mut self) -> Option<(Class, Vec<u8>)> {
        let mut rng = Rng::for_line(self.seed, self.place);
        let class = rng.pick(self.set).0;
        let made = line(&mut rng, class, self.kept);
        self.place += 1;
        if self.set == LOG_STRAIGHT_CORNERS || has_strict_outlines(&made) {
            self.kept = step(self.kept, &made).kept;
        }
        Some((class, made))
    }
}

/// The sets before request Q-8 go by the number of the last line that would be
/// accepted without it, so that their lines stay as they are.
fn has_strict_outlines(line: &[u8]) -> bool {
    read_log(line).is_ok_and(|(_, m)| is_strict(&m.a) && is_strict(&m.b))
}

fn line(rng: &mut Rng, class: Class, kept: Kept) -> Vec<u8> {
    let m = any_move(rng);
    match class {
        Class::Next => write_log(on_by(rng, kept, 1), &m),
        Class::Ahead => write_log(ahead(rng, kept), &m),
        Class::Again => write_log(on_by(rng, kept, 0), &m),
        Class::Behind => write_log(behind(rng, kept), &m),
        Class::Halfway => {
            let by = rng.pick(&[32_766, 32_767, 32_767, 32_768, 32_768, 32_769]);
            write_log(on_by(rng, kept, by), &m)
        }
        Class::Rollover => write_log(rollover(rng, kept), &m),
        Class::Outside => outside(rng, m, kept),
        Class::Unsound => write_log(any_way(rng, kept), &unsound(rng)),
        Class::Longest => longest(rng, kept),
        Class::Short => short(rng, kept),
        Class::Bare => write_move(&m),
        Class::Kind => kind(rng, &m, kept),
        Class::Damaged => damaged_anywhere(rng, &m, kept),
        Class::Bad(class) => write_log(any_way(rng, kept), &bad_move(rng, class)),
        Class::Drawn(class) => {
            let m = sound_move(rng, MoveClass::Drawn(class));
            write_log(any_way(rng, kept), &m)
        }
        Class::Misdrawn(class) => write_log(any_way(rng, kept), &straight::misdrawn(rng, class)),
    }
}

/// A move of any class that is not refused.
fn any_move(rng: &mut Rng) -> Move {
    let classes: Vec<MoveClass> = BASE[..8].iter().chain(AT_ZERO).map(|(c, _)| *c).collect();
    let class = rng.pick(&classes);
    sound_move(rng, class)
}

// ---------------------------------------------------------------------------
// Numbers

/// The number so many steps on from the kept one; where none is kept, any.
fn on_by(rng: &mut Rng, kept: Kept, steps: u16) -> u16 {
    match kept {
        Some(kept) => kept.wrapping_add(steps),
        None if rng.one_in(3) => rng.pick(&[0, 1, 32_767, 32_768, 65_535]),
        None => rng.next() as u16,
    }
}

fn ahead(rng: &mut Rng, kept: Kept) -> u16 {
    let by = rng.size(2, 32_767) as u16;
    on_by(rng, kept, by)
}

fn behind(rng: &mut Rng, kept: Kept) -> u16 {
    let by = rng.size(1, 32_768) as u16;
    on_by(rng, kept, by.wrapping_neg())
}

fn rollover(rng: &mut Rng, kept: Kept) -> u16 {
    let past = rng.range(0, 20) as u16;
    match kept {
        // The other side of it: forward from high numbers, back from low ones.
        Some(kept) if rng.one_in(2) && kept > 32_767 => past,
        Some(_) if rng.one_in(2) => 65_535 - past,
        _ => rng.pick(&[65_533, 65_534, 65_535, 0, 1, 2]),
    }
}

/// For lines that are to be refused whatever their number is: any way from the
/// kept number, mostly one that would be in order.
fn any_way(rng: &mut Rng, kept: Kept) -> u16 {
    match rng.index(6) {
        0..=2 => on_by(rng, kept, 1),
        3 => ahead(rng, kept),
        4 => on_by(rng, kept, 0),
        _ => behind(rng, kept),
    }
}

// ---------------------------------------------------------------------------
// Lines to refuse, and lines about as long as they may be

fn outside(rng: &mut Rng, mut m: Move, kept: Kept) -> Vec<u8> {
    match rng.index(4) {
        0 => limit_outside(rng, &mut m),
        1 => speed_outside(rng, &mut m),
        2 => place_outside(rng, &mut m),
        _ => {
            // Several faults at once: the first in the list is to be named.
            speed_outside(rng, &mut m);
            place_outside(rng, &mut m);
            m.a.reverse();
        }
    }
    write_log(any_way(rng, kept), &m)
}

/// A line of 288 digits, or one that is a little shorter or longer.
fn longest(rng: &mut Rng, kept: Kept) -> Vec<u8> {
    let mut m = sound_move(rng, MoveClass::Full);
    let mut most_corners = || {
        let size = rng.size(500, 12_000);
        let corners = outline(rng, 16, size);
        scattered(rng, &corners)
    };
    m.a = most_corners();
    m.b = most_corners();
    let mut line = write_log(any_way(rng, kept), &m);
    match rng.index(8) {
        0..=2 => {}
        3 => line.truncate(MOST_DIGITS - rng.range(1, 3) as usize),
        4 => line.extend(any_digits(rng, 1)),
        5 => line.extend(any_digits(rng, 2)),
        6 => line.extend(any_digits(rng, 3)),
        _ => {
            // As long as may be, with counts that ask for less.
            m.a.truncate(15);
            line = write_log(any_way(rng, kept), &m);
            line.resize(MOST_DIGITS, b'0');
        }
    }
    line
}

fn short(rng: &mut Rng, kept: Kept) -> Vec<u8> {
    let first = match rng.index(5) {
        0 => any_digits(rng, 2),
        _ => b"03".to_vec(),
    };
    let fourth = match rng.index(4) {
        0 => any_digits(rng, 2),
        _ => b"01".to_vec(),
    };
    let number = head(any_way(rng, kept))[2..].to_vec();
    let mut line = [first, number, fourth].concat();
    line.truncate(rng.pick(&[0, 1, 2, 2, 3, 4, 4, 5, 6, 6, 6, 7, 8, 8]));
    line
}

fn kind(rng: &mut Rng, m: &Move, kept: Kept) -> Vec<u8> {
    let mut line = write_log(any_way(rng, kept), m);
    let at = rng.pick(&[0, 6, 6]);
    let other = rng.pick(&[
        b"00", b"01", b"02", b"03", b"04", b"81", b"ff", b"10", b"30",
    ]);
    line[at..at + 2].copy_from_slice(other);
    line
}

fn damaged_anywhere(rng: &mut Rng, m: &Move, kept: Kept) -> Vec<u8> {
    let number = any_way(rng, kept);
    let mut line = write_log(number, m);
    match rng.index(8) {
        // In the part that a bare line has, too.
        0..=3 => line = [head(number), damaged(rng)].concat(),
        4 => {
            let (at, other) = (rng.index(8), no_digit(rng));
            line[at] = rng.pick(&[b' ', b'A', b'F', b'x', other]);
        }
        5 => {
            // A digit or a byte of the number too few.
            line.drain(2..2 + rng.pick(&[1, 2, 2]));
        }
        6 => {
            // A byte of the number too many, or a line that has two heads.
            let more = rng.pick(&[2, 2, 6]);
            line.splice(2..2, any_digits(rng, more));
        }
        _ => line.push(b'\r'),
    }
    line
}
