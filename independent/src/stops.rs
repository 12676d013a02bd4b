//! Seeded moves of request Q-7, by the side at which work stops in edition 1:
//! moves in which few spans are empty, their outlines numbered anew.

use super::checker::{directions, span, Move, Point};
use super::generate::Rng;
use super::rails;

#[derive(Clone, Copy, Debug, PartialEq, Eq)]
pub enum Class {
    /// At side 0.
    AtFirst,
    /// At one of A's sides between its first and its last.
    AmidA,
    /// At A's last side, after all others of A.
    EndsA,
    /// At B's first side.
    BeginsB,
    /// At one between that and the last.
    AmidB,
    /// At the last side of all, so that as many are worked as if none was empty.
    AtLast,
    /// At none: not clear by one.
    Nowhere,
}

/// One try at a move of a class.
pub fn attempt(rng: &mut Rng, class: Class) -> Option<Move> {
    let apart = rng.pick(&[rails::Class::Apart, rails::Class::ZeroApart]);
    let m = match class {
        Class::Nowhere => rails::attempt(rng, rails::Class::NearPast)?,
        _ => rails::attempt(rng, apart)?,
    };
    let m = match class {
        Class::AtFirst | Class::Nowhere => m,
        Class::AmidA | Class::EndsA => m,
        _ if stops_at(&m)? < m.a.len() => exchanged(m),
        _ => m,
    };
    let (count_a, last) = (m.a.len(), m.a.len() + m.b.len() - 1);
    // Before a last side that is empty there is none.
    let one_of = match class {
        Class::EndsA => 0..count_a,
        Class::AtLast => 0..last + 1,
        _ => 0..0,
    };
    if !one_of.is_empty() && empty_among(&m, one_of) != 1 {
        return None;
    }
    let wanted = |at: Option<usize>| match class {
        Class::AtFirst => at == Some(0),
        Class::AmidA => at.is_some_and(|k| 0 < k && k < count_a - 1),
        Class::EndsA => at == Some(count_a - 1),
        Class::BeginsB => at == Some(count_a),
        Class::AmidB => at.is_some_and(|k| count_a < k && k < last),
        Class::AtLast => at == Some(last),
        Class::Nowhere => at.is_none(),
    };
    // A turn of one outline changes the numbers of its own sides alone.
    let turns = 0..count_a.max(m.b.len());
    let mut all: Vec<Move> = turns.map(|by| turned(&m, by)).collect();
    all.retain(|m| wanted(stops_at(m)));
    all.into_iter().max_by_key(stops_at)
}

/// The lowest side whose span is empty.
fn stops_at(m: &Move) -> Option<usize> {
    let all = directions(m);
    all.into_iter().position(|d| span(m, d).is_none())
}

fn empty_among(m: &Move, sides: std::ops::Range<usize>) -> usize {
    let all = directions(m);
    let is_empty = |d: &&Point| span(m, **d).is_none();
    all[sides].iter().filter(is_empty).count()
}

fn exchanged(m: Move) -> Move {
    Move {
        limit: m.limit,
        velocity_a: m.velocity_b,
        velocity_b: m.velocity_a,
        a: m.b,
        b: m.a,
    }
}

/// Both outlines numbered from a corner so many further on.
fn turned(m: &Move, by: usize) -> Move {
    let turn = |outline: &[Point]| {
        let mut outline = outline.to_vec();
        let by = by % outline.len();
        outline.rotate_left(by);
        outline
    };
    Move {
        limit: m.limit,
        velocity_a: m.velocity_a,
        velocity_b: m.velocity_b,
        a: turn(&m.a),
        b: turn(&m.b),
    }
}
