//! Seeded moves of request Q-6, for the corners at which the two editions of the
//! touch rule part: outlines that slide along one another, touch, meet corner
//! on corner, or overlap by little or for a short time.

use super::checker::{point, Move, Point};
use super::frame::REACH;
use super::generate::{
    any_limit, any_outline, any_touch, any_way, by_edge, by_parallel_edges, by_several, crossed,
    farthest_count, full, parting, put_together, scattered, shifted, shortest, touch, within, Rng,
    Touch,
};

#[derive(Clone, Copy, Debug, PartialEq, Eq)]
pub enum Class {
    /// Two edges on one line, along which the outlines slide past one another.
    Rails,
    /// One in the other and against it from the inside.
    InnerRail,
    /// Equal velocities and in touch.
    Resting,
    /// In touch at time zero and moving apart.
    Leaving,
    /// The limit is the first touch, or is about it.
    AtLast,
    /// Two corners meet, and the outlines go on into or past one another.
    CornerOnCorner,
    /// Two corners meet in passing, and nothing else does: on one side the
    /// projections part when on another they meet.
    Past,
    /// The same a short way further in or out.
    NearPast,
    /// The limit is zero: in touch, overlapping, apart.
    ZeroTouching,
    ZeroOverlapping,
    ZeroApart,
    /// Apart at time zero, moving any way.
    Apart,
}

/// Which way the outlines go when they meet, and at what time they do: `step`
/// is taken `pace` times in a unit of time and `steps` times on the way, so that
/// the time is a fraction.
pub struct Way {
    step: Point,
    pace: i128,
    steps: i128,
}

impl Way {
    pub fn any(rng: &mut Rng, step: Point) -> Way {
        let reach = step.x.abs().max(step.y.abs()).max(1);
        let pace = rng.size(1, (2 * REACH / reach).clamp(1, 400));
        let most = (9000 / reach).clamp(1, pace * REACH);
        let steps = match rng.index(4) {
            0 => pace * rng.size(1, (most / pace).max(1)),
            _ => rng.size(1, most),
        };
        Way { step, pace, steps }
    }

    pub fn velocity(&self) -> Point {
        self.step.times(self.pace)
    }

    /// An outline as it is at time zero if it is this one when they meet.
    pub fn before(&self, outline: &[Point]) -> Vec<Point> {
        shifted(outline, self.step.times(-self.steps))
    }

    /// The first whole time after they meet.
    fn after(&self) -> i128 {
        self.steps / self.pace + 1
    }

    /// Mostly a limit that is after it.
    pub fn limit(&self, rng: &mut Rng) -> i128 {
        match rng.index(6) {
            0 => any_limit(rng),
            1 => self.after(),
            _ => rng.range(self.after().min(REACH), REACH),
        }
    }
}

/// One try at a move of a class.
pub fn attempt(rng: &mut Rng, class: Class) -> Option<Move> {
    match class {
        Class::Rails => rails(rng),
        Class::InnerRail => within(rng),
        Class::Resting => {
            let Touch { a, b, .. } = any_touch(rng)?;
            let limit = any_limit(rng);
            put_together(rng, &a, &b, point(0, 0), limit)
        }
        Class::Leaving => parting(rng),
        Class::AtLast => at_last(rng),
        Class::CornerOnCorner => corner_on_corner(rng),
        Class::Past => past(rng, 0),
        Class::NearPast => {
            let by = rng.size(1, 20);
            past(rng, by)
        }
        Class::ZeroTouching => {
            let Touch { a, b, .. } = any_touch(rng)?;
            let w = any_way(rng);
            put_together(rng, &a, &b, w, 0)
        }
        Class::ZeroOverlapping => zero_overlapping(rng),
        Class::ZeroApart => zero_apart(rng),
        Class::Apart => apart(rng),
    }
}

fn rails(rng: &mut Rng) -> Option<Move> {
    let Touch { a, b, across } = match rng.index(2) {
        0 => by_edge(rng)?,
        _ => by_parallel_edges(rng)?,
    };
    let along = shortest(point(-across.y, across.x));
    let reach = along.x.abs().max(along.y.abs());
    let away = rng.size(1, (6000 / reach).max(1)) * rng.pick(&[-1, 0, 1]);
    let hair = if rng.one_in(8) {
        rng.nonzero_within(1)
    } else {
        point(0, 0)
    };
    let b = shifted(&b, along.times(away).plus(hair));
    let pace = rng.size(1, (2 * REACH / reach).max(1));
    let to = match away.signum() {
        0 => rng.pick(&[-1, 1]),
        from => from * rng.pick(&[-1, -1, -1, 1]),
    };
    let limit = any_limit(rng);
    put_together(rng, &a, &b, along.times(pace * to), limit)
}

fn at_last(rng: &mut Rng) -> Option<Move> {
    let Touch { a, b, across } = any_touch(rng)?;
    let speed = rng.size(1, 200);
    let w = match rng.index(3) {
        0 => shortest(across).times(-1),
        _ => rng.within(speed),
    };
    let w = match w.dot(across).signum() {
        0 => return None,
        sign => w.times(-sign),
    };
    let time = rng.size(1, (8000 / w.x.abs().max(w.y.abs())).max(1));
    let b = shifted(&b, w.times(-time));
    let limit = time + rng.pick(&[0, 0, 0, 0, -1, 1]);
    put_together(rng, &a, &b, w, limit)
}

fn corner_on_corner(rng: &mut Rng) -> Option<Move> {
    let Touch { a, b, across } = by_several(rng)?;
    let step = match rng.index(4) {
        // Along an edge of A at the corner.
        0 => shortest(point(-across.y, across.x)),
        1 => shortest(across).times(-1),
        _ => rng.nonzero_within(12),
    };
    let way = Way::any(rng, step);
    let limit = way.limit(rng);
    put_together(rng, &a, &way.before(&b), way.velocity(), limit)
}

/// Further in or out by up to so much in each coordinate.
fn past(rng: &mut Rng, by: i128) -> Option<Move> {
    let size = rng.size(2, 3000);
    let Touch { a, b, across } = touch(rng, size);
    let line_free = |outline: &[Point], out: Point| farthest_count(outline, out) == 1;
    if !line_free(&a, across) || !line_free(&b, across.times(-1)) {
        return None;
    }
    let along = shortest(point(-across.y, across.x));
    let step = along.times(rng.pick(&[-1, 1]));
    let way = Way::any(rng, step);
    let b = shifted(&way.before(&b), rng.within(by));
    let limit = way.limit(rng);
    put_together(rng, &a, &b, way.velocity(), limit)
}

fn zero_overlapping(rng: &mut Rng) -> Option<Move> {
    let (a, b) = match rng.index(3) {
        0 => crossed(rng),
        1 => {
            let m = within(rng)?;
            (m.a, m.b)
        }
        _ => {
            let Touch { a, b, across } = any_touch(rng)?;
            let by = point(across.x.signum(), across.y.signum());
            (a, shifted(&b, by.times(-1)))
        }
    };
    let w = any_way(rng);
    put_together(rng, &a, &b, w, 0)
}

fn zero_apart(rng: &mut Rng) -> Option<Move> {
    let Touch { a, b, across } = any_touch(rng)?;
    let by = point(across.x.signum(), across.y.signum());
    let far = rng.size(1, 300);
    let w = any_way(rng);
    put_together(rng, &a, &shifted(&b, by.times(far)), w, 0)
}

/// Anywhere over the full range, or some way off a touch.
fn apart(rng: &mut Rng) -> Option<Move> {
    match rng.index(3) {
        0 => full(rng),
        1 => {
            let size = rng.size(2, 4000);
            let (a, b) = (any_outline(rng, size), any_outline(rng, size));
            let (a, b) = (scattered(rng, &a), scattered(rng, &b));
            let w = any_way(rng);
            let limit = any_limit(rng);
            put_together(rng, &a, &b, w, limit)
        }
        _ => {
            let Touch { a, b, across } = any_touch(rng)?;
            let off = shortest(across).times(rng.size(1, 20));
            let w = any_way(rng);
            let limit = any_limit(rng);
            put_together(rng, &a, &shifted(&b, off), w, limit)
        }
    }
}
