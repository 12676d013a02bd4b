//! A reference program for comparison: see README.md beside this directory.

mod checker;
mod edition;
mod frame;
mod generate;
mod log;
mod rails;
mod rectangle;
mod runs;
mod stops;
mod straight;
mod trays;

use checker::{
    directions, edge, is_bad_edge, is_right_of, is_sound, lie_on_one_line, touched_at_zero,
    verdict, Move, Point, Showing, Verdict,
};
use edition::Second;
use frame::{Asked, Refusal};
use generate::{Class, Set, BAD_EDGES, STRAIGHT_CORNERS};
use log::{Kept, Step};
use runs::Log;
use std::io::{self, BufRead, BufReader, BufWriter, Write};
use std::process::ExitCode;

const USAGE: &str = "usage: independent [answer]
       independent answer log
       independent edition NUMBER
       independent four-corners
       independent moves SEED COUNT [SET | CLASS]
       independent count SEED COUNT [SET | CLASS]";

/// One line for each line of the input. Lines end at byte 0a; a last one
/// without it counts if it has a byte.
fn each_line(
    mut input: impl BufRead,
    mut output: impl Write,
    mut to: impl FnMut(&[u8]) -> Vec<u8>,
) -> io::Result<()> {
    let mut line = Vec::new();
    loop {
        line.clear();
        if input.read_until(b'\n', &mut line)? == 0 {
            return output.flush();
        }
        if line.last() == Some(&b'\n') {
            line.pop();
        }
        let mut written = to(&line);
        written.push(b'\n');
        output.write_all(&written)?;
    }
}

/// One answer line for each line of the input.
fn answer(
    input: impl BufRead,
    output: impl Write,
    mut to: impl FnMut(&[u8]) -> Result<Verdict, Refusal>,
) -> io::Result<()> {
    each_line(input, output, |line| frame::write_answer(&to(line)))
}

/// Each move of kind 02 as the one of kind 01 that has the same answer (request
/// Other lines, refused ones among them, stay as they are.
fn four_corners(input: impl BufRead, output: impl Write) -> io::Result<()> {
    each_line(input, output, |line| match frame::read_line(line) {
        Ok(Asked::Rectangles(m)) => frame::write_move(&rectangle::four_corners(&m)),
        _ => line.to_vec(),
    })
}

/// The same of a log, whose answers depend on the lines before.
fn answer_log(input: impl BufRead, output: impl Write) -> io::Result<()> {
    let mut kept = None;
    answer(input, output, |line| {
        let step = log::step(kept, line);
        kept = step.kept;
        step.answer
    })
}

/// The twelve numbers of each move of kind 01 in an edition (requests Q-6 and
/// Q-7), or its refusal.
fn of_edition(input: impl BufRead, output: impl Write, number: u64) -> io::Result<()> {
    each_line(input, output, |line| {
        let read = frame::read_move(line);
        let answer = edition::answer(number, read.as_ref().map_err(|refusal| *refusal));
        match answer {
            Err(refusal) => format!("refused: {}", refusal.number()).into_bytes(),
            Ok(_) => edition::numbers(&answer)
                .map(|n| n.to_string())
                .join(" ")
                .into_bytes(),
        }
    })
}

/// What lines are made of: classes of moves, of moves of kind 02, or of the
/// lines of a log.
#[derive(Clone, Copy)]
enum Made {
    Moves(Set),
    Trays(trays::Set),
    Log(runs::Set),
}

/// The set or the class of this name.
fn made_named(name: &str) -> Option<Made> {
    let moves = generate::set_named(name).or_else(|| generate::class_named(name));
    let trays = || trays::set_named(name).or_else(|| trays::class_named(name));
    let log = || runs::set_named(name).or_else(|| runs::class_named(name));
    moves
        .map(Made::Moves)
        .or_else(|| trays().map(Made::Trays))
        .or_else(|| log().map(Made::Log))
}

fn moves(mut output: impl Write, seed: u64, count: u64, made: Made) -> io::Result<()> {
    let mut put = |mut line: Vec<u8>| {
        line.push(b'\n');
        output.write_all(&line)
    };
    match made {
        Made::Moves(set) => (0..count).try_for_each(|place| {
            let class = generate::class_of_place(set, place);
            put(generate::line(seed, place, class))
        })?,
        Made::Trays(set) => (0..count).try_for_each(|place| {
            let class = trays::class_of_place(set, place);
            put(trays::line(seed, place, class))
        })?,
        Made::Log(set) => Log::new(seed, set)
            .take(count as usize)
            .try_for_each(|(_, line)| put(line))?,
    }
    output.flush()
}

/// The cases an answer is counted under. A contact counts under its time, its
/// showing and, where it has one, its shortness; at zero also under its
/// bearing.
const CASES: [&str; 21] = [
    "clear1", "clear2", "at-zero", "ff", "bears", "above-0", "of-B", "two-ways", "later",
    "instant", "kind0", "kind1", "kind2", "r2", "r3", "r4", "r5", "r6", "r7", "r8", "r9",
];

/// Whether two of the sides that touch at time zero are not parallel.
fn touches_two_ways(m: &Move) -> bool {
    let all = directions(m);
    let touched = touched_at_zero(m);
    touched.iter().any(|&k| all[touched[0]].cross(all[k]) != 0)
}

fn cases(read: &Result<Move, Refusal>) -> Vec<&'static str> {
    let m = match read {
        Err(refusal) => return vec![CASES[refusal.number() as usize + 11]],
        Ok(m) => m,
    };
    match verdict(m) {
        Verdict::ClearByOne(_) => vec!["clear1"],
        Verdict::ClearByTwo(_, _) => vec!["clear2"],
        Verdict::Contact {
            first,
            last,
            bearing,
            showing,
        } => {
            let mut all = vec![if first.n == 0 { "at-zero" } else { "later" }];
            match bearing {
                _ if first.n > 0 => {}
                None => all.push("ff"),
                Some(side) => {
                    all.push("bears");
                    if side > 0 {
                        all.push("above-0");
                    }
                    if side >= m.a.len() {
                        all.push("of-B");
                    }
                    if touches_two_ways(m) {
                        all.push("two-ways");
                    }
                }
            }
            if first == last {
                all.push("instant");
            }
            all.push(match showing {
                Showing::CornerOfA(_) => "kind0",
                Showing::CornerOfB(_) => "kind1",
                Showing::Edges(_, _) => "kind2",
            });
            all
        }
    }
}

/// The cases of request Q-6. In edition 2: by one; by two, the greatest begin
/// `above` the least end or `equal` to it; contact, of which `at-0` from zero on
/// and `no-time` with the limit zero. In edition 1: `one`, `two`, `contact`.
/// Where the editions differ: in edition 1 contact and in edition 2 clear by
/// one or by two, and else `otherwise`, clear by other sides in both, or contact
/// with another first or last.
const EDITION_CASES: [&str; 14] = [
    "by-one",
    "by-two-above",
    "by-two-equal",
    "contact",
    "at-0",
    "no-time",
    "1-one",
    "1-two",
    "1-contact",
    "differ",
    "to-one",
    "to-two",
    "otherwise",
    "same",
];

fn edition_cases(m: &Move) -> Vec<&'static str> {
    let (first, second) = (verdict(m), edition::second(m));
    let mut all = vec![match second {
        Second::ClearByOne(_) => "by-one",
        Second::ClearByTwo(i, j) => {
            let spans = edition::spans(m);
            match spans[i].map(|span| span.begin) == spans[j].map(|span| span.end) {
                true => "by-two-equal",
                false => "by-two-above",
            }
        }
        Second::Contact { .. } => "contact",
    }];
    if let Second::Contact { first, .. } = second {
        all.extend((first.n == 0).then_some("at-0"));
        all.extend((m.limit == 0).then_some("no-time"));
    }
    all.push(match first {
        Verdict::ClearByOne(_) => "1-one",
        Verdict::ClearByTwo(_, _) => "1-two",
        Verdict::Contact { .. } => "1-contact",
    });
    let without_evidence = match first {
        Verdict::ClearByOne(k) => Second::ClearByOne(k),
        Verdict::ClearByTwo(i, j) => Second::ClearByTwo(i, j),
        Verdict::Contact { first, last, .. } => Second::Contact { first, last },
    };
    if second == without_evidence {
        all.push("same");
    } else {
        all.push("differ");
        all.push(match (first, second) {
            (Verdict::Contact { .. }, Second::ClearByOne(_)) => "to-one",
            (Verdict::Contact { .. }, Second::ClearByTwo(_, _)) => "to-two",
            _ => "otherwise",
        });
    }
    all
}

/// The cases of request Q-7, by the number of sides worked in edition 1: `one`;
/// those of A but the last (`in-A`), all of A (`all-A`), one more (`A+1`), more
/// (`in-B`); all, the last being empty (`to-last`) or none (`every`), of which
/// there are `thirty-two`. In edition 2 the number is `fewer`, or the `same`.
const STOP_CASES: [&str; 10] = [
    "one",
    "in-A",
    "all-A",
    "A+1",
    "in-B",
    "to-last",
    "every",
    "thirty-two",
    "fewer",
    "same",
];

fn stop_cases(m: &Move) -> Vec<&'static str> {
    let first = edition::worked(m, checker::span);
    let second = edition::worked(m, edition::span);
    let (count_a, every) = (m.a.len(), m.a.len() + m.b.len());
    let mut all = vec![match first.len() {
        1 => "one",
        n if n < count_a => "in-A",
        n if n == count_a => "all-A",
        n if n == every && first[n - 1].is_none() => "to-last",
        n if n == every => "every",
        n if n == count_a + 1 => "A+1",
        _ => "in-B",
    }];
    all.extend((first.len() == 32).then_some("thirty-two"));
    // What is empty in edition 1 is so in edition 2.
    all.push(match second.len() < first.len() {
        true => "fewer",
        false => "same",
    });
    all
}

/// The cases of request Q-5: the sides named and what shows. A contact counts
/// at zero by its bearing, `ff`, 0 or 1; later by it, and as `tie` if both spans
/// begin then; and by the corner of A or of B or the edges that show. The last
/// are lines of kind 01 that are accepted.
const TRAY_CASES: [&str; 30] = [
    "clear-0", "clear-1", "clear-01", "clear-10", "zero-ff", "zero-0", "zero-1", "later-0",
    "later-1", "tie", "instant", "A0", "A1", "A2", "A3", "B0", "B1", "B2", "B3", "0+1", "1+0",
    "r2", "r3", "r4", "r5", "r6", "r7", "r8", "r9", "kind-01",
];

fn tray_cases(read: &Result<Asked, Refusal>) -> Vec<&'static str> {
    let m = match read {
        Err(refusal) => return vec![TRAY_CASES[refusal.number() as usize + 19]],
        Ok(Asked::Outlines(_)) => return vec!["kind-01"],
        Ok(Asked::Rectangles(m)) => m,
    };
    match rectangle::verdict(m) {
        Verdict::ClearByOne(k) => vec![TRAY_CASES[k]],
        Verdict::ClearByTwo(i, _) => vec![TRAY_CASES[i + 2]],
        Verdict::Contact {
            first,
            last,
            bearing,
            showing,
        } => {
            let mut all = vec![match bearing {
                None => "zero-ff",
                Some(side) if first.n == 0 => TRAY_CASES[side + 5],
                Some(side) => TRAY_CASES[side + 7],
            }];
            if first.n > 0 && rectangle::begin_together(m) {
                all.push("tie");
            }
            if first == last {
                all.push("instant");
            }
            all.push(match showing {
                Showing::CornerOfA(i) => TRAY_CASES[i + 11],
                Showing::CornerOfB(j) => TRAY_CASES[j + 15],
                Showing::Edges(0, 1) => "0+1",
                Showing::Edges(1, 0) => "1+0",
                Showing::Edges(_, _) => panic!("rectangles cross in two ways"),
            });
            all
        }
    }
}

/// The cases a line of a log is counted under. An accepted one counts by its
/// number: the `first` of all, or so far on from the kept one, and `rolled` if
/// that leads over the rollover. One that is out of order counts by its number
/// too; `passed-10` is refused with 5 to 9 and would be out of order.
const LOG_CASES: [&str; 18] = [
    "accepted",
    "first",
    "by-1",
    "by-more",
    "by-32767",
    "rolled",
    "r2",
    "r3",
    "r4",
    "r5",
    "r6",
    "r7",
    "r8",
    "r9",
    "passed-10",
    "r10-same",
    "r10-half",
    "r10-back",
];

fn log_cases(kept: Kept, line: &[u8], step: &Step) -> Vec<&'static str> {
    // Both are lines whose number can be read.
    let number = || {
        let bytes = frame::bytes_of(line, log::MOST_DIGITS).unwrap();
        u16::from_be_bytes([bytes[1], bytes[2]])
    };
    match (&step.answer, kept) {
        (Ok(_), None) => vec!["accepted", "first"],
        (Ok(_), Some(kept)) => {
            let by = match log::steps(kept, number()) {
                1 => "by-1",
                log::FARTHEST => "by-32767",
                _ => "by-more",
            };
            let mut all = vec!["accepted", by];
            if number() < kept {
                all.push("rolled");
            }
            all
        }
        (Err(Refusal::Order), Some(kept)) => vec![match log::steps(kept, number()) {
            0 => "r10-same",
            32_768 => "r10-half",
            _ => "r10-back",
        }],
        (Err(refusal), kept) => {
            let mut all = vec![LOG_CASES[refusal.number() as usize + 4]];
            if refusal.number() >= 5 && log::lost(kept, number()).is_none() {
                all.push("passed-10");
            }
            all
        }
    }
}

/// The cases of request Q-3, and before them those of lines of a log that come
/// with them. A line may be `accepted` (request Q-8). A refusal with an edge
/// counts by which it is, `edge-0`, `middle`, `late` (the last but one) or
/// `last`, and by which edges of the outline are bad: the last too (`last-too`),
/// just `two`, `more` or `all`. In `both` the other outline is not sound either.
/// Of the named edge: `far`, both corners next to it are strictly to its left;
/// `in-line`, no corner is to its right; `no-step`, it has no length.
const EDGE_CASES: [&str; 19] = [
    "r10-same",
    "r10-half",
    "r10-back",
    "passed-10",
    "accepted",
    "r8",
    "r9",
    "both",
    "edge-0",
    "middle",
    "late",
    "last",
    "last-too",
    "two",
    "more",
    "all",
    "far",
    "in-line",
    "no-step",
];

/// So many of the cases here and of those of request Q-8 are of logs alone.
const OF_LOGS: usize = 4;

fn bad_edges(outline: &[Point]) -> Vec<usize> {
    let is_bad = |i: &usize| is_bad_edge(outline, *i);
    (0..outline.len()).filter(is_bad).collect()
}

/// The outline that a bare line is refused for, the edge named, and the other
/// outline; none where the refusal is another.
fn refused_outline(line: &[u8], refusal: Refusal) -> Option<(Vec<Point>, usize, Vec<Point>)> {
    let named = refusal.edge()?;
    let bytes = frame::bytes_of(line, frame::MOST_DIGITS)?;
    let m = frame::read_fields(&bytes).ok()?;
    Some(match refusal {
        Refusal::First(_) => (m.a, named, m.b),
        _ => (m.b, named, m.a),
    })
}

/// Those of the cases that are met.
fn met_of<const N: usize>(cases: [(&'static str, bool); N]) -> Vec<&'static str> {
    let met = cases.into_iter().filter(|(_, is_met)| *is_met);
    met.map(|(case, _)| case).collect()
}

/// Which edge is named of an outline with so many.
fn place_of_edge(named: usize, count: usize) -> &'static str {
    match named {
        0 => "edge-0",
        n if n == count - 1 => "last",
        n if n == count - 2 => "late",
        _ => "middle",
    }
}

/// Those of a bare line that is refused, or of what follows the head of one in
/// a log.
fn edge_cases(line: &[u8], refusal: Refusal) -> Vec<&'static str> {
    let Some((outline, named, other)) = refused_outline(line, refusal) else {
        return Vec::new();
    };
    let (count, bad) = (outline.len(), bad_edges(&outline));
    let (start, stop) = edge(&outline, named);
    let left = |k: usize| stop.minus(start).cross(outline[k % count].minus(start));
    let mut all = met_of([
        ("both", !is_sound(&other)),
        ("last-too", bad.contains(&(count - 1))),
        ("two", bad.len() == 2),
        ("more", 2 < bad.len() && bad.len() < count),
        ("all", bad.len() == count),
        ("far", left(named + count - 1) > 0 && left(named + 2) > 0),
        ("in-line", (0..count).all(|k| left(k) >= 0)),
        ("no-step", start == stop),
    ]);
    all.push(place_of_edge(named, count));
    all
}

/// The cases of request Q-8. An accepted line counts by its straight corners in
/// all: `plain`, without one, `one`, `two-up`, `six-up`, `13-up`; as `in-both` if
/// each outline has some; and by its verdict. Of its contact: `bears-on`, the
/// bearing is an edge with a straight corner at an end; `shown-by`, a straight
/// corner shows. A refusal with an edge counts by which it is, as in request Q-3,
/// and by its fault: `on-line`, all corners are on one line; `right`, a corner is
/// to its right; `repeated`, its start is another corner, too; `both` of these.
const STRAIGHT_CASES: [&str; 26] = [
    "r10-same",
    "r10-half",
    "r10-back",
    "passed-10",
    "accepted",
    "plain",
    "one",
    "two-up",
    "six-up",
    "13-up",
    "in-both",
    "clear1",
    "clear2",
    "contact",
    "bears-on",
    "shown-by",
    "r8",
    "r9",
    "edge-0",
    "middle",
    "late",
    "last",
    "on-line",
    "right",
    "repeated",
    "both",
];

fn accepted_cases(m: &Move) -> Vec<&'static str> {
    let (on_a, on_b) = (
        straight::straight_corners(&m.a),
        straight::straight_corners(&m.b),
    );
    let mut all = vec![match on_a.len() + on_b.len() {
        0 => "plain",
        1 => "one",
        2..=5 => "two-up",
        6..=12 => "six-up",
        _ => "13-up",
    }];
    all.extend((!on_a.is_empty() && !on_b.is_empty()).then_some("in-both"));
    let (count_a, count_b) = (m.a.len(), m.b.len());
    let is_along = |side: usize| match side.checked_sub(count_a) {
        None => on_a.contains(&side) || on_a.contains(&((side + 1) % count_a)),
        Some(i) => on_b.contains(&i) || on_b.contains(&((i + 1) % count_b)),
    };
    let is_straight = |showing: Showing| match showing {
        Showing::CornerOfA(i) => on_a.contains(&i),
        Showing::CornerOfB(j) => on_b.contains(&j),
        Showing::Edges(_, _) => false,
    };
    match verdict(m) {
        Verdict::ClearByOne(_) => all.push("clear1"),
        Verdict::ClearByTwo(_, _) => all.push("clear2"),
        Verdict::Contact {
            bearing, showing, ..
        } => all.extend(met_of([
            ("contact", true),
            ("bears-on", bearing.is_some_and(is_along)),
            ("shown-by", is_straight(showing)),
        ])),
    }
    all
}

fn fault_cases(line: &[u8], refusal: Refusal) -> Vec<&'static str> {
    let Some((outline, named, _)) = refused_outline(line, refusal) else {
        return Vec::new();
    };
    let right = outline.iter().any(|c| is_right_of(&outline, named, *c));
    let at_start = |c: &&Point| **c == outline[named];
    let repeated = outline.iter().filter(at_start).count() > 1;
    let fault = match (lie_on_one_line(&outline), right, repeated) {
        (true, _, _) => "on-line",
        (_, true, true) => "both",
        (_, true, _) => "right",
        _ => "repeated",
    };
    vec![place_of_edge(named, outline.len()), fault]
}

/// How often each case came up in each class, and each edge in all.
struct Table {
    cases: &'static [&'static str],
    rows: Vec<(&'static str, u64, Vec<u64>)>,
    named: [u64; 16],
}

impl Table {
    fn new(cases: &'static [&'static str], classes: impl Iterator<Item = &'static str>) -> Table {
        let row = |name| (name, 0, vec![0; cases.len()]);
        let rows = classes.map(row).collect();
        Table {
            cases,
            rows,
            named: [0; 16],
        }
    }

    /// Counts a line under the cases it meets that have a column.
    fn add(&mut self, row: usize, met: &[&str], refusal: Option<Refusal>) {
        let (_, lines, counts) = &mut self.rows[row];
        *lines += 1;
        for (case, count) in self.cases.iter().zip(counts) {
            *count += u64::from(met.contains(case));
        }
        if let Some(edge) = refusal.and_then(Refusal::edge) {
            self.named[edge] += 1;
        }
    }

    /// The rows, their sum, and the edges.
    fn write(&self, output: &mut impl Write) -> io::Result<()> {
        let all = |of: &dyn Fn(&(&str, u64, Vec<u64>)) -> u64| self.rows.iter().map(of).sum();
        let sums = (0..self.cases.len()).map(|column| all(&|row| row.2[column]));
        let sum = ("all", all(&|row| row.1), sums.collect());
        let widths: Vec<usize> = self.cases.iter().map(|c| 9.max(c.len() + 1)).collect();
        let wide = self.rows.iter().map(|(name, _, _)| name.len() + 1).max();
        let wide = wide.unwrap_or(0).max(10);
        write!(output, "{:<wide$}{:>9}", "class", "lines")?;
        for (case, width) in self.cases.iter().zip(&widths) {
            write!(output, "{case:>width$}")?;
        }
        writeln!(output)?;
        for (name, lines, counts) in self.rows.iter().chain([&sum]) {
            write!(output, "{name:<wide$}{lines:>9}")?;
            for (number, width) in counts.iter().zip(&widths) {
                write!(output, "{number:>width$}")?;
            }
            writeln!(output)?;
        }
        if self.named.iter().any(|times| *times > 0) {
            let named = self.named.map(|times| times.to_string()).join(" ");
            writeln!(output, "edges named, from 0 to 15: {named}")?;
        }
        Ok(())
    }
}

/// The same lines, not written but answered and counted.
fn count(mut output: impl Write, seed: u64, count: u64, made: Made) -> io::Result<()> {
    match made {
        Made::Moves(set) => count_moves(seed, count, set).write(&mut output)?,
        Made::Trays(set) => count_trays(seed, count, set).write(&mut output)?,
        Made::Log(set) => {
            let (table, lost) = count_log(seed, count, set);
            table.write(&mut output)?;
            writeln!(output, "lines lost in all: {lost}")?;
        }
    }
    output.flush()
}

fn count_moves(seed: u64, count: u64, set: Set) -> Table {
    let columns = match set[0].0 {
        Class::Rail(_) => &EDITION_CASES[..],
        Class::Stop(_) => &STOP_CASES[..],
        class if generate::is_of(BAD_EDGES, class) => &EDGE_CASES[OF_LOGS..],
        class if generate::is_of(STRAIGHT_CORNERS, class) => &STRAIGHT_CASES[OF_LOGS..],
        _ => &CASES[..],
    };
    let mut table = Table::new(columns, set.iter().map(|(_, name)| *name));
    for place in 0..count {
        let class = generate::class_of_place(set, place);
        let row = set.iter().position(|(c, _)| *c == class).unwrap();
        let line = generate::line(seed, place, class);
        let read = frame::read_line(&line).map(|asked| match asked {
            Asked::Outlines(m) => m,
            Asked::Rectangles(m) => rectangle::four_corners(&m),
        });
        let mut met = match (class, &read) {
            (Class::Rail(_), Ok(m)) => edition_cases(m),
            (Class::Stop(_), Ok(m)) => stop_cases(m),
            (Class::Drawn(_) | Class::Misdrawn(_), Ok(m)) => accepted_cases(m),
            _ => cases(&read),
        };
        let refusal = read.as_ref().err().copied();
        met.extend(read.is_ok().then_some("accepted"));
        met.extend(refusal.map_or(Vec::new(), |r| match class {
            Class::Misdrawn(_) => fault_cases(&line, r),
            _ => edge_cases(&line, r),
        }));
        table.add(row, &met, refusal);
    }
    table
}

fn count_trays(seed: u64, count: u64, set: trays::Set) -> Table {
    let mut table = Table::new(&TRAY_CASES, set.iter().map(|(_, name)| *name));
    for place in 0..count {
        let class = trays::class_of_place(set, place);
        let row = set.iter().position(|(c, _)| *c == class).unwrap();
        let read = frame::read_line(&trays::line(seed, place, class));
        table.add(row, &tray_cases(&read), read.err());
    }
    table
}

/// The cases of a bare line that is refused.
type EdgeCases = fn(&[u8], Refusal) -> Vec<&'static str>;

/// The counts of a log, and how many lines it has lost.
fn count_log(seed: u64, count: u64, set: runs::Set) -> (Table, u64) {
    let is_bad = |(class, _): &(runs::Class, _)| matches!(class, runs::Class::Bad(_));
    let is_drawn = |(class, _): &(runs::Class, _)| {
        matches!(class, runs::Class::Drawn(_) | runs::Class::Misdrawn(_))
    };
    let (columns, of_edge): (&'static [&'static str], EdgeCases) = match set {
        set if set.iter().any(is_drawn) => (&STRAIGHT_CASES, fault_cases),
        set if set.iter().any(is_bad) => (&EDGE_CASES, edge_cases),
        _ => (&LOG_CASES, edge_cases),
    };
    let mut table = Table::new(columns, set.iter().map(|(_, name)| *name));
    let (mut kept, mut lost) = (None, 0);
    for (class, line) in Log::new(seed, set).take(count as usize) {
        let row = set.iter().position(|(c, _)| *c == class).unwrap();
        let step = log::step(kept, &line);
        let mut met = log_cases(kept, &line, &step);
        let refusal = step.answer.err();
        let bare = line.get(6..).unwrap_or_default();
        met.extend(refusal.map_or(Vec::new(), |r| of_edge(bare, r)));
        let read = step.answer.and_then(|_| frame::read_move(bare));
        met.extend(read.map_or(Vec::new(), |m| accepted_cases(&m)));
        table.add(row, &met, refusal);
        kept = step.kept;
        lost += u64::from(step.lost);
    }
    (table, lost)
}

fn main() -> ExitCode {
    let arguments: Vec<String> = std::env::args().skip(1).collect();
    let words: Vec<&str> = arguments.iter().map(String::as_str).collect();
    let output = BufWriter::new(io::stdout().lock());
    let number = |word: &str| word.parse::<u64>().ok();
    let input = || BufReader::new(io::stdin().lock());
    let wanted =
        |seed: &str, lines: &str, of: &str| Some((number(seed)?, number(lines)?, made_named(of)?));

    let done = match words[..] {
        [] | ["answer"] => Some(answer(input(), output, frame::answer)),
        ["answer", "log"] => Some(answer_log(input(), output)),
        ["edition", of] => number(of).map(|of| of_edition(input(), output, of)),
        ["four-corners"] => Some(four_corners(input(), output)),
        [task @ ("moves" | "count"), seed, lines, ref of @ ..] if of.len() <= 1 => {
            let of = of.first().copied().unwrap_or("base");
            wanted(seed, lines, of).map(|(seed, lines, made)| match task {
                "moves" => moves(output, seed, lines, made),
                _ => count(output, seed, lines, made),
            })
        }
        _ => None,
    };

    match done {
        Some(Ok(())) => ExitCode::SUCCESS,
        Some(Err(error)) => {
            eprintln!("independent: {error}");
            ExitCode::FAILURE
        }
        None => {
            eprintln!("{USAGE}");
            ExitCode::from(2)
        }
    }
}

#[cfg(test)]
mod tests;
#[cfg(test)]
mod tests_edges;
#[cfg(test)]
mod tests_editions;
#[cfg(test)]
mod tests_log;
#[cfg(test)]
mod tests_straight;
#[cfg(test)]
mod tests_trays;
