// Taken from rhai (rhaiscript/rhai c7d67b9c20), src/grain/compile/cases.rs; MIT OR Apache-2.0.
// What differs from that file, and why, stands in docs/DIFFERENCES.md.

//! Turning Rhai's `switch` range arms into something that can be looked up.
//!
//! Rhai scans its range arms in order and takes the first one that both
//! contains the subject *and* whose guard passes — so when two arms overlap,
//! which arm runs is not a property of the subject alone. A dispatch table has
//! one answer per subject, so the overlap has to go somewhere, and the only
//! place it can go without keeping the subject alive across the guards is
//! here.
//!
//! [`split`] cuts the arms into disjoint intervals. Each interval carries the
//! arms covering it, in source order, and the compiler emits those as a chain
//! of guards ending at the default — exactly what it already does for the arms
//! sharing a case value.

use crate::grain::bytecode::SwitchRange;
use crate::grain::{eval::RangeCase, stand_in::INT};

/// A range arm's interval, as bounds rather than as a `Range`.
fn bounds(range: &RangeCase) -> (INT, INT, bool) {
    match range {
        RangeCase::ExclusiveInt(r, ..) => (r.start, r.end, false),
        RangeCase::InclusiveInt(r, ..) => (*r.start(), *r.end(), true),
    }
}

/// A piece of the number line that every arm either covers whole or not at
/// all.
///
/// Two kinds because the bounds are integers but the values are not: between
/// two adjacent bounds there is nothing to enumerate and yet `5.5` is in
/// there, so the gaps are intervals in their own right rather than something
/// the endpoints cover.
enum Atom {
    /// A single integer.
    Point(INT),
    /// Everything strictly between two adjacent bounds.
    Between(INT, INT),
}

fn covers(range: &RangeCase, atom: &Atom) -> bool {
    match atom {
        Atom::Point(point) => range.contains_int(*point),
        // Every endpoint is a bound, so a range that reaches into a gap
        // between two adjacent bounds spans the whole of it.
        Atom::Between(low, high) => {
            let (start, end, ..) = bounds(range);
            start <= *low && end >= *high
        }
    }
}

/// One interval and the arms that cover it, being built.
struct Run {
    from: INT,
    to: INT,
    inclusive: bool,
    blocks: Vec<usize>,
}

/// Split range arms into disjoint intervals, each carrying the arms that cover
/// it in source order.
///
/// Targets come back as zero: which instruction an interval sends control to
/// is the caller's to fill in, once it has emitted the chain.
///
/// ## Why the lower bounds can overlap after all
///
/// An interval that starts in a gap — everything above `10` but not `10`
/// itself — has no exact form here, and comes back as `10..hi`, which does
/// include `10`. That is sound because entries are scanned in order and `10`
/// is always claimed by an earlier one: any arm reaching into the gap above a
/// bound also covers the bound, so the point is never an interval nobody
/// emitted.
pub fn split(ranges: &[RangeCase]) -> Vec<(SwitchRange, Vec<usize>)> {
    let mut points: Vec<INT> = Vec::with_capacity(ranges.len() * 2);
    for range in ranges {
        let (start, end, ..) = bounds(range);
        points.push(start);
        points.push(end);
    }
    points.sort_unstable();
    points.dedup();

    let mut atoms = Vec::with_capacity(points.len() * 2);
    for (index, point) in points.iter().enumerate() {
        atoms.push(Atom::Point(*point));
        if let Some(next) = points.get(index + 1) {
            atoms.push(Atom::Between(*point, *next));
        }
    }

    let mut out: Vec<(SwitchRange, Vec<usize>)> = Vec::new();
    let mut run: Option<Run> = None;

    let finish = |run: Run| {
        (
            SwitchRange {
                from: run.from,
                to: run.to,
                inclusive: run.inclusive,
                target: 0,
            },
            run.blocks,
        )
    };

    for atom in &atoms {
        let blocks: Vec<usize> = ranges
            .iter()
            .filter(|range| covers(range, atom))
            .map(RangeCase::index)
            .collect();

        let (from, to, inclusive) = match atom {
            Atom::Point(point) => (*point, *point, true),
            Atom::Between(low, high) => (*low, *high, false),
        };

        // Atoms are contiguous and in order, so one that runs the same arms as
        // the one before it is the same table entry stretched further.
        if run.as_ref().map_or(false, |open| open.blocks == blocks) {
            let open = run.as_mut().expect("just checked");
            open.to = to;
            open.inclusive = inclusive;
            continue;
        }

        if let Some(open) = run.take() {
            out.push(finish(open));
        }
        // An atom no arm covers ends the run and starts nothing: a subject
        // there has no range arm and belongs to the default.
        if !blocks.is_empty() {
            run = Some(Run {
                from,
                to,
                inclusive,
                blocks,
            });
        }
    }

    if let Some(open) = run.take() {
        out.push(finish(open));
    }
    out
}
