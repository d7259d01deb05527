//! The plain take over a lot of records, with the same work around it as the static library does.

use crate::plain::{Entry, Row, take};

const MOST_DAYS: usize = 1000;
const MOST_TOTALS: usize = 16_000;

/// Takes each record of the lot, `rounds` times over. Answers the number of pulses of the last and
/// lists first day, width and amount of each, as far as there is room.
pub fn take_lot(lot: &[i64], days: usize, rounds: usize, listed: &mut [i64]) -> Option<usize> {
    if days == 0 || days > MOST_DAYS || lot.len() > MOST_TOTALS {
        return None;
    }
    let mut totals = [0; MOST_TOTALS];
    totals[..lot.len()].copy_from_slice(lot);
    let mut work = [Entry::default(); MOST_DAYS + 2];
    let mut rows = [Row::default(); MOST_DAYS];
    let work = &mut work[..days + 2];
    let rows = &mut rows[..days];
    let count = take_rounds(&totals[..lot.len()], days, rounds, work, rows)?;
    list(&rows[..count], listed);
    Some(count)
}

#[inline(never)]
fn take_rounds(
    lot: &[i64],
    days: usize,
    rounds: usize,
    work: &mut [Entry],
    rows: &mut [Row],
) -> Option<usize> {
    let mut count = 0;
    for _ in 0..rounds {
        for record in lot.chunks_exact(days) {
            count = take(record, work, rows).ok()?;
        }
    }
    Some(count)
}

fn list(rows: &[Row], listed: &mut [i64]) {
    for (row, place) in rows.iter().zip(listed.chunks_exact_mut(3)) {
        place[0] = row.first.into();
        place[1] = row.width.into();
        place[2] = row.amount;
    }
}
