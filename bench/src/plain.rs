//! The splitting of a record into pulses, in plain Rust: the same run method, over numbers.

/// Why a record is not split.
#[derive(Clone, Copy, Debug, PartialEq, Eq)]
pub enum Refusal {
    TooManyDays,
    MayNotEnter { day: usize },
    WorkTooShort,
    ShelfTooSmall,
}

/// A pulse: first day, width, the number of its mark (0 in) and its amount.
#[derive(Clone, Copy, Debug, Default, PartialEq, Eq)]
pub struct Row {
    pub first: u16,
    pub width: u16,
    pub mark: u8,
    pub amount: i64,
}

/// One entry of the work list. Entry d belongs to day d; day 0 and the day after the last stand for
/// the days outside the record.
#[derive(Clone, Copy, Default)]
pub struct Entry {
    /// the day's total, right at both ends of a run
    total: i64,
    /// at the first day of a run its last day, and at its last day its first
    other: usize,
    /// entry i holds mark number i: the first day of a run that may be a bump or a pit
    mark: usize,
}

const MOST_DAYS: usize = 1000;
const MOST_CENTS: u64 = 1_000_000_000_000;

/// Splits a record and puts a row for each pulse. Answers the number of pulses.
pub fn take(record: &[i64], work: &mut [Entry], rows: &mut [Row]) -> Result<usize, Refusal> {
    let days = record.len();
    if days > MOST_DAYS {
        return Err(Refusal::TooManyDays);
    }
    if let Some(at) = record
        .iter()
        .position(|total| total.unsigned_abs() > MOST_CENTS)
    {
        return Err(Refusal::MayNotEnter { day: at + 1 });
    }
    if work.len() < days + 2 {
        return Err(Refusal::WorkTooShort);
    }
    if rows.len() < days {
        return Err(Refusal::ShelfTooSmall);
    }
    Ok(split(record, work, rows))
}

/// Levels width by width, bumps before pits, until nothing turns.
fn split(record: &[i64], work: &mut [Entry], rows: &mut [Row]) -> usize {
    let days = record.len();
    let mut levels = Levels {
        marks: build(record, work),
        count: 0,
        days,
        work,
        rows,
    };
    for width in 1..=days {
        if levels.marks == 0 {
            break;
        }
        levels.pass::<false>(width);
        levels.pass::<true>(width);
    }
    levels.count
}

/// Lays the record out in runs and marks each of them. Answers the number of marks.
fn build(record: &[i64], work: &mut [Entry]) -> usize {
    let days = record.len();
    let mut marks = 0;
    let mut first = 0;
    let mut before = 0;
    for (day, &total) in record.iter().enumerate() {
        if total != before {
            marks = mark_run(work, marks, first, day, before);
            first = day + 1;
            before = total;
        }
    }
    if before != 0 {
        marks = mark_run(work, marks, first, days, before);
        first = days + 1;
    }
    set_run(work, first, days + 1, 0);
    marks
}

/// A run, and a mark for it unless it reaches back before day 1: that one never turns.
fn mark_run(work: &mut [Entry], marks: usize, first: usize, last: usize, total: i64) -> usize {
    set_run(work, first, last, total);
    if first == 0 {
        return marks;
    }
    work[marks].mark = first;
    marks + 1
}

/// Writes the two ends of a run, and nothing between them.
fn set_run(work: &mut [Entry], first: usize, last: usize, total: i64) {
    work[first].total = total;
    work[first].other = last;
    work[last].total = total;
    work[last].other = first;
}

struct Levels<'a> {
    work: &'a mut [Entry],
    rows: &'a mut [Row],
    days: usize,
    marks: usize,
    count: usize,
}

impl Levels<'_> {
    /// Levels the runs of one width that are bumps, or in a downward pass pits, from the left.
    /// Marks of runs that no longer turn are dropped.
    fn pass<const DOWN: bool>(&mut self, width: usize) {
        let mut kept = 0;
        let mut reached = 0;
        for number in 0..self.marks {
            let first = self.work[number].mark;
            if first <= reached {
                continue;
            }
            let last = self.work[first].other;
            if last > self.days {
                continue;
            }
            let here = self.work[first].total;
            let left = self.work[first - 1].total;
            let right = self.work[last + 1].total;
            let bump = left < here && right < here;
            let pit = left > here && right > here;
            if !bump && !pit {
                continue;
            }
            let mut start = first;
            if pit == DOWN && last - first + 1 == width {
                let level = if DOWN {
                    left.min(right)
                } else {
                    left.max(right)
                };
                self.put(first, width, here - level);
                (start, reached) = self.join(first, last, level);
                if kept > 0 && self.work[kept - 1].mark >= start {
                    kept -= 1;
                }
                if start == 0 {
                    continue;
                }
            }
            self.work[kept].mark = start;
            kept += 1;
        }
        self.marks = kept;
    }

    fn put(&mut self, first: usize, width: usize, amount: i64) {
        self.rows[self.count] = Row {
            first: first as u16,
            width: width as u16,
            mark: 0,
            amount,
        };
        self.count += 1;
    }

    /// Gives the days first to last another total and joins them with the neighbours that hold it.
    /// Answers the ends of the new run.
    fn join(&mut self, first: usize, last: usize, total: i64) -> (usize, usize) {
        let mut ends = (first, last);
        if self.work[first - 1].total == total {
            ends.0 = self.work[first - 1].other;
        }
        if self.work[last + 1].total == total {
            ends.1 = self.work[last + 1].other;
        }
        set_run(self.work, ends.0, ends.1, total);
        ends
    }
}
