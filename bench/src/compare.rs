//! Both versions on many records: what they list has to be the same.

use crate::records::{Chance, Shape};
use crate::{plain_lot, proved};

/// Compares all records, and stops at the first that differs.
pub fn all() {
    let mut chance = Chance::new(1);
    let mut records = 0;
    for days in (1..=60).chain([125, 250, 500, 999, 1000]) {
        for _ in 0..20 {
            for shape in Shape::ALL {
                same(&shape.record(days, &mut chance));
            }
            for most in [1, 2, 5] {
                same(&ties(days, most, &mut chance));
            }
            same(&edges(days, &mut chance));
            records += 8;
        }
    }
    for record in refused() {
        same(&record);
        records += 1;
    }
    println!("{records} records: both list the same pulses");
}

/// A record of few different totals, so that plateaus and ties are many.
fn ties(days: usize, most: i64, chance: &mut Chance) -> Vec<i64> {
    (0..days).map(|_| chance.within(most)).collect()
}

/// A record of totals at the bounds.
fn edges(days: usize, chance: &mut Chance) -> Vec<i64> {
    (0..days)
        .map(|_| chance.within(1) * 1_000_000_000_000)
        .collect()
}

/// Records that neither version takes.
fn refused() -> [Vec<i64>; 4] {
    [
        vec![1_000_000_000_001],
        vec![3, -1_000_000_000_001, 4],
        vec![i64::MIN],
        vec![7; 1001],
    ]
}

fn same(record: &[i64]) {
    let days = record.len();
    let mut ours = vec![0; 3 * days];
    let mut plain = vec![0; 3 * days];
    let count = proved::take_lot(record, days, 1, &mut ours);
    let expected = plain_lot::take_lot(record, days, 1, &mut plain);
    assert_eq!(count, expected.unwrap_or(proved::NONE), "{record:?}");
    assert_eq!(ours, plain, "{record:?}");
}
