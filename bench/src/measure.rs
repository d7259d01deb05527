//! The time of a take, both versions in turn, the best of many.

use crate::records::{Chance, Shape};
use crate::{plain_lot, proved};
use std::hint::black_box;
use std::time::Instant;

pub const DAYS: [usize; 4] = [125, 250, 500, 1000];

/// So many days has a lot, whatever the length of its records.
const LOT: usize = 16_000;

/// So long is a call, about: short enough to fit between what else the machine does.
const CALL_NANOS: f64 = 1_000_000.0;

/// So many calls each version gets in one build.
const TURNS: usize = 120;

/// Nanoseconds for one take.
#[derive(Clone, Copy)]
pub struct Times {
    pub plain: f64,
    pub ours: f64,
}

impl Times {
    pub const NONE: Times = Times {
        plain: f64::INFINITY,
        ours: f64::INFINITY,
    };

    pub fn best(self, other: Times) -> Times {
        Times {
            plain: self.plain.min(other.plain),
            ours: self.ours.min(other.ours),
        }
    }
}

/// Writes a line for each shape and length, its parts between tabs.
pub fn all() {
    for shape in Shape::ALL {
        for days in DAYS {
            let times = measured(&lot(shape, days), days);
            println!("{}\t{days}\t{}\t{}", shape.name(), times.plain, times.ours);
        }
    }
}

/// Different records, one after the other.
fn lot(shape: Shape, days: usize) -> Vec<i64> {
    let mut chance = Chance::new(days as u64);
    (0..LOT / days)
        .flat_map(|_| shape.record(days, &mut chance))
        .collect()
}

/// The best of many calls, the two versions in turn.
fn measured(lot: &[i64], days: usize) -> Times {
    let rounds = rounds(lot, days);
    let takes = (lot.len() / days * rounds) as f64;
    let mut best = Times::NONE;
    for _ in 0..TURNS {
        best = best.best(Times {
            plain: nanos_plain(lot, days, rounds) / takes,
            ours: nanos_ours(lot, days, rounds) / takes,
        });
    }
    best
}

/// How often a call goes over its lot, the same for both versions.
fn rounds(lot: &[i64], days: usize) -> usize {
    let one = (0..5)
        .map(|_| nanos_plain(lot, days, 1))
        .fold(f64::INFINITY, f64::min);
    (CALL_NANOS / one).ceil() as usize
}

fn nanos_plain(lot: &[i64], days: usize, rounds: usize) -> f64 {
    let start = Instant::now();
    black_box(plain_lot::take_lot(black_box(lot), days, rounds, &mut []));
    start.elapsed().as_nanos() as f64
}

fn nanos_ours(lot: &[i64], days: usize, rounds: usize) -> f64 {
    let start = Instant::now();
    black_box(proved::take_lot(black_box(lot), days, rounds, &mut []));
    start.elapsed().as_nanos() as f64
}
