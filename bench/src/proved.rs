//! The proved take, linked from the static library.

#[link(name = "bench_take", kind = "static")]
unsafe extern "C" {
    // a slice crosses as a pointer and a length
    fn bench_take(
        lot: *const i64,
        lot_len: usize,
        days: usize,
        rounds: usize,
        listed: *mut i64,
        listed_len: usize,
    ) -> usize;
}

/// The answer of the library where it gives no number of pulses.
pub const NONE: usize = 1_000_000;

/// Takes each record of the lot, `rounds` times over. Answers the number of pulses of the last.
pub fn take_lot(lot: &[i64], days: usize, rounds: usize, listed: &mut [i64]) -> usize {
    // SAFETY: both pointers are of slices of the lengths beside them, and the two do not overlap.
    unsafe {
        bench_take(
            lot.as_ptr(),
            lot.len(),
            days,
            rounds,
            listed.as_mut_ptr(),
            listed.len(),
        )
    }
}
