//! Records of four shapes.

/// A small generator of numbers that look like chance.
pub struct Chance(u64);

impl Chance {
    pub fn new(seed: u64) -> Self {
        Chance(seed.wrapping_mul(0x9E37_79B9_7F4A_7C15) | 1)
    }

    pub fn next(&mut self) -> u64 {
        self.0 ^= self.0 << 13;
        self.0 ^= self.0 >> 7;
        self.0 ^= self.0 << 17;
        self.0.wrapping_mul(0x2545_F491_4F6C_DD1D) >> 16
    }

    /// A number from -most to most.
    pub fn within(&mut self, most: i64) -> i64 {
        (self.next() % (2 * most as u64 + 1)) as i64 - most
    }
}

#[derive(Clone, Copy, Debug, PartialEq, Eq)]
pub enum Shape {
    Random,
    Rising,
    Walk,
    MostlyZero,
}

impl Shape {
    pub const ALL: [Shape; 4] = [Shape::Random, Shape::Rising, Shape::Walk, Shape::MostlyZero];

    pub fn name(self) -> &'static str {
        match self {
            Shape::Random => "random",
            Shape::Rising => "1..N",
            Shape::Walk => "random walk",
            Shape::MostlyZero => "mostly zero",
        }
    }

    /// A record of so many days. Every record of the shape 1..N is the same.
    pub fn record(self, days: usize, chance: &mut Chance) -> Vec<i64> {
        let mut height = 0;
        (1..=days as i64)
            .map(|day| match self {
                Shape::Random => chance.within(100_000),
                Shape::Rising => day,
                Shape::Walk => {
                    height += chance.within(1_000);
                    height
                }
                Shape::MostlyZero => {
                    if chance.next().is_multiple_of(10) {
                        chance.within(100_000)
                    } else {
                        0
                    }
                }
            })
            .collect()
    }
}
