//! What both sides are given.

/// Recordings of a round.
pub const VALUES: usize = 4096;

/// Settings of the recording cases.
pub const MAX_SIZE: u32 = 160;
pub const MAX_SCALE: i8 = 10;
/// The limit: document 01's, or that of the copy in which it was raised (request L12 will have it so).
pub const LIMIT: usize = if cfg!(raised) { 2000 } else { 62 };

/// Bounds of the explicit kind, in millimetres.
pub const BOUNDS: [f64; 15] = [
    -8.0, -4.0, -2.0, -1.0, -0.5, -0.25, -0.125, 0.0, 0.125, 0.25, 0.5, 1.0, 2.0, 4.0, 8.0,
];

/// Rows that are lowered in a round, and, at scale 10, the index of their first count: odd, so that both ends are cut.
pub const ROWS: usize = 64;
pub const FIRST_INDEX: i32 = 1;

/// Attributes of a call: key and value.
pub type Set = Vec<(u32, u32)>;

/// Values, and the set of each.
#[derive(Clone)]
pub struct Input {
    pub sets: Vec<Set>,
    pub order: Vec<usize>,
    pub values: Vec<f64>,
    /// Recorded under every set before anything is measured: values that fill its rows, or one value.
    pub first: Vec<f64>,
    /// How many values go to one set before the next one.
    pub batch: usize,
}

impl Input {
    /// The benchmark's values, each under a set drawn at random.
    pub fn of(sets: Vec<Set>) -> Self {
        let mut draw = Draw::new();
        let order = (0..VALUES)
            .map(|_| (draw.next() >> 33) as usize % sets.len())
            .collect();
        Input {
            sets,
            order,
            values: values(),
            first: vec![1.0],
            batch: 1,
        }
    }

    /// So many values after another under the set of the first of them.
    pub fn batches(mut self, many: usize) -> Self {
        self.batch = many;
        self.order = (0..VALUES).map(|i| self.order[i - i % many]).collect();
        self
    }

    /// In place of the benchmark's values such as keep both rows of every set at `width` counts.
    pub fn rows(mut self, width: u32) -> Self {
        self.first = row(width).flat_map(|v| [v, -v]).collect();
        let mut draw = Draw::new();
        let many = self.first.len();
        self.values = (0..VALUES)
            .map(|_| self.first[(draw.next() >> 33) as usize % many])
            .collect();
        self
    }

    /// Every call's attributes in descending order of keys.
    pub fn attributes_reversed(mut self) -> Self {
        for set in &mut self.sets {
            set.reverse();
        }
        self
    }

    /// Sets born and visited in descending order.
    pub fn sets_reversed(mut self) -> Self {
        let many = self.sets.len();
        self.sets.reverse();
        self.order = (0..VALUES).map(|i| i % many).collect();
        self
    }
}

/// Sets of keys 1, 2, .., of which the last tells them apart.
pub fn last(sets: u32, count: u32) -> Vec<Set> {
    apart(sets, count, count)
}

/// The same where the first key does.
pub fn first(sets: u32, count: u32) -> Vec<Set> {
    apart(sets, count, 1)
}

fn apart(sets: u32, count: u32, by: u32) -> Vec<Set> {
    let set = |x| {
        (1..=count)
            .map(|key| (key, if key == by { x } else { 7 }))
            .collect()
    };
    (0..sets).map(set).collect()
}

/// Eight blades and eight species, 62 of their pairs.
pub fn grid() -> Vec<Set> {
    (0..62)
        .map(|x| vec![(1, x / 8), (2, x % 8)])
        .collect()
}

/// Blade, species and supplier: so many of their triples.
pub fn triples(sets: u32) -> Vec<Set> {
    (0..sets)
        .map(|x| vec![(1, x / 100), (2, x / 10 % 10), (3, x % 10)])
        .collect()
}

/// Sets of one to four attributes, no key of one in another.
pub fn unlike() -> Vec<Set> {
    (0..62)
        .map(|x| (0..=x % 4).map(|i| (100 * i + x, 7)).collect())
        .collect()
}

/// A small generator of random numbers (xorshift64*), the same on every run.
struct Draw(u64);

impl Draw {
    fn new() -> Self {
        Draw(0x9E37_79B9_7F4A_7C15)
    }

    fn next(&mut self) -> u64 {
        self.0 ^= self.0 >> 12;
        self.0 ^= self.0 << 25;
        self.0 ^= self.0 >> 27;
        self.0.wrapping_mul(0x2545_F491_4F6C_DD1D)
    }
}

/// The same values as whole numbers, 32 octaves up, so that rows are as long: a round's sum stays far within i64.
pub fn wholes(values: &[f64]) -> Vec<i64> {
    let up = 2f64.powi(32);
    values.iter().map(|v| (v * up).round() as i64).collect()
}

/// Magnitudes of eight octaves around 1, as deviations in millimetres are.
pub fn magnitudes() -> Vec<f64> {
    let mut draw = Draw::new();
    (0..VALUES)
        .map(|_| {
            let bits = draw.next();
            f64::from_bits(((1019 + bits % 8) << 52) | (bits >> 12))
        })
        .collect()
}

/// The same with both signs.
fn values() -> Vec<f64> {
    let mut draw = Draw::new();
    magnitudes()
        .into_iter()
        .map(|v| if draw.next() >> 63 == 0 { v } else { -v })
        .collect()
}

/// One value in each of `width` buckets upward from 1 at scale 10.
fn row(width: u32) -> impl Iterator<Item = f64> {
    (0..width).map(|i| 2f64.powf((f64::from(i) + 0.5) / 1024.0))
}

/// The counts of a row that is full.
pub fn full_row() -> [u64; MAX_SIZE as usize] {
    std::array::from_fn(|i| 7 * i as u64 + 1)
}
