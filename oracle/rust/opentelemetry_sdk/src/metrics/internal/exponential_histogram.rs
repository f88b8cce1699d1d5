// The given file, whole and unchanged, and beside it doors to `get_bin` and to a row's `downscale`, which are private to it.

include!("given_exponential_histogram.rs");

/// A fresh point at a scale, to ask for the index of single values.
pub struct Bins(ExpoHistogramDataPoint<f64>);

impl Bins {
    pub fn new(scale: i8) -> Self {
        Bins(ExpoHistogramDataPoint::new(&BucketConfig {
            max_size: 160,
            max_scale: scale,
        }))
    }

    #[inline]
    pub fn get_bin(&self, magnitude: f64) -> i32 {
        self.0.get_bin(magnitude)
    }
}

/// A row of counts, to be lowered by itself.
pub struct Row(ExpoBuckets);

impl Row {
    pub fn new(start_bin: i32, counts: &[u64]) -> Self {
        Row(ExpoBuckets {
            start_bin,
            counts: counts.to_vec(),
        })
    }

    #[inline]
    pub fn downscale(&mut self, delta: u32) {
        self.0.downscale(delta);
    }

    pub fn counts(&self) -> &[u64] {
        &self.0.counts
    }
}

// `internal` does not hand this module on; an associated type does.
impl crate::door::Named for crate::door::IndexOfTheGivenFile {
    type Type = Bins;
}

impl crate::door::Named for crate::door::RowOfTheGivenFile {
    type Type = Row;
}
