//! A thin door to what the given files keep inside the crate: building an aggregate, and its calls.

use std::sync::Arc;

use opentelemetry::KeyValue;

use crate::metrics::data::AggregatedMetrics;
use crate::metrics::internal::{AggregateBuilder, AggregateFns, BoundMeasure, Number};
use crate::metrics::{Aggregation, Temporality};

/// Names a type of a private module.
pub trait Named {
    type Type;
}

/// See metrics/internal/exponential_histogram.rs.
pub struct IndexOfTheGivenFile;

/// Likewise.
pub struct RowOfTheGivenFile;

/// `get_bin` of the given file.
pub type Bins = <IndexOfTheGivenFile as Named>::Type;

/// `ExpoBuckets` of the given file, with its `downscale`.
pub type Row = <RowOfTheGivenFile as Named>::Type;

/// Which keys are kept; absent: all.
pub type Filter = Option<Arc<dyn Fn(&KeyValue) -> bool + Send + Sync>>;

/// The figures kept for each set.
pub enum Kind {
    Exponential { max_size: u32, max_scale: i8 },
    Explicit { bounds: Vec<f64> },
    Sum,
    LastValue,
}

pub struct Settings {
    pub kind: Kind,
    pub temporality: Temporality,
    pub filter: Filter,
    pub limit: usize,
    pub min_max: bool,
    pub sum: bool,
}

/// What a measurement can be: f64 and i64 of the given files.
#[allow(private_bounds)]
pub trait Measurement: Number {}

impl Measurement for f64 {}
impl Measurement for i64 {}

/// An aggregate of the given files.
pub struct Aggregate<T: Measurement> {
    fns: AggregateFns<T>,
}

/// A binding; dropping it releases it.
pub struct Binding<T: Measurement> {
    bound: Box<dyn BoundMeasure<T>>,
}

/// `validate` of the given files: whether it accepts the settings.
pub fn validate(kind: &Kind, min_max: bool) -> bool {
    let aggregation = match kind {
        Kind::Exponential {
            max_size,
            max_scale,
        } => Aggregation::Base2ExponentialHistogram {
            max_size: *max_size,
            max_scale: *max_scale,
            record_min_max: min_max,
        },
        Kind::Explicit { bounds } => Aggregation::ExplicitBucketHistogram {
            boundaries: bounds.clone(),
            record_min_max: min_max,
        },
        Kind::Sum => Aggregation::Sum,
        Kind::LastValue => Aggregation::LastValue,
    };
    aggregation.validate().is_ok()
}

impl<T: Measurement> Aggregate<T> {
    pub fn new(settings: Settings) -> Self {
        let builder = AggregateBuilder::new(settings.temporality, settings.filter, settings.limit);
        let fns = match settings.kind {
            Kind::Exponential {
                max_size,
                max_scale,
            } => builder.exponential_bucket_histogram(
                max_size,
                max_scale,
                settings.min_max,
                settings.sum,
            ),
            Kind::Explicit { bounds } => {
                builder.explicit_bucket_histogram(bounds, settings.min_max, settings.sum)
            }
            Kind::Sum => builder.sum(false),
            Kind::LastValue => builder.last_value(None),
        };
        Aggregate { fns }
    }

    #[inline]
    pub fn record(&self, value: T, set: &[KeyValue]) {
        self.fns.measure.call(value, set);
    }

    pub fn bind(&self, set: &[KeyValue]) -> Binding<T> {
        Binding {
            bound: self.fns.measure.bind(set),
        }
    }

    /// A collection into new memory.
    pub fn collect(&self) -> AggregatedMetrics {
        let (_, made) = self.fns.collect.call(None);
        made.expect("nothing was lent, so it is made")
    }

    /// A collection into an earlier one's memory.
    pub fn collect_into(&self, earlier: &mut AggregatedMetrics) -> usize {
        self.fns.collect.call(Some(earlier)).0
    }
}

impl<T: Measurement> Binding<T> {
    #[inline]
    pub fn record(&self, value: T) {
        self.bound.call(value);
    }
}
