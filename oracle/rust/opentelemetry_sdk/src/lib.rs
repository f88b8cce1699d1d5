//! Stand-in for the crate's root: the given files under `metrics`, and a door to what they keep inside the crate.

#![allow(dead_code, unused_imports)]

pub mod door;
pub mod metrics;

/// Named by the given data types, used by none of the calls compared.
#[derive(Clone, Debug, Default)]
pub struct Resource;

impl Resource {
    pub(crate) fn empty() -> Self {
        Resource
    }
}
