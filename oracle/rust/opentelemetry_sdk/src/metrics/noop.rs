//! Stand-in: metrics/mod.rs names this module, the calls compared use nothing of it.
