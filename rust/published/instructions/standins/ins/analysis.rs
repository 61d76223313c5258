//! Stand-in for ins/analysis.rs: nothing in the published files uses it.
