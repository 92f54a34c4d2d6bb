//! The original `lp.rs`, built unmodified, beside the kernel's static library, and what is needed to compare the two.

// The original names a logging macro of its own crate; logging is no part of what is compared.
macro_rules! verbosity_log {
    ($($arguments:tt)*) => {};
}
pub(crate) use verbosity_log;

/// The place that the original's files have in their own crate, since they name each other by it.
mod math {
    pub(crate) mod numerical {
        include!(concat!(env!("OUT_DIR"), "/numerical.rs"));
    }
}

pub mod batch;
pub mod entries;
pub mod floats;
pub mod kernel;
pub mod link;
pub mod original;
pub mod probe;
pub mod records;
pub mod refusals;
pub mod report;
pub mod rng;
pub mod same;
pub mod signs;
pub mod solves;
pub mod standard;
pub mod stream;
pub mod task;
pub mod values;
mod zeros;
