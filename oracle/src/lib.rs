// The independent judge of the proved program: see README.md.

#![allow(clippy::manual_is_multiple_of)]

pub mod arguments;
pub mod band;
pub mod bench;
#[cfg(feature = "proved")]
pub mod calls;
pub mod cases;
#[cfg(feature = "proved")]
#[path = "../../include/dihkelu.rs"]
pub mod dihkelu;
pub mod exact;
pub mod examples;
#[cfg(feature = "proved")]
pub mod exports;
pub mod feed;
pub mod findings;
pub mod functions;
pub mod head_on;
pub mod laws;
pub mod measure;
pub mod phase;
pub mod progress;
pub mod proved;
pub mod ranges;
pub mod record;
pub mod section2;
pub mod sheet;
pub mod sheet_cases;
pub mod sheets;
pub mod traced;
pub mod train;
pub mod values;

/// The original files with section 2's meanings (made by build.rs).
#[allow(clippy::all)]
pub mod reference {
    include!(concat!(env!("OUT_DIR"), "/reference.rs"));
}

/// The original files with the platform's functions (made by build.rs): for benchmarks only.
#[allow(clippy::all)]
pub mod authors {
    include!(concat!(env!("OUT_DIR"), "/authors.rs"));
}

#[cfg(test)]
mod tests;
