// Unit tests: section 2's edges, 01's known answers, sheets and trains, records, programs fed with them, exports, edition 1 sheets, measured surfaces, whole numbers, findings, what lies beyond the limits.

mod beyond;
mod born_wolf;
mod edition_1;
mod exact;
#[cfg(feature = "proved")]
mod exports;
mod feed;
mod findings;
mod known;
mod laws;
mod measure;
mod records;
mod scalar;
mod sheets;
