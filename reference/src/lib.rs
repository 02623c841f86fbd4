//! Reference implementation of paper 01, and of the points, the repeating flow, the exam sheet and the capacity to the
//! thousandth of paper 02, written from the papers alone.

pub mod accuracy;
pub mod archive;
pub mod arrivals;
pub mod balance;
pub mod discharge;
pub mod dispersion;
pub mod exact;
pub mod greens;
pub mod metering;
pub mod natural;
pub mod points;
pub mod program;
pub mod random;
pub mod record;
pub mod refusal;
pub mod report;
pub mod samples;
pub mod sheet;
pub mod vectors;
pub mod working;
