//! The reference: document 01, as the requests of document 02 that have landed amend it, in plain loops over wide integers.
//! Each call takes the lent buffers, changes those it writes, and gives its answer.

pub mod blinking;
pub mod blocks;
pub mod colour;
pub mod counts;
pub mod dark;
pub mod float;
pub mod gain;
pub mod impossible;
pub mod job;
pub mod lines;
pub mod pair;
pub mod pattern;
pub mod ranking;
pub mod raw;
pub mod refusals;
pub mod shades;
pub mod shading;
pub mod shared;
pub mod sites;
pub mod stack;
pub mod totals;
pub mod transfers;
