//! Plant files, slot files and lists of rates as text that a planner reads and writes.
//!
//! - [`model`]: the numbers of a plant and its slots, and the planner's names.
//! - [`limits`]: the ranges of the plant's numbers.
//! - [`binary`]: numbers to bytes and back, or the refusal of the bytes.
//! - [`lines`]: the lines of a text, and faults with their line numbers.
//! - [`quantities`]: numbers with their units.
//! - [`plant_text`]: the text of a plant.
//! - [`slots_text`]: the text of a plant's slots and sales.
//! - [`rates_text`]: the text of a plant's rates alone.

#![forbid(unsafe_code)]

pub mod binary;
pub mod limits;
pub mod lines;
pub mod model;
pub mod plant_text;
pub mod quantities;
pub mod rates_text;
pub mod slots_text;
