//! The compiled library, and a second, plain implementation of its files, rules
//! and plant machine to test it against.
//!
//! - [`library`]: the four calls of the compiled library.
//! - [`reference`]: the same four calls of the second implementation.
//!
//! The second implementation, after docs/FORMATS.md:
//!
//! - [`model`]: the numbers of the three files.
//! - [`layout`]: from numbers to bytes.
//! - [`forms`]: from bytes to numbers, or the refusal.
//! - [`rules`]: the rules 31 to 41 over a plant and a plan.
//! - [`machine`]: from a plant and slots to the plan, or the stop.
//! - [`rolling`]: from a plant and a plan to the plant of the weeks that remain.
//! - [`report`]: what `planreport` prints.
//!
//! What is tested:
//!
//! - [`small`]: the small plant.
//! - [`samples`]: right and damaged files with their refusals.
//! - [`following`]: the tables that follow from slots, whether or not they pass.
//! - [`facts`]: P1 to P13, the changes to the small plant.
//! - [`scenario`]: random plants, with slots that mostly run; [`random`] numbers.
//! - [`rolls`]: random weeks to roll at, and lists of rates.
//! - [`horizon`]: some weeks of slots and plans.
//! - [`mutants`]: changes to right files, and damage.
//! - [`differential`]: the two implementations compared, call by call.

pub mod differential;
pub mod facts;
pub mod following;
pub mod forms;
pub mod horizon;
pub mod layout;
pub mod library;
pub mod machine;
pub mod model;
pub mod mutants;
pub mod random;
pub mod reference;
pub mod report;
pub mod rolling;
pub mod rolls;
pub mod rules;
pub mod samples;
pub mod scenario;
pub mod small;
