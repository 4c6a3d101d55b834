//! The ranges of a plant's numbers: a plant file outside them is refused with
//! 3 or 5, a list of rates with 5.

use std::ops::RangeInclusive;

pub const PRODUCTS: RangeInclusive<u64> = 1..=16;
pub const CUSTOMERS: RangeInclusive<u64> = 1..=8;
pub const WEEKS: RangeInclusive<u64> = 1..=26;

/// Grams per minute.
pub const RATE: RangeInclusive<u64> = 1..=100_000;
/// Minutes.
pub const CHANGEOVER_MINUTES: RangeInclusive<u64> = 0..=10_080;
/// Cents.
pub const CHANGEOVER_CENTS: RangeInclusive<u64> = 0..=1_000_000;
/// Grams.
pub const DEMAND: RangeInclusive<u64> = 0..=100_000_000;
/// Cents per kilogram: prices, backlog costs and inventory costs.
pub const UNIT_COST: RangeInclusive<u64> = 0..=100_000;
/// Grams: both limits of storage.
pub const STORAGE: RangeInclusive<u64> = 0..=4_000_000_000;
/// Grams.
pub const OPENING_INVENTORY: RangeInclusive<u64> = 0..=4_000_000_000;
/// Minutes: the shortest run and the week, the shortest run at most the week.
pub const WEEK_MINUTES: RangeInclusive<u64> = 1..=10_080;

/// Minutes of a run: what its two bytes hold.
pub const RUN: RangeInclusive<u64> = 0..=65_535;
/// Grams of a sale: what its four bytes hold.
pub const SALE: RangeInclusive<u64> = 0..=4_294_967_295;

/// Grams of an opening backlog. A plant with its week before, kind 4, may be one
/// that was rolled on, and owe more (request 2026-03).
pub fn opening_backlog(with_week_before: bool) -> RangeInclusive<u64> {
    if with_week_before {
        0..=1_600_000_000
    } else {
        0..=100_000_000
    }
}
