//! Some weeks of slots and plans.

use std::ops::Range;

use crate::model::{Plan, Plant, Sizes, Slots};
use crate::rules;

/// The slots and sales of some weeks.
pub fn slots(sizes: Sizes, slots: &Slots, weeks: Range<usize>) -> Slots {
    Slots::from_rows(&slots.rows()[weeks.clone()], by_customer(sizes, &slots.sales, weeks))
}

/// The tables of some weeks, with the profit that these weeks make.
pub fn plan(plant: &Plant, plan: &Plan, weeks: Range<usize>) -> Plan {
    let sizes = plant.sizes;
    let rows = sizes.week_product(weeks.start, 0)..sizes.week_product(weeks.end, 0);
    let squares = sizes.week_from_to(weeks.start, 0, 0)..sizes.week_from_to(weeks.end, 0, 0);
    let mut part = Plan {
        ran: plan.ran[rows.clone()].to_vec(),
        first: plan.first[rows.clone()].to_vec(),
        last: plan.last[rows.clone()].to_vec(),
        changeovers: plan.changeovers[squares.clone()].to_vec(),
        opening_changeovers: plan.opening_changeovers[squares].to_vec(),
        places: plan.places[rows.clone()].to_vec(),
        minutes: plan.minutes[rows.clone()].to_vec(),
        grams: plan.grams[rows.clone()].to_vec(),
        sales: by_customer(sizes, &plan.sales, weeks.clone()),
        inventory: plan.inventory[rows].to_vec(),
        backlog: by_customer(sizes, &plan.backlog, weeks.clone()),
        profit: 0,
    };
    // The profit looks at no demand and no opening number.
    let sizes = Sizes { weeks: weeks.len(), ..sizes };
    let profit = rules::profit(&Plant { sizes, ..plant.clone() }, &part);
    part.profit = i64::try_from(profit).expect("a profit of 64 bits");
    part
}

/// Some weeks of a table by customer, product and week.
fn by_customer(sizes: Sizes, table: &[u32], weeks: Range<usize>) -> Vec<u32> {
    let pairs = 0..sizes.customers * sizes.products;
    pairs
        .flat_map(|pair| weeks.clone().map(move |week| pair * sizes.weeks + week))
        .map(|place| table[place])
        .collect()
}
