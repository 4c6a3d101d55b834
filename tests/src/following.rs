//! The tables that follow from slots and sales without asking whether they may:
//! nothing stops, a number that would fall below 0 is 0, and one that would not
//! fit its section is the greatest that does. Where the machine does not stop,
//! these are its tables.

use crate::model::{Plan, Plant, Slots};
use crate::rules;

/// E, F, L, Z, ZF, O, T, P, V, Δ and the profit of these slots and sales.
pub fn plan(plant: &Plant, slots: &Slots) -> Plan {
    let mut plan = Plan::zeros(plant.sizes);
    plan.sales.clone_from(&slots.sales);
    fill_runs(plant, &mut plan, slots);
    settle(plant, &mut plan);
    plan
}

/// P, V, Δ and the profit, after what the plan has for the other tables.
pub fn settle(plant: &Plant, plan: &mut Plan) {
    fill_grams(plant, plan);
    fill_backlog(plant, plan);
    fill_inventory(plant, plan);
    fill_profit(plant, plan);
}

/// E, F, L, Z, ZF, O and T.
fn fill_runs(plant: &Plant, plan: &mut Plan, slots: &Slots) {
    let sizes = plant.sizes;
    let mut row_start = 0;
    let mut last_before = plant.mounted();
    for (week, &count) in slots.counts.iter().enumerate() {
        let row = &slots.slots[row_start..row_start + usize::from(count)];
        row_start += row.len();
        let products: Vec<usize> = row.iter().map(|slot| slot.product.into()).collect();
        for (slot, place) in row.iter().zip(1..) {
            let index = sizes.week_product(week, slot.product.into());
            plan.ran[index] = 1;
            plan.places[index] = place;
            plan.minutes[index] = plan.minutes[index].saturating_add(slot.minutes);
        }
        for pair in products.windows(2) {
            plan.changeovers[sizes.week_from_to(week, pair[0], pair[1])] = 1;
        }
        if let (Some(&first), Some(&last)) = (products.first(), products.last()) {
            plan.first[sizes.week_product(week, first)] = 1;
            plan.last[sizes.week_product(week, last)] = 1;
            if let Some(before) = last_before {
                plan.opening_changeovers[sizes.week_from_to(week, before, first)] = 1;
            }
            // A shut week leaves it as it was.
            last_before = Some(last);
        }
    }
}

/// P after T.
pub fn fill_grams(plant: &Plant, plan: &mut Plan) {
    let sizes = plant.sizes;
    for week in 0..sizes.weeks {
        for product in 0..sizes.products {
            let index = sizes.week_product(week, product);
            let rate = i128::from(plant.rates[product]);
            plan.grams[index] = fitted(rate * i128::from(plan.minutes[index]));
        }
    }
}

/// Δ after S.
pub fn fill_backlog(plant: &Plant, plan: &mut Plan) {
    let sizes = plant.sizes;
    for customer in 0..sizes.customers {
        for product in 0..sizes.products {
            let mut backlog = plant.opening_backlog[sizes.customer_product(customer, product)];
            for week in 0..sizes.weeks {
                let index = sizes.customer_product_week(customer, product, week);
                backlog = fitted(
                    i128::from(backlog) + i128::from(plant.demand[index])
                        - i128::from(plan.sales[index]),
                );
                plan.backlog[index] = backlog;
            }
        }
    }
}

/// V after P and S.
pub fn fill_inventory(plant: &Plant, plan: &mut Plan) {
    let sizes = plant.sizes;
    for product in 0..sizes.products {
        let mut inventory = plant.opening_inventory[product];
        for week in 0..sizes.weeks {
            let index = sizes.week_product(week, product);
            let sold: i128 = (0..sizes.customers)
                .map(|customer| sizes.customer_product_week(customer, product, week))
                .map(|place| i128::from(plan.sales[place]))
                .sum();
            inventory = fitted(i128::from(inventory) + i128::from(plan.grams[index]) - sold);
            plan.inventory[index] = inventory;
        }
    }
}

/// The profit after Z, ZF, S, V and Δ.
pub fn fill_profit(plant: &Plant, plan: &mut Plan) {
    let profit = rules::profit(plant, plan);
    plan.profit = profit.clamp(i64::MIN.into(), i64::MAX.into()) as i64;
}

/// The nearest number of four bytes.
fn fitted(grams: i128) -> u32 {
    grams.clamp(0, u32::MAX.into()) as u32
}
