//! Changes to a plan's minutes and grams, with or without the tables that follow
//! from them.

use super::slots::wrap_sales;
use crate::following;
use crate::model::{Plan, Plant, Slots};
use crate::random::Random;

/// One more, one less, one bit changed, or anything.
pub(super) fn other(random: &mut Random, number: u32) -> u32 {
    let bit = 1 << random.below(32);
    let any = random.number() as u32;
    random.pick(&[number.wrapping_add(1), number.wrapping_sub(1), number ^ bit, any, 0])
}

/// Other minutes where something runs or nothing does.
fn other_minutes(random: &mut Random, plant: &Plant, plan: &mut Plan) {
    let place = random.below(plan.minutes.len());
    let minutes = plan.minutes[place];
    plan.minutes[place] = random.pick(&[
        minutes.wrapping_add(1),
        minutes.wrapping_sub(1),
        plant.shortest_run,
        plant.shortest_run - 1,
        plant.week_minutes,
        plant.week_minutes + 1,
        u16::MAX,
    ]);
}

pub(super) fn change_minutes_alone(
    random: &mut Random,
    plant: &mut Plant,
    _: &Slots,
    plan: &mut Plan,
) {
    other_minutes(random, plant, plan);
}

pub(super) fn change_minutes_with_grams(
    random: &mut Random,
    plant: &mut Plant,
    _: &Slots,
    plan: &mut Plan,
) {
    other_minutes(random, plant, plan);
    following::settle(plant, plan);
}

pub(super) fn change_grams_with_inventory(
    random: &mut Random,
    plant: &mut Plant,
    _: &Slots,
    plan: &mut Plan,
) {
    let place = random.below(plan.grams.len());
    plan.grams[place] = other(random, plan.grams[place]);
    following::fill_inventory(plant, plan);
    following::fill_profit(plant, plan);
}

fn other_sale(random: &mut Random, plan: &mut Plan) {
    let place = random.below(plan.sales.len());
    plan.sales[place] = other(random, plan.sales[place]);
}

pub(super) fn change_sale_with_backlog(
    random: &mut Random,
    plant: &mut Plant,
    _: &Slots,
    plan: &mut Plan,
) {
    other_sale(random, plan);
    following::fill_backlog(plant, plan);
    following::fill_profit(plant, plan);
}

pub(super) fn change_sale_with_inventory(
    random: &mut Random,
    plant: &mut Plant,
    _: &Slots,
    plan: &mut Plan,
) {
    other_sale(random, plan);
    following::fill_inventory(plant, plan);
    following::fill_profit(plant, plan);
}

/// The profit follows half of the time.
pub(super) fn change_sale_with_both(
    random: &mut Random,
    plant: &mut Plant,
    _: &Slots,
    plan: &mut Plan,
) {
    other_sale(random, plan);
    following::fill_backlog(plant, plan);
    following::fill_inventory(plant, plan);
    if random.one_in(2) {
        following::fill_profit(plant, plan);
    }
}

/// Adds to the backlog from one week on, so that only that week's balance breaks.
pub(super) fn change_backlog_onward(
    random: &mut Random,
    plant: &mut Plant,
    _: &Slots,
    plan: &mut Plan,
) {
    let sizes = plant.sizes;
    let customer = random.below(sizes.customers);
    let product = random.below(sizes.products);
    let by = random.pick(&[1, u32::MAX]);
    for week in random.below(sizes.weeks)..sizes.weeks {
        let index = sizes.customer_product_week(customer, product, week);
        plan.backlog[index] = plan.backlog[index].wrapping_add(by);
    }
    following::fill_profit(plant, plan);
}

/// Adds to the inventory from one week on, so that only that week's balance breaks.
pub(super) fn change_inventory_onward(
    random: &mut Random,
    plant: &mut Plant,
    _: &Slots,
    plan: &mut Plan,
) {
    let sizes = plant.sizes;
    let product = random.below(sizes.products);
    let by = random.pick(&[1, u32::MAX]);
    for week in random.below(sizes.weeks)..sizes.weeks {
        let index = sizes.week_product(week, product);
        plan.inventory[index] = plan.inventory[index].wrapping_add(by);
    }
    following::fill_profit(plant, plan);
}

/// A sale so great that the balances agree only modulo 2^32.
pub(super) fn wrap_balance(random: &mut Random, plant: &mut Plant, _: &Slots, plan: &mut Plan) {
    let sizes = plant.sizes;
    let customer = random.below(sizes.customers);
    let product = random.below(sizes.products);
    let week = random.below(sizes.weeks);
    let index = sizes.customer_product_week(customer, product, week);
    let by = random.pick(&[1, plan.inventory[sizes.week_product(week, product)].saturating_add(1)]);
    plan.sales[index] = plan.sales[index].wrapping_add(by);
    for week in week..sizes.weeks {
        let index = sizes.customer_product_week(customer, product, week);
        plan.backlog[index] = plan.backlog[index].wrapping_sub(by);
        let index = sizes.week_product(week, product);
        plan.inventory[index] = plan.inventory[index].wrapping_sub(by);
    }
    following::fill_profit(plant, plan);
}

/// Raises sales in a plan. Backlog and profit follow and the inventory does not,
/// so that its balance may agree only modulo 2^32.
pub(super) fn wrap_sales_with_backlog(
    random: &mut Random,
    plant: &mut Plant,
    slots: &Slots,
    plan: &mut Plan,
) {
    let mut slots = slots.clone();
    wrap_sales(random, plant, &mut slots);
    plan.sales = slots.sales;
    following::fill_backlog(plant, plan);
    following::fill_profit(plant, plan);
}
