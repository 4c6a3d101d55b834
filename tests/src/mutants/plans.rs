//! Changes to plans: the list of them all, and those that change one number, one
//! mark, the profit, or a week with every table following.

use super::amounts::{
    change_backlog_onward, change_grams_with_inventory, change_inventory_onward,
    change_minutes_alone, change_minutes_with_grams, change_sale_with_backlog,
    change_sale_with_both, change_sale_with_inventory, other, wrap_balance,
    wrap_sales_with_backlog,
};
use super::mounted::{
    change_first_cost, change_first_opening, mount_other, open_bare_line, overrun_first_week,
};
use super::orders::{
    change_place, double_first_or_last, make_ring, make_self_ring, mark_opening, move_first,
    move_last, move_opening, shuffle_places,
};
use super::shut_weeks::{
    change_opening_after_shut_week, change_over_in_shut_week, clear_week, fill_shut_week,
    mark_shut_week, open_shut_week,
};
use super::slots::{end_week, shut_week, SLOTS_CHANGES};
use super::PlanChange;
use crate::following;
use crate::model::{Plan, Plant, Slot, Slots};
use crate::random::Random;

/// Changes after which a plan breaks a rule, or is another plan.
pub const PLAN_CHANGES: [PlanChange; 57] = [
    change_one_number,
    change_one_number,
    change_one_number,
    flip_one_mark,
    flip_one_mark,
    raise_mark,
    change_profit,
    change_profit,
    follow_other_slots,
    follow_other_slots,
    follow_other_slots,
    follow_other_slots,
    overrun_week,
    overrun_week,
    wrap_week,
    wrap_week,
    shut_one_week,
    shut_one_week,
    make_ring,
    make_ring,
    make_ring,
    make_self_ring,
    shuffle_places,
    shuffle_places,
    change_place,
    move_first,
    move_last,
    double_first_or_last,
    mark_opening,
    move_opening,
    change_minutes_alone,
    change_minutes_with_grams,
    change_grams_with_inventory,
    change_sale_with_backlog,
    change_sale_with_inventory,
    change_sale_with_both,
    change_backlog_onward,
    change_inventory_onward,
    wrap_balance,
    wrap_sales_with_backlog,
    mark_shut_week,
    change_over_in_shut_week,
    open_shut_week,
    fill_shut_week,
    fill_shut_week,
    change_opening_after_shut_week,
    change_opening_after_shut_week,
    clear_week,
    clear_week,
    change_first_opening,
    change_first_opening,
    open_bare_line,
    change_first_cost,
    change_first_cost,
    mount_other,
    overrun_first_week,
    overrun_first_week,
];

fn change_one_number(random: &mut Random, _: &mut Plant, _: &Slots, plan: &mut Plan) {
    let table = match random.below(6) {
        0 => {
            let place = random.below(plan.places.len());
            plan.places[place] = other(random, plan.places[place].into()) as u8;
            return;
        }
        1 => {
            let place = random.below(plan.minutes.len());
            plan.minutes[place] = other(random, plan.minutes[place].into()) as u16;
            return;
        }
        2 => &mut plan.grams,
        3 => &mut plan.sales,
        4 => &mut plan.inventory,
        _ => &mut plan.backlog,
    };
    let place = random.below(table.len());
    table[place] = other(random, table[place]);
}

fn marks<'plan>(random: &mut Random, plan: &'plan mut Plan) -> &'plan mut Vec<u8> {
    match random.below(5) {
        0 => &mut plan.ran,
        1 => &mut plan.first,
        2 => &mut plan.last,
        3 => &mut plan.changeovers,
        _ => &mut plan.opening_changeovers,
    }
}

fn flip_one_mark(random: &mut Random, _: &mut Plant, _: &Slots, plan: &mut Plan) {
    let marks = marks(random, plan);
    let place = random.below(marks.len());
    marks[place] ^= 1;
}

fn raise_mark(random: &mut Random, _: &mut Plant, _: &Slots, plan: &mut Plan) {
    let marks = marks(random, plan);
    let place = random.below(marks.len());
    marks[place] = random.pick(&[2, 3, 128, 255]);
}

fn change_profit(random: &mut Random, _: &mut Plant, _: &Slots, plan: &mut Plan) {
    let profit = plan.profit;
    let bit = 1 << random.below(64);
    plan.profit = random.pick(&[
        profit.wrapping_add(1),
        profit.wrapping_sub(1),
        profit ^ bit,
        profit.wrapping_neg(),
        profit.wrapping_add(1 << 32),
        profit.wrapping_add(1 << 56),
        profit.wrapping_add(i64::MIN),
        i64::MIN,
        i64::MAX,
        0,
    ]);
}

/// Changed slots with every table following, whether or not they run.
fn follow_other_slots(random: &mut Random, plant: &mut Plant, slots: &Slots, plan: &mut Plan) {
    let mut slots = slots.clone();
    random.pick(&SLOTS_CHANGES)(random, plant, &mut slots);
    *plan = following::plan(plant, &slots);
}

/// A week that ends at its last minute or one later, with every table following.
fn overrun_week(random: &mut Random, plant: &mut Plant, slots: &Slots, plan: &mut Plan) {
    let mut slots = slots.clone();
    let over = random.between(0, 1);
    end_week(random, plant, &mut slots, over);
    *plan = following::plan(plant, &slots);
}

/// Runs of all products whose minutes fit the week only modulo 2^16, with every
/// table following.
fn wrap_week(random: &mut Random, plant: &mut Plant, slots: &Slots, plan: &mut Plan) {
    let products = plant.sizes.products;
    let minutes = (65_536 / products + 1) as u64;
    if u64::from(plant.shortest_run) <= minutes && minutes <= u64::from(plant.week_minutes) {
        let mut rows = slots.rows();
        let week = random.below(rows.len());
        let slot = |product| Slot { product, minutes: minutes as u16 };
        rows[week] = (0..products as u8).map(slot).collect();
        *plan = following::plan(plant, &Slots::from_rows(&rows, slots.sales.clone()));
    }
}

/// A producing week shut, with every table following.
fn shut_one_week(random: &mut Random, plant: &mut Plant, slots: &Slots, plan: &mut Plan) {
    let mut slots = slots.clone();
    shut_week(random, plant, &mut slots);
    *plan = following::plan(plant, &slots);
}
