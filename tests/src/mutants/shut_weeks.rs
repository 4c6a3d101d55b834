//! Changes to plans around shut weeks: what a shut week may not have, changeovers
//! into it and over it, and producing weeks with their marks taken away.

use super::orders::move_opening_from;
use crate::following;
use crate::model::{Plan, Plant, Sizes, Slots};
use crate::random::Random;

/// A shut week of the plan. Where there is none, any week is shut first, with
/// every table following.
fn shut_week(random: &mut Random, plant: &Plant, slots: &Slots, plan: &mut Plan) -> usize {
    let sizes = plant.sizes;
    if let Some(week) = random.below_where(sizes.weeks, |&week| plan.is_shut(sizes, week)) {
        return week;
    }
    let week = random.below(sizes.weeks);
    *plan = following::plan(plant, &without_week(slots, week));
    week
}

/// A producing week right after a shut one. Where there is none, the week before
/// some producing week is shut first, with every table following.
fn week_after_shut(
    random: &mut Random,
    plant: &Plant,
    slots: &Slots,
    plan: &mut Plan,
) -> Option<usize> {
    let sizes = plant.sizes;
    let found = random.below_where(sizes.weeks, |&week| {
        week > 0 && plan.is_shut(sizes, week - 1) && !plan.is_shut(sizes, week)
    });
    if found.is_some() {
        return found;
    }
    let week = random.below_where(sizes.weeks, |&week| week > 0 && slots.counts[week] > 0)?;
    *plan = following::plan(plant, &without_week(slots, week - 1));
    Some(week)
}

/// The slots with this week shut.
fn without_week(slots: &Slots, week: usize) -> Slots {
    let mut rows = slots.rows();
    rows[week].clear();
    Slots::from_rows(&rows, slots.sales.clone())
}

/// A week's product with this mark, if there is one.
pub(super) fn marked(sizes: Sizes, marks: &[u8], week: usize) -> Option<usize> {
    (0..sizes.products).find(|&product| marks[sizes.week_product(week, product)] == 1)
}

/// Some of E, F and L in a shut week, mostly one of them alone, each on any
/// product.
pub(super) fn mark_shut_week(
    random: &mut Random,
    plant: &mut Plant,
    slots: &Slots,
    plan: &mut Plan,
) {
    let sizes = plant.sizes;
    let week = shut_week(random, plant, slots, plan);
    let chosen = random.pick(&[1, 1, 2, 2, 4, 4, 3, 5, 6, 7]);
    for (bit, marks) in [&mut plan.ran, &mut plan.first, &mut plan.last].into_iter().enumerate() {
        if chosen & (1 << bit) != 0 {
            marks[sizes.week_product(week, random.below(sizes.products))] = 1;
        }
    }
}

/// A mark of Z in a shut week, or two products that follow each other, with the
/// profit following.
pub(super) fn change_over_in_shut_week(
    random: &mut Random,
    plant: &mut Plant,
    slots: &Slots,
    plan: &mut Plan,
) {
    let sizes = plant.sizes;
    let week = shut_week(random, plant, slots, plan);
    let (one, other) = (random.below(sizes.products), random.below(sizes.products));
    plan.changeovers[sizes.week_from_to(week, one, other)] = 1;
    if random.one_in(2) {
        plan.changeovers[sizes.week_from_to(week, other, one)] = 1;
    }
    following::fill_profit(plant, plan);
}

/// A mark of ZF in a shut week: any, or that of the next producing week, which
/// keeps or loses it. The profit follows.
pub(super) fn open_shut_week(
    random: &mut Random,
    plant: &mut Plant,
    slots: &Slots,
    plan: &mut Plan,
) {
    let sizes = plant.sizes;
    let week = shut_week(random, plant, slots, plan);
    let next = (week + 1..sizes.weeks).find(|&later| !plan.is_shut(sizes, later));
    let is_any = random.one_in(2);
    match next.filter(|_| !is_any) {
        Some(next) => {
            let (here, there) = (sizes.week_square(week), sizes.week_square(next));
            plan.opening_changeovers.copy_within(there.clone(), here.start);
            if random.one_in(2) {
                plan.opening_changeovers[there].fill(0);
            }
        }
        None => {
            let (from, to) = (random.below(sizes.products), random.below(sizes.products));
            plan.opening_changeovers[sizes.week_from_to(week, from, to)] = 1;
        }
    }
    following::fill_profit(plant, plan);
}

/// O, T or P in a shut week. The tables that follow from T or P do so half of
/// the time.
pub(super) fn fill_shut_week(
    random: &mut Random,
    plant: &mut Plant,
    slots: &Slots,
    plan: &mut Plan,
) {
    let sizes = plant.sizes;
    let week = shut_week(random, plant, slots, plan);
    let place = sizes.week_product(week, random.below(sizes.products));
    match random.below(3) {
        0 => plan.places[place] = random.pick(&[1, sizes.products as u8, 255]),
        1 => {
            plan.minutes[place] =
                random.pick(&[1, plant.shortest_run, plant.week_minutes, u16::MAX]);
            if random.one_in(2) {
                following::settle(plant, plan);
            }
        }
        _ => {
            plan.grams[place] = random.pick(&[1, plant.rates[0], u32::MAX]);
            if random.one_in(2) {
                following::fill_inventory(plant, plan);
                following::fill_profit(plant, plan);
            }
        }
    }
}

/// ZF after a shut week: none, from any product, or from the first or last of any
/// earlier week, with or without the right mark beside it. The profit follows
/// half of the time.
pub(super) fn change_opening_after_shut_week(
    random: &mut Random,
    plant: &mut Plant,
    slots: &Slots,
    plan: &mut Plan,
) {
    let sizes = plant.sizes;
    let Some(week) = week_after_shut(random, plant, slots, plan) else { return };
    let earlier = random.below(week);
    let any = random.below(sizes.products);
    let from = match random.below(4) {
        0 => None,
        1 => Some(any),
        2 => Some(marked(sizes, &plan.first, earlier).unwrap_or(any)),
        _ => Some(marked(sizes, &plan.last, earlier).unwrap_or(any)),
    };
    if from.is_none() || !random.one_in(3) {
        plan.opening_changeovers[sizes.week_square(week)].fill(0);
    }
    if let (Some(from), Some(to)) = (from, marked(sizes, &plan.first, week)) {
        plan.opening_changeovers[sizes.week_from_to(week, from, to)] = 1;
    }
    if random.one_in(2) {
        following::fill_profit(plant, plan);
    }
}

/// Takes E, F and L of a producing week away, or some of them, and then none or
/// more of Z, ZF, O, T and P. ZF of the next producing week, and what follows from
/// the tables, do so half of the time.
pub(super) fn clear_week(random: &mut Random, plant: &mut Plant, _: &Slots, plan: &mut Plan) {
    let sizes = plant.sizes;
    let is_producing = |plan: &Plan, week: usize| !plan.is_shut(sizes, week);
    let Some(week) = random.below_where(sizes.weeks, |&week| is_producing(plan, week)) else {
        return;
    };
    let before = (0..week).rev().find(|&earlier| is_producing(plan, earlier));
    let mounted = before.map_or(plant.mounted(), |before| marked(sizes, &plan.last, before));
    let (row, square) = (sizes.week_row(week), sizes.week_square(week));

    let is_whole = !random.one_in(4);
    for marks in [&mut plan.ran, &mut plan.first, &mut plan.last] {
        if is_whole || random.one_in(2) {
            marks[row.clone()].fill(0);
        }
    }
    let tables = if is_whole { random.below(6) } else { 0 };
    if tables > 0 {
        plan.changeovers[square.clone()].fill(0);
    }
    if tables > 1 {
        plan.opening_changeovers[square].fill(0);
    }
    if tables > 2 {
        plan.places[row.clone()].fill(0);
    }
    if tables > 3 {
        plan.minutes[row.clone()].fill(0);
    }
    if tables > 4 {
        plan.grams[row].fill(0);
    }
    if random.one_in(2) {
        move_opening_from(sizes, plan, week, mounted);
    }
    if random.one_in(2) {
        following::fill_inventory(plant, plan);
        following::fill_profit(plant, plan);
    }
}
