//! Changes around what is mounted before week 0: section 12 and the plant's kind,
//! and the changeover into the first producing week with its minutes and cents.

use super::shut_weeks::marked;
use super::slots::end_this_week;
use crate::following;
use crate::forms::{at_most, most_opening_backlog};
use crate::layout::Parts;
use crate::model::{Kind, OpeningLine, Plan, Plant, Slots};
use crate::random::Random;

/// Section 12 with any product mounted, or none.
fn any_line(random: &mut Random, plant: &Plant) -> OpeningLine {
    let product = random.below(plant.sizes.products) as u8;
    OpeningLine { mounted: random.pick(&[product, product, 255]), was_shut: random.below(2) as u8 }
}

/// A number of section 12 out of its range.
pub(super) fn exceed_line(random: &mut Random, plant: &mut Plant) {
    let mut line = any_line(random, plant);
    let products = plant.sizes.products as u8;
    if random.one_in(2) {
        line.mounted = random.pick(&[products, products + 1, 16, 128, 254]);
    } else {
        line.was_shut = random.pick(&[2, 3, 128, 255]);
    }
    plant.opening_line = Some(line);
}

/// Another product mounted or none, in either kind, or the second number of
/// section 12 alone, which changes nothing.
pub(super) fn change_line(random: &mut Random, plant: &mut Plant) {
    let any = any_line(random, plant);
    match &mut plant.opening_line {
        Some(line) if random.one_in(3) => line.was_shut ^= 1,
        line => *line = random.pick(&[None, Some(any), Some(any)]),
    }
    keep_backlog(plant);
}

/// Leaves a plant with section 12 if it owes too much for kind 1.
fn keep_backlog(plant: &mut Plant) {
    if !at_most(&plant.opening_backlog, most_opening_backlog(plant.kind())) {
        plant.opening_line = Some(OpeningLine { mounted: 255, was_shut: 0 });
    }
}

/// The plant's file with section 12 of another length, with a kind or count that
/// the sections are not of, or cut about where the contents of either kind end.
pub fn damage_line(random: &mut Random, plant: &Plant) -> Vec<u8> {
    let any = any_line(random, plant);
    let without_line = Plant { opening_line: None, ..plant.clone() };
    let with_line = Plant { opening_line: plant.opening_line.or(Some(any)), ..plant.clone() };
    let mut file = if random.one_in(2) { without_line.encode() } else { with_line.encode() };
    match random.below(7) {
        0 => {
            let mut bodies = with_line.bodies();
            bodies[11].resize(random.pick(&[0, 1, 3]), 0);
            file = Parts::new(Kind::MountedPlant, 1, &bodies).bytes();
        }
        1 => file = Parts::new(Kind::MountedPlant, 1, &without_line.bodies()).bytes(),
        2 => file = Parts::new(Kind::Plant, 1, &with_line.bodies()).bytes(),
        3 => file[0] = random.pick(&[1, 4]),
        4 => file[0] = random.pick(&[0, 2, 3, 5, 255]),
        5 => file[1] = random.pick(&[0, 11, 12, 13, 255]),
        _ => file.truncate(random.between(100, 111) as usize),
    }
    file
}

/// What is mounted before week 0: any product, from now on, where nothing was.
fn mounted(random: &mut Random, plant: &mut Plant) -> usize {
    let any = random.below(plant.sizes.products);
    let was_shut = random.below(2) as u8;
    plant.mounted().unwrap_or_else(|| {
        plant.opening_line = Some(OpeningLine { mounted: any as u8, was_shut });
        any
    })
}

/// What is mounted before week 0, the first producing week and its first product.
/// A product is mounted for it where nothing was, with every table following.
fn first_changeover(
    random: &mut Random,
    plant: &mut Plant,
    slots: &Slots,
    plan: &mut Plan,
) -> Option<(usize, usize, usize)> {
    let sizes = plant.sizes;
    let is_bare = plant.mounted().is_none();
    let from = mounted(random, plant);
    if is_bare {
        *plan = following::plan(plant, slots);
    }
    let week = (0..sizes.weeks).find(|&week| !plan.is_shut(sizes, week))?;
    Some((from, week, marked(sizes, &plan.first, week)?))
}

/// ZF of the first producing week with something mounted: none, from another
/// product, to another, or in another week, with or without the right mark beside
/// it. The profit follows half of the time.
pub(super) fn change_first_opening(
    random: &mut Random,
    plant: &mut Plant,
    slots: &Slots,
    plan: &mut Plan,
) {
    let sizes = plant.sizes;
    let Some((from, week, to)) = first_changeover(random, plant, slots, plan) else { return };
    let any = random.below(sizes.products);
    let any_week = random.below(sizes.weeks);
    let mark = random.pick(&[
        None,
        Some((week, any, to)),
        Some((week, from, any)),
        Some((any_week, from, to)),
    ]);
    if mark.is_none() || !random.one_in(3) {
        plan.opening_changeovers[sizes.week_square(week)].fill(0);
    }
    if let Some((week, from, to)) = mark {
        plan.opening_changeovers[sizes.week_from_to(week, from, to)] = 1;
    }
    if random.one_in(2) {
        following::fill_profit(plant, plan);
    }
}

/// ZF of the first producing week, or of week 0, with nothing mounted, in either
/// kind. The profit follows half of the time.
pub(super) fn open_bare_line(
    random: &mut Random,
    plant: &mut Plant,
    slots: &Slots,
    plan: &mut Plan,
) {
    let sizes = plant.sizes;
    if plant.mounted().is_some() {
        let bare = OpeningLine { mounted: 255, was_shut: random.below(2) as u8 };
        plant.opening_line = random.pick(&[None, Some(bare)]);
        keep_backlog(plant);
        *plan = following::plan(plant, slots);
    }
    let producing = (0..sizes.weeks).find(|&week| !plan.is_shut(sizes, week));
    let week = random.pick(&[0, producing.unwrap_or(0)]);
    let to = marked(sizes, &plan.first, week).unwrap_or(0);
    plan.opening_changeovers[sizes.week_from_to(week, random.below(sizes.products), to)] = 1;
    if random.one_in(2) {
        following::fill_profit(plant, plan);
    }
}

/// A profit without the cents of the first changeover, or with them twice.
pub(super) fn change_first_cost(
    random: &mut Random,
    plant: &mut Plant,
    slots: &Slots,
    plan: &mut Plan,
) {
    let Some((from, _, to)) = first_changeover(random, plant, slots, plan) else { return };
    let cost = 1000 * i64::from(plant.changeover_cents[plant.sizes.from_to(from, to)]);
    plan.profit = plan.profit.wrapping_add(random.pick(&[cost, -cost]));
}

/// Another product mounted, or none, with every table following, and the profit
/// half of the time.
pub(super) fn mount_other(random: &mut Random, plant: &mut Plant, slots: &Slots, plan: &mut Plan) {
    change_line(random, plant);
    let profit = plan.profit;
    *plan = following::plan(plant, slots);
    if random.one_in(2) {
        plan.profit = profit;
    }
}

/// Lets the first producing week end at its last minute, one later, or later by
/// the changeover from what is mounted, without which it would fit.
pub(super) fn fill_first_week(random: &mut Random, plant: &mut Plant, slots: &mut Slots) {
    let Some(week) = slots.counts.iter().position(|&count| count > 0) else { return };
    let from = mounted(random, plant);
    let to = slots.slots[0].product.into();
    let changeover = plant.changeover_minutes[plant.sizes.from_to(from, to)];
    let over = random.pick(&[0, 1, changeover.into()]);
    end_this_week(random, plant, slots, week, over);
}

/// The same with every table following.
pub(super) fn overrun_first_week(
    random: &mut Random,
    plant: &mut Plant,
    slots: &Slots,
    plan: &mut Plan,
) {
    let mut slots = slots.clone();
    fill_first_week(random, plant, &mut slots);
    *plan = following::plan(plant, &slots);
}
