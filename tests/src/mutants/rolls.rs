//! Changes to plants and slots around the week at which a plant is rolled: what is
//! owed after it, and shut weeks up to it and after it. The slots mostly still run.

use super::slots::new_slot;
use super::RollChange;
use crate::forms::most_opening_backlog;
use crate::model::{Kind, OpeningLine, Plant, Slot, Slots};
use crate::random::Random;

/// Changes that decide what a roll writes, each with the count of weeks that have
/// run.
pub const ROLL_CHANGES: [RollChange; 11] = [
    owe_the_limit,
    owe_the_limit_unsold,
    owe_the_limit_unsold,
    sell_down_to_the_limit,
    owe_the_limit_by_demand,
    owe_the_limit_by_demand,
    shut_last_week,
    shut_next_week,
    shut_several_weeks,
    produce_nothing,
    produce_nothing,
];

/// A count of weeks that have run, after which weeks remain, from `least` on if
/// there are so many.
fn weeks_run(random: &mut Random, plant: &Plant, least: u64) -> usize {
    let most = (plant.sizes.weeks as u64 - 1).max(1);
    random.between(least.min(most), most) as usize
}

/// What one customer is owed of one product after some week at the limit, or
/// beyond it by one, through what is owed at first.
fn owe_the_limit(random: &mut Random, plant: &mut Plant, slots: &mut Slots) -> u64 {
    let run = weeks_run(random, plant, 1);
    let pair = random.below(plant.opening_backlog.len());
    owe(random, plant, slots, pair, run);
    run as u64
}

/// The same, with nothing of it sold before.
fn owe_the_limit_unsold(random: &mut Random, plant: &mut Plant, slots: &mut Slots) -> u64 {
    let run = weeks_run(random, plant, 1);
    let pair = random.below(plant.opening_backlog.len());
    let weeks = plant.sizes.weeks;
    slots.sales[pair * weeks..pair * weeks + run].fill(0);
    let demand = &mut plant.demand[pair * weeks + run - 1];
    *demand = (*demand).max(1);
    owe(random, plant, slots, pair, run);
    let_run(plant, slots);
    run as u64
}

/// The same after a week with more owed, where there is one, of which some is sold.
fn sell_down_to_the_limit(random: &mut Random, plant: &mut Plant, slots: &mut Slots) -> u64 {
    let run = weeks_run(random, plant, 2);
    let pair = random.below(plant.opening_backlog.len());
    let weeks = plant.sizes.weeks;
    let (first, last) = (pair * weeks, pair * weeks + run - 1);
    let more = random.pick(&[1, 2, 1000]);
    if first < last {
        slots.sales[first..last].fill(0);
        plant.demand[last - 1] = plant.demand[last - 1].max(more);
        plant.demand[last] = 0;
        slots.sales[last] = more;
    }
    owe(random, plant, slots, pair, run);
    let_run(plant, slots);
    run as u64
}

/// Lets this pair be owed the limit, or one more, after the first weeks, if some
/// amount that is owed at first does so. Kind 1 becomes kind 4 with nothing mounted.
fn owe(random: &mut Random, plant: &mut Plant, slots: &Slots, pair: usize, run: usize) {
    let limit = u64::from(most_opening_backlog(Kind::MountedPlant));
    let weeks = plant.sizes.weeks;
    let first = pair * weeks..pair * weeks + run;
    let sum = |table: &[u32]| table.iter().copied().map(u64::from).sum::<u64>();
    let owed = limit + random.between(0, 1) + sum(&slots.sales[first.clone()]);
    let opening = owed.checked_sub(sum(&plant.demand[first])).filter(|&owed| owed <= limit);
    if let Some(opening) = opening {
        plant.opening_backlog[pair] = opening as u32;
        let bare = OpeningLine { mounted: 255, was_shut: random.below(2) as u8 };
        plant.opening_line = plant.opening_line.or(Some(bare));
    }
}

/// What is owed of every product at first as much as kind 1 may have, and as much
/// demand in every week: the limit after 15 weeks, and more after 16. Where there are
/// fewer weeks it is owed through what is owed at first.
fn owe_the_limit_by_demand(random: &mut Random, plant: &mut Plant, slots: &mut Slots) -> u64 {
    let most = plant.sizes.weeks as u64 - 1;
    if most < 15 {
        return owe_the_limit(random, plant, slots);
    }
    plant.opening_backlog.fill(most_opening_backlog(Kind::Plant));
    plant.demand.fill(100_000_000);
    slots.sales.fill(0);
    if random.one_in(2) {
        plant.opening_line = None;
    }
    let_run(plant, slots);
    random.between(15, most.min(17))
}

/// The week after which the plant is rolled is shut.
fn shut_last_week(random: &mut Random, plant: &mut Plant, slots: &mut Slots) -> u64 {
    let run = weeks_run(random, plant, 1);
    let mut rows = slots.rows();
    rows[run - 1].clear();
    set_rows(plant, slots, &rows);
    run as u64
}

/// The week after which the plant is rolled produces, and the next one is shut.
fn shut_next_week(random: &mut Random, plant: &mut Plant, slots: &mut Slots) -> u64 {
    let run = weeks_run(random, plant, 1);
    let mut rows = slots.rows();
    produce(random, plant, &mut rows, run - 1);
    if let Some(next) = rows.get_mut(run) {
        next.clear();
    }
    set_rows(plant, slots, &rows);
    run as u64
}

/// The last weeks up to that after which the plant is rolled are shut, and the one
/// before them produces.
fn shut_several_weeks(random: &mut Random, plant: &mut Plant, slots: &mut Slots) -> u64 {
    let run = weeks_run(random, plant, 2);
    let last_producing = random.below((run - 1).max(1));
    let mut rows = slots.rows();
    produce(random, plant, &mut rows, last_producing);
    rows.iter_mut().take(run).skip(last_producing + 1).for_each(Vec::clear);
    set_rows(plant, slots, &rows);
    run as u64
}

/// All weeks up to that after which the plant is rolled are shut. Something is
/// mounted before, or nothing, in either kind.
fn produce_nothing(random: &mut Random, plant: &mut Plant, slots: &mut Slots) -> u64 {
    let run = weeks_run(random, plant, 1);
    let mut rows = slots.rows();
    rows[..run].iter_mut().for_each(Vec::clear);
    if random.one_in(2) {
        let product = random.below(plant.sizes.products) as u8;
        let mounted = random.pick(&[product, 255]);
        plant.opening_line = Some(OpeningLine { mounted, was_shut: random.below(2) as u8 });
    }
    set_rows(plant, slots, &rows);
    run as u64
}

/// Gives a week without slots one of what is mounted, which needs no changeover.
fn produce(random: &mut Random, plant: &Plant, rows: &mut [Vec<Slot>], week: usize) {
    if rows[week].is_empty() {
        let mut slot = new_slot(random, plant);
        slot.minutes = plant.shortest_run;
        let before = rows[..week].iter().flatten().last();
        let mounted = before.map_or(plant.mounted(), |slot| Some(slot.product.into()));
        slot.product = mounted.map_or(slot.product, |product| product as u8);
        rows[week].push(slot);
    }
}

/// Sets the slots of each week, with sales that they allow.
fn set_rows(plant: &mut Plant, slots: &mut Slots, rows: &[Vec<Slot>]) {
    *slots = Slots::from_rows(rows, slots.sales.clone());
    let_run(plant, slots);
}

/// Lets the balances allow the slots: sales of what is asked for and in stock, and
/// storage for what is left, as far as it goes.
fn let_run(plant: &mut Plant, slots: &mut Slots) {
    let sizes = plant.sizes;
    let mut inventory: Vec<u64> = plant.opening_inventory.iter().copied().map(u64::from).collect();
    let mut backlog: Vec<u64> = plant.opening_backlog.iter().copied().map(u64::from).collect();
    for (week, row) in slots.rows().iter().enumerate() {
        for slot in row {
            let product = usize::from(slot.product);
            inventory[product] += u64::from(plant.rates[product]) * u64::from(slot.minutes);
        }
        for (pair, owed) in backlog.iter_mut().enumerate() {
            let stock = &mut inventory[pair % sizes.products];
            let place = pair * sizes.weeks + week;
            let asked = *owed + u64::from(plant.demand[place]);
            let sale = u64::from(slots.sales[place]).min(asked).min(*stock);
            slots.sales[place] = sale as u32;
            *owed = asked - sale;
            *stock -= sale;
        }
        for (limits, &stock) in plant.storage.iter_mut().zip(&inventory) {
            let stock = stock.min(4_000_000_000) as u32;
            limits.least = limits.least.min(stock);
            limits.greatest = limits.greatest.max(stock);
        }
    }
}
