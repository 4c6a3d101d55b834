//! Changes to slots and sales, after which a run stops or runs otherwise.

use super::mounted::fill_first_week;
use super::SlotsChange;
use crate::following;
use crate::model::{Plant, Slot, Slots};
use crate::random::Random;

/// Changes after which a run stops, or runs otherwise. All leave the slots with
/// products of the plant.
pub const SLOTS_CHANGES: [SlotsChange; 21] = [
    repeat_product,
    repeat_product,
    shorten_run,
    fill_week,
    exceed_week,
    fill_first_week,
    fill_first_week,
    change_minutes,
    sell_unasked,
    sell_unasked,
    sell_out,
    sell_out,
    wrap_sales,
    change_sale,
    tighten_storage,
    tighten_storage,
    shuffle_week,
    shut_week,
    shut_week,
    open_week,
    exchange_weeks,
];

/// A week with slots, if there is one.
fn producing_week(random: &mut Random, rows: &[Vec<Slot>]) -> Option<usize> {
    random.below_where(rows.len(), |&week| !rows[week].is_empty())
}

/// Lets a product run twice in a week.
fn repeat_product(random: &mut Random, plant: &mut Plant, slots: &mut Slots) {
    let mut rows = slots.rows();
    let Some(week) = producing_week(random, &rows) else { return };
    let row = &mut rows[week];
    let repeated = row[random.below(row.len())];
    if row.len() > 1 && random.one_in(2) {
        let place = random.below(row.len());
        row[place].product = repeated.product;
    } else if row.len() < plant.sizes.products {
        row.insert(random.below(row.len() + 1), repeated);
    }
    *slots = Slots::from_rows(&rows, slots.sales.clone());
}

/// Changes one slot, if there is one.
fn change_slot(random: &mut Random, slots: &mut Slots, change: impl FnOnce(&mut Slot)) {
    let place = random.below_where(slots.slots.len(), |_| true);
    if let Some(place) = place {
        change(&mut slots.slots[place]);
    }
}

fn shorten_run(random: &mut Random, plant: &mut Plant, slots: &mut Slots) {
    let below = plant.shortest_run - 1;
    let minutes = random.pick(&[below, below, 0]);
    change_slot(random, slots, |slot| slot.minutes = minutes);
}

/// Lets the minutes of one slot end its week exactly, or pass its end by `over`.
pub(super) fn end_week(random: &mut Random, plant: &Plant, slots: &mut Slots, over: u64) {
    if let Some(week) = producing_week(random, &slots.rows()) {
        end_this_week(random, plant, slots, week, over);
    }
}

/// The same of one producing week.
pub(super) fn end_this_week(
    random: &mut Random,
    plant: &Plant,
    slots: &mut Slots,
    week: usize,
    over: u64,
) {
    let mut rows = slots.rows();
    let last_before = rows[..week].iter().flatten().last();
    let mut mounted = last_before.map_or(plant.mounted(), |slot| Some(slot.product.into()));
    let mut clock = 0;
    for slot in &rows[week] {
        let product = usize::from(slot.product);
        if let Some(from) = mounted {
            clock += u64::from(plant.changeover_minutes[plant.sizes.from_to(from, product)]);
        }
        clock += u64::from(slot.minutes);
        mounted = Some(product);
    }
    let place = random.below(rows[week].len());
    let slot = &mut rows[week][place];
    let end = u64::from(plant.week_minutes) + over;
    if clock <= end {
        slot.minutes += (end - clock) as u16;
    }
    *slots = Slots::from_rows(&rows, slots.sales.clone());
}

fn fill_week(random: &mut Random, plant: &mut Plant, slots: &mut Slots) {
    end_week(random, plant, slots, 0);
}

fn exceed_week(random: &mut Random, plant: &mut Plant, slots: &mut Slots) {
    end_week(random, plant, slots, 1);
}

fn change_minutes(random: &mut Random, plant: &mut Plant, slots: &mut Slots) {
    let any = random.number() as u16;
    let within = random.between(plant.shortest_run.into(), plant.week_minutes.into()) as u16;
    let minutes = random.pick(&[any, within, within, plant.week_minutes, u16::MAX]);
    change_slot(random, slots, |slot| slot.minutes = minutes);
}

/// A sale of more than is asked for.
fn sell_unasked(random: &mut Random, plant: &mut Plant, slots: &mut Slots) {
    let plan = following::plan(plant, slots);
    let place = random.below(slots.sales.len());
    let asked = slots.sales[place].saturating_add(plan.backlog[place]);
    slots.sales[place] = random.pick(&[asked.saturating_add(1), u32::MAX, asked]);
}

/// Sales of all that is asked for.
fn sell_out(random: &mut Random, plant: &mut Plant, slots: &mut Slots) {
    let plan = following::plan(plant, slots);
    let week = random.below(plant.sizes.weeks);
    let product = random.below(plant.sizes.products);
    let inventory = plan.inventory[plant.sizes.week_product(week, product)];
    let customer = random.below(plant.sizes.customers);
    let place = plant.sizes.customer_product_week(customer, product, week);
    // By one more than there is, if as much is asked for.
    let more = inventory.saturating_add(1);
    let asked = plan.backlog[place];
    slots.sales[place] = slots.sales[place].saturating_add(more.min(asked));
}

/// Raises the sales of one product in one week by 2^32 over the customers, or by
/// less where the backlog from that week on is less.
pub(super) fn wrap_sales(random: &mut Random, plant: &mut Plant, slots: &mut Slots) {
    let sizes = plant.sizes;
    let plan = following::plan(plant, slots);
    let week = random.below(sizes.weeks);
    let product = random.below(sizes.products);
    let mut left = 1u64 << 32;
    for customer in 0..sizes.customers {
        let place = |week| sizes.customer_product_week(customer, product, week);
        let backlogs = (week..sizes.weeks).map(|week| u64::from(plan.backlog[place(week)]));
        let more = backlogs.fold(left, u64::min);
        slots.sales[place(week)] += more as u32;
        left -= more;
    }
}

fn change_sale(random: &mut Random, _plant: &mut Plant, slots: &mut Slots) {
    let place = random.below(slots.sales.len());
    let sale = slots.sales[place];
    slots.sales[place] =
        random.pick(&[sale.saturating_sub(1), sale.saturating_add(1), sale / 2, 0]);
}

/// A limit of storage at the inventory after some week, or beyond it by one.
fn tighten_storage(random: &mut Random, plant: &mut Plant, slots: &mut Slots) {
    let plan = following::plan(plant, slots);
    let week = random.below(plant.sizes.weeks);
    let product = random.below(plant.sizes.products);
    let inventory = plan.inventory[plant.sizes.week_product(week, product)];
    let limits = &mut plant.storage[product];
    if random.one_in(2) {
        let greatest = random.pick(&[inventory, inventory.saturating_sub(1)]);
        limits.greatest = greatest.clamp(limits.least, 4_000_000_000);
    } else {
        let least = random.pick(&[inventory, inventory.saturating_add(1)]);
        limits.least = least.min(limits.greatest);
    }
}

fn shuffle_week(random: &mut Random, _plant: &mut Plant, slots: &mut Slots) {
    let mut rows = slots.rows();
    let row = random.below(rows.len());
    random.shuffle(&mut rows[row]);
    *slots = Slots::from_rows(&rows, slots.sales.clone());
}

/// Takes a week's slots away, half of the time with its sales.
pub(super) fn shut_week(random: &mut Random, plant: &mut Plant, slots: &mut Slots) {
    let mut rows = slots.rows();
    let Some(week) = producing_week(random, &rows) else { return };
    rows[week].clear();
    *slots = Slots::from_rows(&rows, slots.sales.clone());
    if random.one_in(2) {
        let sales = slots.sales.iter_mut().skip(week).step_by(plant.sizes.weeks);
        sales.for_each(|sale| *sale = 0);
    }
}

/// A slot of any product.
pub(super) fn new_slot(random: &mut Random, plant: &Plant) -> Slot {
    let product = random.below(plant.sizes.products) as u8;
    Slot { product, minutes: random.pick(&[plant.shortest_run, plant.week_minutes]) }
}

/// Gives a shut week a slot.
fn open_week(random: &mut Random, plant: &mut Plant, slots: &mut Slots) {
    let mut rows = slots.rows();
    if let Some(week) = random.below_where(rows.len(), |&week| rows[week].is_empty()) {
        rows[week].push(new_slot(random, plant));
        *slots = Slots::from_rows(&rows, slots.sales.clone());
    }
}

fn exchange_weeks(random: &mut Random, _plant: &mut Plant, slots: &mut Slots) {
    let mut rows = slots.rows();
    let (one, other) = (random.below(rows.len()), random.below(rows.len()));
    rows.swap(one, other);
    *slots = Slots::from_rows(&rows, slots.sales.clone());
}

/// A count or product that a slot file may not have, with or without section 42
/// following.
pub fn break_slots_form(random: &mut Random, plant: &Plant, slots: &mut Slots) {
    let products = plant.sizes.products;
    let mut rows = slots.rows();
    let week = random.below(rows.len());
    match random.below(6) {
        0 => {
            let product = random.pick(&[products as u8, 255]);
            change_slot(random, slots, |slot| slot.product = product);
        }
        1 => slots.counts[week] = random.pick(&[0, products as u8 + 1, 255]),
        2 => {
            // Section 42 has the sum of the counts only modulo 2^8.
            for week in [week, random.below(rows.len())] {
                slots.counts[week] = slots.counts[week].wrapping_add(128);
            }
        }
        3 => {
            // Another week counts the slots of this one as its own.
            let other = random.below(rows.len());
            let count = std::mem::take(&mut slots.counts[week]);
            slots.counts[other] += count;
        }
        // A slot of no week.
        4 => slots.slots.push(new_slot(random, plant)),
        _ => {
            let slot = new_slot(random, plant);
            rows[week].resize(products + 1, slot);
            *slots = Slots::from_rows(&rows, slots.sales.clone());
        }
    }
}
