//! A small plant machine, to see that the examples run and what a plant is rolled to.

use plantext::model::{Plant, Sizes, Slots, WeekBefore};

/// What a run has after some weeks.
struct State {
    mounted: Option<usize>,
    inventory: Vec<i64>,
    backlog: Vec<i64>,
    profit: i64,
}

/// Runs slots: the profit in thousandths of a cent, or the number of the stop.
pub fn run(plant: &Plant, slots: &Slots) -> Result<i64, u8> {
    run_weeks(plant, slots, plant.sizes.weeks).map(|state| state.profit)
}

/// The plant of the weeks after the first `weeks`, with new rates, and the profit of
/// the first ones (request 2026-03).
pub fn roll(
    plant: &Plant,
    slots: &Slots,
    weeks: usize,
    rates: Vec<u32>,
) -> Result<(Plant, i64), u8> {
    let state = run_weeks(plant, slots, weeks)?;
    let four_bytes = |numbers: Vec<i64>| -> Vec<u32> {
        numbers.into_iter().map(|number| u32::try_from(number).expect("four bytes")).collect()
    };
    let week_before = WeekBefore {
        mounted: state.mounted.map(|product| u8::try_from(product).expect("at most 16 products")),
        shut: slots.weeks[weeks - 1].is_empty(),
    };
    let rolled = Plant {
        sizes: Sizes { weeks: plant.sizes.weeks - weeks, ..plant.sizes },
        rates,
        demand: after(&plant.demand, plant.sizes.weeks, weeks),
        opening_inventory: four_bytes(state.inventory),
        opening_backlog: four_bytes(state.backlog),
        week_before: Some(week_before),
        ..plant.clone()
    };
    Ok((rolled, state.profit))
}

/// The slots and sales of the weeks after the first `weeks`.
pub fn later_slots(slots: &Slots, weeks: usize) -> Slots {
    Slots {
        weeks: slots.weeks[weeks..].to_vec(),
        sales: after(&slots.sales, slots.weeks.len(), weeks),
    }
}

/// A table of numbers by week without its first weeks.
fn after(table: &[u32], all: usize, weeks: usize) -> Vec<u32> {
    table.chunks(all).flat_map(|row| &row[weeks..]).copied().collect()
}

fn run_weeks(plant: &Plant, slots: &Slots, weeks: usize) -> Result<State, u8> {
    let sizes = plant.sizes;
    let mut mounted = plant.week_before.and_then(|before| before.mounted).map(usize::from);
    let mut inventory: Vec<i64> = plant.opening_inventory.iter().copied().map(i64::from).collect();
    let mut backlog: Vec<i64> = plant.opening_backlog.iter().copied().map(i64::from).collect();
    let mut profit = 0;
    for (week, runs) in slots.weeks[..weeks].iter().enumerate() {
        let mut clock = 0;
        let mut ran = Vec::new();
        for run in runs {
            let product = usize::from(run.product);
            stop_if(ran.contains(&product), 25)?;
            stop_if(run.minutes < plant.shortest_run, 35)?;
            if let Some(mounted) = mounted {
                let place = sizes.from_to(mounted, product);
                clock += u32::from(plant.changeover_minutes[place]);
                profit -= 1000 * i64::from(plant.changeover_cents[place]);
            }
            clock += u32::from(run.minutes);
            stop_if(clock > u32::from(plant.week_minutes), 36)?;
            inventory[product] += i64::from(plant.rates[product]) * i64::from(run.minutes);
            ran.push(product);
            mounted = Some(product);
        }
        let mut sold = vec![0; sizes.products];
        for customer in 0..sizes.customers {
            for (product, sold) in sold.iter_mut().enumerate() {
                let pair = sizes.customer_product(customer, product);
                let place = sizes.customer_product_week(customer, product, week);
                let sale = i64::from(slots.sales[place]);
                backlog[pair] += i64::from(plant.demand[place]) - sale;
                stop_if(backlog[pair] < 0, 38)?;
                *sold += sale;
                profit += i64::from(plant.prices[pair]) * sale;
                profit -= i64::from(plant.backlog_costs[pair]) * backlog[pair];
            }
        }
        for (inventory, sold) in inventory.iter_mut().zip(&sold) {
            *inventory -= sold;
            stop_if(*inventory < 0, 39)?;
        }
        for (product, &inventory) in inventory.iter().enumerate() {
            let storage = plant.storage[product];
            let limits = i64::from(storage.least)..=i64::from(storage.greatest);
            stop_if(!limits.contains(&inventory), 40)?;
            profit -= i64::from(plant.inventory_costs[product]) * inventory;
        }
    }
    Ok(State { mounted, inventory, backlog, profit })
}

fn stop_if(condition: bool, number: u8) -> Result<(), u8> {
    if condition {
        Err(number)
    } else {
        Ok(())
    }
}
