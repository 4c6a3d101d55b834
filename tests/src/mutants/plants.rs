//! Changes to plants: numbers out of their ranges, other sizes, and other numbers
//! within the ranges.

use super::mounted::{change_line, exceed_line};
use super::PlantChange;
use crate::forms::most_opening_backlog;
use crate::model::{Plant, Sizes, Storage};
use crate::random::Random;

/// Changes after which a number of the plant is out of its range, or at its end.
pub const PLANT_CHANGES: [PlantChange; 5] =
    [exceed_range, exceed_range, exceed_line, change_sizes, break_diagonal];

/// Changes to the plant under a plan or slots, all within the ranges.
pub const GROUND_CHANGES: [PlantChange; 4] =
    [change_ground, change_line, tighten_week, tighten_shortest];

/// The tables of a plant with the range of their numbers.
fn plant_tables(plant: &mut Plant) -> [(&mut [u32], u32, u32); 8] {
    let most_backlog = most_opening_backlog(plant.kind());
    [
        (&mut plant.rates, 1, 100_000),
        (&mut plant.changeover_cents, 0, 1_000_000),
        (&mut plant.demand, 0, 100_000_000),
        (&mut plant.prices, 0, 100_000),
        (&mut plant.backlog_costs, 0, 100_000),
        (&mut plant.inventory_costs, 0, 100_000),
        (&mut plant.opening_inventory, 0, 4_000_000_000),
        (&mut plant.opening_backlog, 0, most_backlog),
    ]
}

fn exceed_range(random: &mut Random, plant: &mut Plant) {
    let product = random.below(plant.sizes.products);
    match random.below(15) {
        8 => {
            let place = random.below(plant.changeover_minutes.len());
            plant.changeover_minutes[place] = random.pick(&[10_081, u16::MAX]);
        }
        9 => plant.storage[product].greatest = random.pick(&[4_000_000_001, u32::MAX]),
        10 => {
            plant.storage[product].least = plant.storage[product].greatest + 1;
        }
        11 => plant.shortest_run = random.pick(&[0, plant.week_minutes + 1, u16::MAX]),
        12 => plant.week_minutes = random.pick(&[0, plant.shortest_run - 1, 10_081, u16::MAX]),
        13 => plant.rates[product] = 0,
        14 => exceed_backlog(random, plant),
        table => {
            let mut tables = plant_tables(plant);
            let (table, _, greatest) = &mut tables[table];
            table[random.below(table.len())] = random.pick(&[*greatest + 1, u32::MAX]);
        }
    }
}

/// What is owed before week 0 at or beyond the limits of both kinds, in either.
fn exceed_backlog(random: &mut Random, plant: &mut Plant) {
    let place = random.below(plant.opening_backlog.len());
    plant.opening_backlog[place] =
        random.pick(&[100_000_000, 100_000_001, 1_600_000_000, 1_600_000_001]);
}

fn break_diagonal(random: &mut Random, plant: &mut Plant) {
    let product = random.below(plant.sizes.products);
    let place = plant.sizes.from_to(product, product);
    if random.one_in(2) {
        plant.changeover_minutes[place] = random.between(1, 10_080) as u16;
    } else {
        plant.changeover_cents[place] = random.between(1, 1_000_000) as u32;
    }
}

/// Other sizes, with or without the tables following.
fn change_sizes(random: &mut Random, plant: &mut Plant) {
    let sizes = &mut plant.sizes;
    let (size, limit) = match random.below(3) {
        0 => (&mut sizes.products, 17),
        1 => (&mut sizes.customers, 9),
        _ => (&mut sizes.weeks, 27),
    };
    *size = random.pick(&[0, limit, 255, *size - 1, *size + 1]);
    if random.one_in(2) {
        let Sizes { products, customers, weeks } = *sizes;
        plant.rates.resize(products, 1);
        plant.changeover_minutes.resize(products * products, 0);
        plant.changeover_cents.resize(products * products, 0);
        plant.demand.resize(customers * products * weeks, 0);
        plant.prices.resize(customers * products, 0);
        plant.backlog_costs.resize(customers * products, 0);
        plant.inventory_costs.resize(products, 0);
        plant.storage.resize(products, Storage { least: 0, greatest: 0 });
        plant.opening_inventory.resize(products, 0);
        plant.opening_backlog.resize(customers * products, 0);
    }
}

/// One number by one, within its range.
fn change_ground(random: &mut Random, plant: &mut Plant) {
    let mut tables = plant_tables(plant);
    let place = random.below(tables.len());
    let (table, least, greatest) = &mut tables[place];
    let place = random.below(table.len());
    let changed = if random.one_in(2) {
        table[place].saturating_sub(1).max(*least)
    } else {
        (table[place] + 1).min(*greatest)
    };
    table[place] = changed;
    let sizes = plant.sizes;
    for product in 0..sizes.products {
        plant.changeover_cents[sizes.from_to(product, product)] = 0;
    }
}

fn tighten_week(random: &mut Random, plant: &mut Plant) {
    plant.week_minutes =
        random.between(plant.shortest_run.into(), plant.week_minutes.into()) as u16;
}

fn tighten_shortest(random: &mut Random, plant: &mut Plant) {
    plant.shortest_run =
        random.between(plant.shortest_run.into(), plant.week_minutes.into()) as u16;
}
