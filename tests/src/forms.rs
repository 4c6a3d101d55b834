//! From bytes to numbers, or the first row of the refusal table that turns the
//! file down: 1 to 5 for plants, 11 to 14 for plans, 21 to 24 for slots, 4 and 5
//! for lists of rates.

use std::ops::RangeInclusive;

use crate::model::{Kind, OpeningLine, Plan, Plant, Refusal, Sizes, Slot, Slots, Storage};

/// Reads a plant: rows 1 to 5.
pub fn read_plant(file: &[u8]) -> Result<Plant, Refusal> {
    let (kind, sections) = match file.first() {
        Some(4) => (Kind::MountedPlant, 1..=12),
        _ => (Kind::Plant, 1..=11),
    };
    let bodies = read_bodies(file, kind, sections, 1, 2)?;
    let &[products, customers, weeks] = bodies[0] else {
        return Err(2);
    };
    let within_limits =
        (1..=16).contains(&products) && (1..=8).contains(&customers) && (1..=26).contains(&weeks);
    refuse_unless(within_limits, 3)?;

    let sizes =
        Sizes { products: products.into(), customers: customers.into(), weeks: weeks.into() };
    let by_square = sizes.products * sizes.products;
    let by_customer = sizes.customers * sizes.products;
    let lengths = [
        3,
        4 * sizes.products,
        2 * by_square,
        4 * by_square,
        4 * by_customer * sizes.weeks,
        4 * by_customer,
        4 * by_customer,
        4 * sizes.products,
        8 * sizes.products,
        4 * sizes.products + 4 * by_customer,
        4,
        2,
    ];
    refuse_unless(have_lengths(&bodies, &lengths[..bodies.len()]), 4)?;

    let (inventory, backlog) = bodies[9].split_at(4 * sizes.products);
    let times = twos(bodies[10]);
    let plant = Plant {
        sizes,
        rates: fours(bodies[1]),
        changeover_minutes: twos(bodies[2]),
        changeover_cents: fours(bodies[3]),
        demand: fours(bodies[4]),
        prices: fours(bodies[5]),
        backlog_costs: fours(bodies[6]),
        inventory_costs: fours(bodies[7]),
        storage: fours(bodies[8])
            .chunks_exact(2)
            .map(|limits| Storage { least: limits[0], greatest: limits[1] })
            .collect(),
        opening_inventory: fours(inventory),
        opening_backlog: fours(backlog),
        shortest_run: times[0],
        week_minutes: times[1],
        opening_line: bodies
            .get(11)
            .map(|line| OpeningLine { mounted: line[0], was_shut: line[1] }),
    };
    refuse_unless(in_range(&plant), 5)?;
    Ok(plant)
}

/// Reads a plan of the plant: rows 11 to 14.
pub fn read_plan(plant: &Plant, file: &[u8]) -> Result<Plan, Refusal> {
    let bodies = read_bodies(file, Kind::Plan, 21..=32, 11, 12)?;
    let by_product = plant.sizes.weeks * plant.sizes.products;
    let by_square = by_product * plant.sizes.products;
    let by_customer = by_product * plant.sizes.customers;
    let lengths = [
        by_product,
        by_product,
        by_product,
        by_square,
        by_square,
        by_product,
        2 * by_product,
        4 * by_product,
        4 * by_customer,
        4 * by_product,
        4 * by_customer,
        8,
    ];
    refuse_unless(have_lengths(&bodies, &lengths), 13)?;
    refuse_unless(bodies[..5].iter().copied().flatten().all(|&mark| mark <= 1), 14)?;
    Ok(Plan {
        ran: bodies[0].to_vec(),
        first: bodies[1].to_vec(),
        last: bodies[2].to_vec(),
        changeovers: bodies[3].to_vec(),
        opening_changeovers: bodies[4].to_vec(),
        places: bodies[5].to_vec(),
        minutes: twos(bodies[6]),
        grams: fours(bodies[7]),
        sales: fours(bodies[8]),
        inventory: fours(bodies[9]),
        backlog: fours(bodies[10]),
        profit: i64::from_le_bytes(bodies[11].try_into().expect("a body of 8 bytes")),
    })
}

/// Reads slots of the plant: rows 21 to 24.
pub fn read_slots(plant: &Plant, file: &[u8]) -> Result<Slots, Refusal> {
    let bodies = read_bodies(file, Kind::Slots, 41..=43, 21, 22)?;
    let Sizes { products, customers, weeks } = plant.sizes;
    let sum: usize = bodies[0].iter().copied().map(usize::from).sum();
    let lengths = [weeks, 3 * sum, 4 * customers * products * weeks];
    refuse_unless(have_lengths(&bodies, &lengths), 23)?;

    let slots = Slots {
        counts: bodies[0].to_vec(),
        slots: bodies[1]
            .chunks_exact(3)
            .map(|slot| Slot { product: slot[0], minutes: u16::from_le_bytes([slot[1], slot[2]]) })
            .collect(),
        sales: fours(bodies[2]),
    };
    let counted = slots.counts.iter().all(|&count| usize::from(count) <= products);
    let known = slots.slots.iter().all(|slot| usize::from(slot.product) < products);
    refuse_unless(counted && known, 24)?;
    Ok(slots)
}

/// Reads a list of rates, one of four bytes for each product: rows 4 and 5.
pub fn read_rates(sizes: Sizes, list: &[u8]) -> Result<Vec<u32>, Refusal> {
    refuse_unless(list.len() == 4 * sizes.products, 4)?;
    let rates = fours(list);
    refuse_unless(are_rates(&rates), 5)?;
    Ok(rates)
}

/// The greatest backlog before week 0, in grams, of a plant of this kind.
pub const fn most_opening_backlog(kind: Kind) -> u32 {
    match kind {
        Kind::MountedPlant => 1_600_000_000,
        _ => 100_000_000,
    }
}

/// The bodies of a file, or `wrong_contents` or `misplaced`.
fn read_bodies(
    file: &[u8],
    kind: Kind,
    numbers: RangeInclusive<u8>,
    wrong_contents: Refusal,
    misplaced: Refusal,
) -> Result<Vec<&[u8]>, Refusal> {
    let count = numbers.len();
    let contents_end = 2 + 9 * count;
    refuse_unless(file.len() >= contents_end, wrong_contents)?;
    refuse_unless(file[0] == kind.byte() && usize::from(file[1]) == count, wrong_contents)?;
    let contents = file[2..contents_end].chunks_exact(9);
    refuse_unless(contents.clone().map(|entry| entry[0]).eq(numbers), wrong_contents)?;

    let mut bodies = Vec::with_capacity(count);
    let mut end = contents_end as u64;
    for entry in contents {
        let place = fours(&entry[1..]);
        let (offset, length) = (u64::from(place[0]), u64::from(place[1]));
        refuse_unless(offset == end, misplaced)?;
        end = offset + length;
        refuse_unless(end <= file.len() as u64, misplaced)?;
        bodies.push(&file[offset as usize..end as usize]);
    }
    refuse_unless(end == file.len() as u64, misplaced)?;
    Ok(bodies)
}

/// Row 5: every number of the plant is in its range.
fn in_range(plant: &Plant) -> bool {
    let products = plant.sizes.products;
    let on_diagonal = (0..products).map(|product| plant.sizes.from_to(product, product));
    are_rates(&plant.rates)
        && plant.changeover_minutes.iter().all(|&minutes| minutes <= 10_080)
        && on_diagonal.clone().all(|place| plant.changeover_minutes[place] == 0)
        && at_most(&plant.changeover_cents, 1_000_000)
        && on_diagonal.clone().all(|place| plant.changeover_cents[place] == 0)
        && at_most(&plant.demand, 100_000_000)
        && at_most(&plant.prices, 100_000)
        && at_most(&plant.backlog_costs, 100_000)
        && at_most(&plant.inventory_costs, 100_000)
        && plant
            .storage
            .iter()
            .all(|limits| limits.least <= limits.greatest && limits.greatest <= 4_000_000_000)
        && at_most(&plant.opening_inventory, 4_000_000_000)
        && at_most(&plant.opening_backlog, most_opening_backlog(plant.kind()))
        && 1 <= plant.shortest_run
        && plant.shortest_run <= plant.week_minutes
        && plant.week_minutes <= 10_080
        && plant.mounted().is_none_or(|mounted| mounted < products)
        && plant.opening_line.is_none_or(|line| line.was_shut <= 1)
}

fn are_rates(numbers: &[u32]) -> bool {
    numbers.iter().all(|rate| (1..=100_000).contains(rate))
}

/// Whether no number is greater.
pub fn at_most(numbers: &[u32], greatest: u32) -> bool {
    numbers.iter().all(|&number| number <= greatest)
}

fn have_lengths(bodies: &[&[u8]], lengths: &[usize]) -> bool {
    bodies.iter().map(|body| body.len()).eq(lengths.iter().copied())
}

/// This refusal, or nothing where the condition holds.
pub fn refuse_unless(condition: bool, refusal: Refusal) -> Result<(), Refusal> {
    if condition {
        Ok(())
    } else {
        Err(refusal)
    }
}

fn twos(body: &[u8]) -> Vec<u16> {
    let numbers = body.chunks_exact(2);
    numbers.map(|bytes| u16::from_le_bytes(bytes.try_into().expect("two bytes"))).collect()
}

fn fours(body: &[u8]) -> Vec<u32> {
    let numbers = body.chunks_exact(4);
    numbers.map(|bytes| u32::from_le_bytes(bytes.try_into().expect("four bytes"))).collect()
}
