//! Plant and slot files: one kind byte, the count of sections, the contents,
//! then the bodies end to end; and lists of rates, which have no header.

use std::fmt;
use std::ops::RangeInclusive;

use crate::limits;
use crate::model::{Plant, Sizes, Slot, Slots, Storage, WeekBefore};

const PLANT_KIND: u8 = 1;
const SLOTS_KIND: u8 = 3;
/// A plant with its week before, section 12 (request 2026-02).
const WEEK_BEFORE_KIND: u8 = 4;
const PLANT_SECTIONS: RangeInclusive<u8> = 1..=11;
const WEEK_BEFORE_SECTIONS: RangeInclusive<u8> = 1..=12;
const SLOTS_SECTIONS: RangeInclusive<u8> = 41..=43;

/// Stands in section 12 in place of a product.
const NOTHING_MOUNTED: u8 = 255;

/// Bytes of one contents entry: section number, offset and length.
const ENTRY_LENGTH: usize = 9;

/// The number that a file is refused with.
#[derive(Clone, Copy, Debug, PartialEq, Eq)]
pub struct Refusal(pub u8);

impl fmt::Display for Refusal {
    fn fmt(&self, formatter: &mut fmt::Formatter<'_>) -> fmt::Result {
        let reason = match self.0 {
            1 => {
                "it is too short for a plant file's contents, or its kind, count of sections or \
                 section numbers are not a plant file's"
            }
            2 => {
                "a section does not begin where the one before ends, the last does not end the \
                 file, or section 1 is not 3 bytes"
            }
            3 => "it has not 1 to 16 products, 1 to 8 customers and 1 to 26 weeks",
            4 | 23 => "a section has not the length that the plant's counts give it",
            5 => "a number of the plant is out of its range",
            21 => {
                "it is too short for a slot file's contents, or its kind, count of sections or \
                 section numbers are not a slot file's"
            }
            22 => {
                "a section does not begin where the one before ends, or the last does not end the \
                 file"
            }
            24 => {
                "a week has more slots than products, or a slot's product is not one of the \
                 plant's"
            }
            _ => "its number is not one of a plant or slot file's form",
        };
        write!(formatter, "refused {}: {reason}", self.0)
    }
}

/// Why a list of rates is refused. Its numbers are plant files' too, for other reasons.
#[derive(Clone, Copy, Debug, PartialEq, Eq)]
pub enum RatesRefusal {
    Length,
    Range,
}

impl fmt::Display for RatesRefusal {
    fn fmt(&self, formatter: &mut fmt::Formatter<'_>) -> fmt::Result {
        formatter.write_str(match self {
            RatesRefusal::Length => "refused 4: it is not 4 bytes for each of the plant's products",
            RatesRefusal::Range => "refused 5: a rate is out of its range",
        })
    }
}

/// Whether these are a file's bytes and not a text. A file begins with its kind
/// and has bytes of 0 in its contents; a text has no control characters.
pub fn is_binary(bytes: &[u8]) -> bool {
    bytes.first().is_none_or(|&kind| kind < b'\t') || bytes.contains(&0)
}

/// Whether the kind is that of a plant file.
pub fn is_plant(file: &[u8]) -> bool {
    matches!(file.first(), Some(&PLANT_KIND | &WEEK_BEFORE_KIND))
}

pub fn encode_plant(plant: &Plant) -> Vec<u8> {
    let sizes = [plant.sizes.products, plant.sizes.customers, plant.sizes.weeks];
    let storage = plant.storage.iter().flat_map(|limits| [limits.least, limits.greatest]);
    let openings = plant.opening_inventory.iter().chain(&plant.opening_backlog).copied();
    let mut bodies = vec![
        sizes.map(|size| u8::try_from(size).expect("a size of one byte")).to_vec(),
        by_four(plant.rates.iter().copied()),
        by_two(plant.changeover_minutes.iter().copied()),
        by_four(plant.changeover_cents.iter().copied()),
        by_four(plant.demand.iter().copied()),
        by_four(plant.prices.iter().copied()),
        by_four(plant.backlog_costs.iter().copied()),
        by_four(plant.inventory_costs.iter().copied()),
        by_four(storage),
        by_four(openings),
        by_two([plant.shortest_run, plant.week_minutes]),
    ];
    bodies.extend(plant.week_before.map(|WeekBefore { mounted, shut }| {
        vec![mounted.unwrap_or(NOTHING_MOUNTED), u8::from(shut)]
    }));
    let (kind, numbers) = plant_form(plant.week_before.is_some());
    encode(kind, numbers, &bodies)
}

/// The kind and the sections of a plant file with its week before, or without.
fn plant_form(with_week_before: bool) -> (u8, RangeInclusive<u8>) {
    if with_week_before {
        (WEEK_BEFORE_KIND, WEEK_BEFORE_SECTIONS)
    } else {
        (PLANT_KIND, PLANT_SECTIONS)
    }
}

pub fn encode_slots(slots: &Slots) -> Vec<u8> {
    let counts = slots.weeks.iter().map(|week| u8::try_from(week.len()).expect("at most 16 slots"));
    let runs = slots.weeks.iter().flatten().flat_map(|slot| {
        let [low, high] = slot.minutes.to_le_bytes();
        [slot.product, low, high]
    });
    let bodies = [counts.collect(), runs.collect(), by_four(slots.sales.iter().copied())];
    encode(SLOTS_KIND, SLOTS_SECTIONS, &bodies)
}

pub fn encode_rates(rates: &[u32]) -> Vec<u8> {
    by_four(rates.iter().copied())
}

/// Lays the bodies end to end after their contents.
fn encode(kind: u8, numbers: RangeInclusive<u8>, bodies: &[Vec<u8>]) -> Vec<u8> {
    let mut offset = 2 + ENTRY_LENGTH * bodies.len();
    let mut file = vec![kind, u8::try_from(bodies.len()).expect("at most 255 sections")];
    for (number, body) in numbers.zip(bodies) {
        file.push(number);
        file.extend(u32::try_from(offset).expect("a file below 4 GiB").to_le_bytes());
        file.extend(u32::try_from(body.len()).expect("a file below 4 GiB").to_le_bytes());
        offset += body.len();
    }
    file.extend(bodies.concat());
    file
}

/// Reads a plant file, or refuses it with 1 to 5.
pub fn decode_plant(file: &[u8]) -> Result<Plant, Refusal> {
    let (kind, numbers) = plant_form(file.first() == Some(&WEEK_BEFORE_KIND));
    let bodies = decode(file, kind, numbers, Refusal(1), Refusal(2))?;
    let &[products, customers, weeks] = bodies[0] else {
        return Err(Refusal(2));
    };
    let within_limits = limits::PRODUCTS.contains(&products.into())
        && limits::CUSTOMERS.contains(&customers.into())
        && limits::WEEKS.contains(&weeks.into());
    refuse_unless(within_limits, Refusal(3))?;

    let sizes =
        Sizes { products: products.into(), customers: customers.into(), weeks: weeks.into() };
    let by_square = sizes.products * sizes.products;
    let by_customer = sizes.customers * sizes.products;
    let lengths = [
        3,
        4 * sizes.products,
        2 * by_square,
        4 * by_square,
        4 * by_customer * sizes.weeks,
        4 * by_customer,
        4 * by_customer,
        4 * sizes.products,
        8 * sizes.products,
        4 * sizes.products + 4 * by_customer,
        4,
        2,
    ];
    // Kind 1 has no section 12.
    refuse_unless(have_lengths(&bodies, &lengths[..bodies.len()]), Refusal(4))?;

    let (inventory, backlog) = bodies[9].split_at(4 * sizes.products);
    let times = twos(bodies[10]);
    let plant = Plant {
        sizes,
        rates: fours(bodies[1]),
        changeover_minutes: twos(bodies[2]),
        changeover_cents: fours(bodies[3]),
        demand: fours(bodies[4]),
        prices: fours(bodies[5]),
        backlog_costs: fours(bodies[6]),
        inventory_costs: fours(bodies[7]),
        storage: fours(bodies[8])
            .chunks_exact(2)
            .map(|limits| Storage { least: limits[0], greatest: limits[1] })
            .collect(),
        opening_inventory: fours(inventory),
        opening_backlog: fours(backlog),
        shortest_run: times[0],
        week_minutes: times[1],
        week_before: bodies.get(11).map(|body| decode_week_before(body)).transpose()?,
    };
    refuse_unless(in_range(&plant), Refusal(5))?;
    Ok(plant)
}

fn decode_week_before(body: &[u8]) -> Result<WeekBefore, Refusal> {
    let (mounted, shut) = (body[0], body[1]);
    refuse_unless(shut <= 1, Refusal(5))?;
    Ok(WeekBefore { mounted: (mounted != NOTHING_MOUNTED).then_some(mounted), shut: shut == 1 })
}

/// Reads a slot file of a plant of these sizes, or refuses it with 21 to 24.
pub fn decode_slots(sizes: Sizes, file: &[u8]) -> Result<Slots, Refusal> {
    let bodies = decode(file, SLOTS_KIND, SLOTS_SECTIONS, Refusal(21), Refusal(22))?;
    let counts = bodies[0];
    let count_of_slots: usize = counts.iter().copied().map(usize::from).sum();
    let lengths =
        [sizes.weeks, 3 * count_of_slots, 4 * sizes.customers * sizes.products * sizes.weeks];
    refuse_unless(have_lengths(&bodies, &lengths), Refusal(23))?;

    let counted = counts.iter().all(|&count| usize::from(count) <= sizes.products);
    refuse_unless(counted, Refusal(24))?;
    let mut later = bodies[1].chunks_exact(3);
    let weeks: Vec<Vec<Slot>> = counts
        .iter()
        .map(|&count| {
            let week = later.by_ref().take(count.into());
            week.map(|slot| Slot {
                product: slot[0],
                minutes: u16::from_le_bytes([slot[1], slot[2]]),
            })
            .collect()
        })
        .collect();
    let known = weeks.iter().flatten().all(|slot| usize::from(slot.product) < sizes.products);
    refuse_unless(known, Refusal(24))?;
    Ok(Slots { weeks, sales: fours(bodies[2]) })
}

/// Reads the list of rates of a plant of these sizes, or refuses it with 4 or 5.
pub fn decode_rates(sizes: Sizes, file: &[u8]) -> Result<Vec<u32>, RatesRefusal> {
    if file.len() != 4 * sizes.products {
        return Err(RatesRefusal::Length);
    }
    let rates = fours(file);
    if all_within(&rates, limits::RATE) {
        Ok(rates)
    } else {
        Err(RatesRefusal::Range)
    }
}

/// The bodies of a file, or `wrong_contents` or `misplaced`.
fn decode(
    file: &[u8],
    kind: u8,
    numbers: RangeInclusive<u8>,
    wrong_contents: Refusal,
    misplaced: Refusal,
) -> Result<Vec<&[u8]>, Refusal> {
    let count = numbers.len();
    let contents_end = 2 + ENTRY_LENGTH * count;
    refuse_unless(file.len() >= contents_end, wrong_contents)?;
    refuse_unless(file[0] == kind && usize::from(file[1]) == count, wrong_contents)?;
    let contents = file[2..contents_end].chunks_exact(ENTRY_LENGTH);
    refuse_unless(contents.clone().map(|entry| entry[0]).eq(numbers), wrong_contents)?;

    let mut bodies = Vec::with_capacity(count);
    let mut rest = &file[contents_end..];
    let mut end = contents_end as u64;
    for entry in contents {
        let place = fours(&entry[1..]);
        let (offset, length) = (u64::from(place[0]), u64::from(place[1]));
        refuse_unless(offset == end && length <= rest.len() as u64, misplaced)?;
        end += length;
        let (body, after) = rest.split_at(place[1] as usize);
        bodies.push(body);
        rest = after;
    }
    refuse_unless(rest.is_empty(), misplaced)?;
    Ok(bodies)
}

/// Whether every number of the plant is in its range.
fn in_range(plant: &Plant) -> bool {
    let products = plant.sizes.products;
    let opening_backlog = limits::opening_backlog(plant.week_before.is_some());
    let mut on_diagonal = (0..products).map(|product| plant.sizes.from_to(product, product));
    all_within(&plant.rates, limits::RATE)
        && all_within(&plant.changeover_minutes, limits::CHANGEOVER_MINUTES)
        && all_within(&plant.changeover_cents, limits::CHANGEOVER_CENTS)
        && on_diagonal
            .all(|place| plant.changeover_minutes[place] == 0 && plant.changeover_cents[place] == 0)
        && all_within(&plant.demand, limits::DEMAND)
        && all_within(&plant.prices, limits::UNIT_COST)
        && all_within(&plant.backlog_costs, limits::UNIT_COST)
        && all_within(&plant.inventory_costs, limits::UNIT_COST)
        && plant.storage.iter().all(|storage| {
            storage.least <= storage.greatest && limits::STORAGE.contains(&storage.greatest.into())
        })
        && all_within(&plant.opening_inventory, limits::OPENING_INVENTORY)
        && all_within(&plant.opening_backlog, opening_backlog)
        && all_within(&[plant.shortest_run, plant.week_minutes], limits::WEEK_MINUTES)
        && plant.shortest_run <= plant.week_minutes
        && plant
            .week_before
            .and_then(|before| before.mounted)
            .is_none_or(|product| usize::from(product) < products)
}

fn all_within<Number: Copy + Into<u64>>(numbers: &[Number], limits: RangeInclusive<u64>) -> bool {
    numbers.iter().all(|&number| limits.contains(&number.into()))
}

fn have_lengths(bodies: &[&[u8]], lengths: &[usize]) -> bool {
    bodies.iter().map(|body| body.len()).eq(lengths.iter().copied())
}

fn refuse_unless(condition: bool, refusal: Refusal) -> Result<(), Refusal> {
    if condition {
        Ok(())
    } else {
        Err(refusal)
    }
}

fn by_two(numbers: impl IntoIterator<Item = u16>) -> Vec<u8> {
    numbers.into_iter().flat_map(u16::to_le_bytes).collect()
}

fn by_four(numbers: impl IntoIterator<Item = u32>) -> Vec<u8> {
    numbers.into_iter().flat_map(u32::to_le_bytes).collect()
}

fn twos(body: &[u8]) -> Vec<u16> {
    let numbers = body.chunks_exact(2);
    numbers.map(|bytes| u16::from_le_bytes(bytes.try_into().expect("two bytes"))).collect()
}

fn fours(body: &[u8]) -> Vec<u32> {
    let numbers = body.chunks_exact(4);
    numbers.map(|bytes| u32::from_le_bytes(bytes.try_into().expect("four bytes"))).collect()
}
