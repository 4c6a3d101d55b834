//! Right files, and files damaged so that one row of the refusal table turns
//! them down. The numbers are those of the forms alone: rows 1 to 5, 11 to 14
//! and 21 to 24. Plans and slots belong to the small plant.

use std::fmt::Write;

use crate::layout::Parts;
use crate::model::{Kind, OpeningLine, Plant, Refusal, Sizes, Slot, Storage};
use crate::small;

#[derive(Clone, Debug, PartialEq, Eq)]
pub struct Sample {
    pub name: String,
    /// The refusal, or 0 for a file that is let through.
    pub number: Refusal,
    pub bytes: Vec<u8>,
}

/// All samples: plants, plans, slots.
pub fn all() -> Vec<Sample> {
    [plants(), plans(), slots()].concat()
}

/// The arguments of `formcheck`: each sample's name, a line each.
pub fn arguments(samples: &[Sample]) -> String {
    let mut text = String::new();
    for sample in samples {
        writeln!(text, "{}", sample.name).expect("a string takes any text");
    }
    text
}

/// What `formcheck` prints of them: name and number, a line for each sample.
pub fn expected(samples: &[Sample]) -> String {
    let mut text = String::new();
    for sample in samples {
        writeln!(text, "{} {}", sample.name, sample.number).expect("a string takes any text");
    }
    text
}

pub fn plants() -> Vec<Sample> {
    let right = small::plant();
    let parts = Parts::new(Kind::Plant, 1, &right.bodies());
    let file = parts.bytes();
    let contents_end = parts.contents_end();
    let damaged = |change: fn(&mut Plant)| changed(&right, change).encode();
    let sized = |change: fn(&mut Sizes)| least_plant(changed(&right.sizes, change)).encode();
    let mut long_sizes = right.bodies();
    long_sizes[0].push(0);
    let mounted = small::mounted_plant();
    let mut long_line = mounted.bodies();
    long_line[11].push(0);
    let with_line = |mounted, was_shut| {
        Plant { opening_line: Some(OpeningLine { mounted, was_shut }), ..small::plant() }.encode()
    };

    let mut samples = vec![whole(Kind::Plant, file.clone())];
    let mut add = |number, what, bytes| samples.push(sample(Kind::Plant, number, what, bytes));

    add(0, "greatest", greatest_plant().encode());
    add(0, "mounted", mounted.encode());
    add(0, "nothing-mounted", with_line(255, 1));

    add(1, "empty", Vec::new());
    add(1, "short", file[..contents_end - 1].to_vec());
    add(1, "kind", changed(&parts, |parts| parts.kind = Kind::Plan.byte()).bytes());
    add(1, "section-count", changed(&parts, |parts| parts.count += 1).bytes());
    // Sections 6 and 7 are of one length, so that only their order is wrong.
    add(1, "section-order", changed(&parts, |parts| swap_numbers(parts, 5, 6)).bytes());

    // As long as the contents of kind 1, and a byte short of those of kind 4.
    add(1, "mounted-short", mounted.encode()[..contents_end + 8].to_vec());
    add(1, "section-12-of-kind-1", Parts::new(Kind::Plant, 1, &mounted.bodies()).bytes());
    add(1, "no-section-12-of-kind-4", Parts::new(Kind::MountedPlant, 1, &right.bodies()).bytes());

    add(2, "contents-only", file[..contents_end].to_vec());
    add(2, "gap", changed(&parts, |parts| insert_gap(parts, 5)).bytes());
    add(2, "overlap", changed(&parts, overlap_prices).bytes());
    add(2, "trailing", changed(&parts, |parts| parts.bodies.push(0)).bytes());
    add(2, "wrapped", changed(&parts, wrap_back).bytes());
    add(2, "sizes-length", Parts::new(Kind::Plant, 1, &long_sizes).bytes());

    add(3, "no-product", sized(|sizes| sizes.products = 0));
    add(3, "products", sized(|sizes| sizes.products = 17));
    add(3, "no-customer", sized(|sizes| sizes.customers = 0));
    add(3, "customers", sized(|sizes| sizes.customers = 9));
    add(3, "no-week", sized(|sizes| sizes.weeks = 0));
    add(3, "weeks", sized(|sizes| sizes.weeks = 27));

    add(4, "length", damaged(|plant| plant.rates.truncate(1)));
    add(4, "length-and-rate", damaged(|plant| plant.rates = vec![0]));
    add(4, "section-12-length", Parts::new(Kind::MountedPlant, 1, &long_line).bytes());

    add(5, "no-rate", damaged(|plant| plant.rates[1] = 0));
    add(5, "rate", damaged(|plant| plant.rates[1] = 100_001));
    add(5, "diagonal", damaged(|plant| plant.changeover_minutes[3] = 1));
    add(5, "storage", damaged(|plant| plant.storage[1] = Storage { least: 1, greatest: 0 }));
    add(5, "no-shortest", damaged(|plant| plant.shortest_run = 0));
    add(5, "shortest", damaged(|plant| plant.week_minutes = plant.shortest_run - 1));
    add(5, "week", damaged(|plant| plant.week_minutes = 10_081));
    add(5, "mounted", with_line(2, 0));
    add(5, "mounted-254", with_line(254, 0));
    add(5, "week-before", with_line(255, 2));
    samples
}

pub fn plans() -> Vec<Sample> {
    let right = small::plan();
    let parts = Parts::new(Kind::Plan, 21, &right.bodies());
    let file = parts.bytes();
    let mut samples = vec![whole(Kind::Plan, file.clone())];
    let mut add = |number, what, bytes| samples.push(sample(Kind::Plan, number, what, bytes));

    add(11, "empty", Vec::new());
    add(11, "short", file[..parts.contents_end() - 1].to_vec());
    add(11, "kind", changed(&parts, |parts| parts.kind = Kind::Plant.byte()).bytes());

    add(12, "gap", changed(&parts, |parts| insert_gap(parts, 0)).bytes());
    add(12, "wrapped", changed(&parts, wrap_back).bytes());

    add(13, "contents-only", Parts::new(Kind::Plan, 21, &vec![Vec::new(); 12]).bytes());
    add(13, "length", changed(&right, |plan| plan.backlog.push(0)).encode());

    add(14, "ran", changed(&right, |plan| plan.ran[0] = 2).encode());
    let opening_changeover = changed(&right, |plan| plan.opening_changeovers[7] = 2);
    add(14, "opening-changeover", opening_changeover.encode());
    samples
}

pub fn slots() -> Vec<Sample> {
    let right = small::slots();
    let parts = Parts::new(Kind::Slots, 41, &right.bodies());
    let file = parts.bytes();
    let mut samples = vec![whole(Kind::Slots, file.clone())];
    let mut add = |number, what, bytes| samples.push(sample(Kind::Slots, number, what, bytes));

    let mut shut = right.clone();
    shut.counts[1] = 0;
    shut.slots.truncate(2);
    add(0, "shut-week", shut.encode());
    shut.counts[0] = 0;
    shut.slots.clear();
    add(0, "shut-weeks", shut.encode());

    add(21, "empty", Vec::new());
    add(21, "short", file[..parts.contents_end() - 1].to_vec());
    add(21, "kind", changed(&parts, |parts| parts.kind = Kind::Plan.byte()).bytes());

    add(22, "trailing", changed(&parts, |parts| parts.bodies.push(0)).bytes());
    add(22, "wrapped", changed(&parts, wrap_back).bytes());

    add(23, "contents-only", Parts::new(Kind::Slots, 41, &vec![Vec::new(); 3]).bytes());
    add(23, "sum", changed(&right, |slots| slots.counts[1] = 1).encode());
    add(23, "shut-week", changed(&right, |slots| slots.counts[1] = 0).encode());
    add(23, "sum-and-count", changed(&right, |slots| slots.counts[1] = 3).encode());

    let mut count = right.clone();
    count.counts[1] = 3;
    count.slots.push(Slot { product: 1, minutes: 300 });
    add(24, "count", count.encode());
    add(24, "product", changed(&right, |slots| slots.slots[3].product = 2).encode());
    samples
}

/// The undamaged file of a kind.
fn whole(kind: Kind, bytes: Vec<u8>) -> Sample {
    Sample { name: format!("{kind}.bin"), number: 0, bytes }
}

fn sample(kind: Kind, number: Refusal, what: &str, bytes: Vec<u8>) -> Sample {
    Sample { name: format!("{kind}-{number}-{what}.bin"), number, bytes }
}

fn changed<Value: Clone>(right: &Value, change: impl FnOnce(&mut Value)) -> Value {
    let mut value = right.clone();
    change(&mut value);
    value
}

/// The plant of these sizes with every number at its least.
pub fn least_plant(sizes: Sizes) -> Plant {
    let by_square = sizes.products * sizes.products;
    let by_customer = sizes.customers * sizes.products;
    Plant {
        sizes,
        rates: vec![1; sizes.products],
        changeover_minutes: vec![0; by_square],
        changeover_cents: vec![0; by_square],
        demand: vec![0; by_customer * sizes.weeks],
        prices: vec![0; by_customer],
        backlog_costs: vec![0; by_customer],
        inventory_costs: vec![0; sizes.products],
        storage: vec![Storage { least: 0, greatest: 0 }; sizes.products],
        opening_inventory: vec![0; sizes.products],
        opening_backlog: vec![0; by_customer],
        shortest_run: 1,
        week_minutes: 1,
        opening_line: None,
    }
}

/// The largest plant, with every number at its greatest.
pub fn greatest_plant() -> Plant {
    let mut plant = least_plant(Sizes { products: 16, customers: 8, weeks: 26 });
    plant.rates.fill(100_000);
    plant.changeover_minutes.fill(10_080);
    plant.changeover_cents.fill(1_000_000);
    for product in 0..plant.sizes.products {
        let place = plant.sizes.from_to(product, product);
        plant.changeover_minutes[place] = 0;
        plant.changeover_cents[place] = 0;
    }
    plant.demand.fill(100_000_000);
    plant.prices.fill(100_000);
    plant.backlog_costs.fill(100_000);
    plant.inventory_costs.fill(100_000);
    plant.storage.fill(Storage { least: 4_000_000_000, greatest: 4_000_000_000 });
    plant.opening_inventory.fill(4_000_000_000);
    plant.opening_backlog.fill(100_000_000);
    plant.shortest_run = 10_080;
    plant.week_minutes = 10_080;
    plant
}

/// Exchanges the numbers of two sections.
fn swap_numbers(parts: &mut Parts, one: usize, other: usize) {
    let number = parts.contents[one].number;
    parts.contents[one].number = parts.contents[other].number;
    parts.contents[other].number = number;
}

/// Puts one byte before a body, which moves it and all later ones.
fn insert_gap(parts: &mut Parts, index: usize) {
    let place = parts.contents[index].offset as usize - parts.contents_end();
    parts.bodies.insert(place, 0);
    for entry in &mut parts.contents[index..] {
        entry.offset += 1;
    }
}

/// Lets a plant's prices (section 6) and backlog costs (section 7) share a body.
fn overlap_prices(parts: &mut Parts) {
    let start = parts.contents[5].offset as usize - parts.contents_end();
    let length = parts.contents[5].length;
    parts.bodies.drain(start..start + length as usize);
    for entry in &mut parts.contents[6..] {
        entry.offset -= length;
    }
}

/// Lets the last body but one reach back to the byte before it, by a length
/// that adds up only modulo 2^32. The last body begins there and still ends the
/// file, so that no end lies outside it; the two lengths are wrong as well.
fn wrap_back(parts: &mut Parts) {
    let [.., before, last] = parts.contents.as_mut_slice() else {
        panic!("a file of one section");
    };
    last.offset = before.offset - 1;
    last.length += before.length + 1;
    before.length = u32::MAX;
}
