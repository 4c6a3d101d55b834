//! The least and the greatest plant of both kinds, also rolled on, the most slots and
//! none, the most that can be owed, sales of more than 2^32 grams in a week, files and
//! outputs of more than 2^32 bytes, and files of another kind.

use doxkarin_tests::model::{OpeningLine, Plant, Refusal, Sizes, Slot, Slots, Storage};
use doxkarin_tests::rolls::rate_list;
use doxkarin_tests::scenario::greatest_sizes;
use doxkarin_tests::{following, library, reference, samples, small};

/// Asserts that slots run to this profit, and that plan and slots are each
/// other's.
fn assert_runs(plant: &Plant, slots: &Slots, profit: i64) {
    let (plant_file, slot_file) = (plant.encode(), slots.encode());
    let plan_file = reference::plan_file(&plant_file, &slot_file).expect("the run never stops");
    let mut out = vec![0xa5; plan_file.len()];
    assert_eq!(library::plan(&plant_file, &slot_file, &mut out), Ok(plan_file.len()));
    assert!(out == plan_file);
    assert_eq!(library::check(&plant_file, &plan_file), Ok(profit));
    assert_eq!(reference::check(&plant_file, &plan_file), Ok(profit));
    let mut out = vec![0xa5; slot_file.len()];
    assert_eq!(library::slots(&plant_file, &plan_file, &mut out), Ok(slot_file.len()));
    assert!(out == slot_file);
    assert!(reference::slot_file(&plant_file, &plan_file) == Ok(slot_file));
}

/// Asserts that all calls refuse these slots and the plan that follows from them.
fn assert_refused(plant: &Plant, slots: &Slots, number: Refusal) {
    let plan = following::plan(plant, slots).encode();
    let (plant, slots) = (plant.encode(), slots.encode());
    let mut out = vec![0; plan.len()];
    assert_eq!(library::check(&plant, &plan), Err(number));
    assert_eq!(reference::check(&plant, &plan), Err(number));
    assert_eq!(library::slots(&plant, &plan, &mut out), Err(number));
    assert_eq!(reference::slots(&plant, &plan, &mut out), Err(number));
    assert_eq!(library::plan(&plant, &slots, &mut out), Err(number));
    assert_eq!(reference::plan(&plant, &slots, &mut out), Err(number));
    assert_eq!(library::roll(&plant, &plan, 1, &[], &mut out), Err(number));
    assert_eq!(reference::roll(&plant, &plan, 1, &[], &mut out), Err(number));
}

/// The plant of kind 4 with this product mounted.
fn mounted(plant: &Plant, mounted: u8) -> Plant {
    Plant { opening_line: Some(OpeningLine { mounted, was_shut: 1 }), ..plant.clone() }
}

#[test]
fn the_least_plant_runs() {
    let mut plant = samples::least_plant(Sizes { products: 1, customers: 1, weeks: 1 });
    plant.storage[0].greatest = 1;
    let slots = Slots::from_rows(&[vec![Slot { product: 0, minutes: 1 }]], vec![0]);
    assert_runs(&plant, &slots, 0);
    assert_runs(&mounted(&plant, 0), &slots, 0);
    plant.inventory_costs[0] = 1;
    assert_runs(&plant, &slots, -1);
    assert_runs(&mounted(&plant, 0), &slots, -1);
}

/// One week, which is shut: the shortest slot file.
#[test]
fn the_least_plant_is_shut() {
    let plant = samples::least_plant(Sizes { products: 1, customers: 1, weeks: 1 });
    let slots = Slots::from_rows(&[Vec::new()], vec![0]);
    assert_eq!(slots.encode().len(), 29 + 1 + 4);
    assert_runs(&plant, &slots, 0);
    assert_runs(&mounted(&plant, 0), &slots, 0);
}

/// All stock lies at the greatest limit, and everything is owed.
#[test]
fn the_greatest_plant_is_shut() {
    let plant = samples::greatest_plant();
    let slots = Slots::from_rows(&vec![Vec::new(); 26], vec![0; plant.demand.len()]);
    let unit = 100_000;
    let inventory = 26 * 16 * unit * 4_000_000_000;
    let backlog: i64 = (1..=26).map(|week| 8 * 16 * unit * (week + 1) * 100_000_000).sum();
    assert_runs(&plant, &slots, -inventory - backlog);
    // The longest plant file.
    let plant = mounted(&plant, 15);
    assert_eq!(plant.encode().len(), 16_812 + 9 + 2);
    assert_runs(&plant, &slots, -inventory - backlog);
}

/// The most that may be owed at first, and the most demand, of which nothing is sold:
/// 4,200,000,000 are owed in the end, which four bytes hold.
#[test]
fn the_most_is_owed() {
    let mut plant = mounted(&samples::greatest_plant(), 15);
    plant.opening_backlog.fill(1_600_000_000);
    let slots = Slots::from_rows(&vec![Vec::new(); 26], vec![0; plant.demand.len()]);
    let unit = 100_000;
    let inventory = 26 * 16 * unit * 4_000_000_000;
    let backlog: i64 = (1..=26).map(|week| 8 * 16 * unit * (16 + week) * 100_000_000).sum();
    assert_runs(&plant, &slots, -inventory - backlog);
    let plan = following::plan(&plant, &slots);
    let owed_last: Vec<u32> = plan.backlog.iter().copied().skip(25).step_by(26).collect();
    assert_eq!(owed_last, [4_200_000_000; 128]);

    // All of it can be sold, from what there is in stock.
    let sizes = Sizes { products: 1, customers: 1, weeks: 26 };
    let mut plant = mounted(&samples::least_plant(sizes), 0);
    plant.rates[0] = 100_000;
    plant.week_minutes = 10_080;
    plant.storage[0].greatest = 4_000_000_000;
    plant.opening_inventory[0] = 4_000_000_000;
    plant.opening_backlog[0] = 1_600_000_000;
    plant.demand.fill(100_000_000);
    plant.prices[0] = 100_000;
    let mut rows = vec![Vec::new(); 26];
    rows[25] = vec![Slot { product: 0, minutes: 2000 }];
    let mut sales = vec![0; 26];
    sales[25] = 4_200_000_000;
    assert_runs(&plant, &Slots::from_rows(&rows, sales.clone()), 100_000 * 4_200_000_000);
    sales[25] += 1;
    rows[25][0].minutes = 2001;
    assert_refused(&plant, &Slots::from_rows(&rows, sales), 38);
}

/// One gram more may not be owed at first, in any call.
#[test]
fn more_than_the_most_is_not_owed() {
    for (plant, most) in [(small::plant(), 100_000_000), (small::mounted_plant(), 1_600_000_000)] {
        let owing = |owed| Plant { opening_backlog: vec![0, owed], ..plant.clone() };
        let profit = following::plan(&owing(most), &small::slots()).profit;
        assert_runs(&owing(most), &small::slots(), profit);
        assert_refused(&owing(most + 1), &small::slots(), 5);
        assert_refused(&owing(u32::MAX), &small::slots(), 5);
    }
}

/// The greatest plant after each week, of which the first is the longest.
#[test]
fn the_greatest_plant_is_rolled() {
    let mut plant = mounted(&samples::greatest_plant(), 15);
    plant.opening_backlog.fill(1_600_000_000);
    plant.demand.fill(0);
    let slots = Slots::from_rows(&vec![Vec::new(); 26], vec![0; plant.demand.len()]);
    let plan = following::plan(&plant, &slots).encode();
    let rates = rate_list(&plant.rates);
    for k in 1..26 {
        let weeks = 26 - k;
        let sizes = Sizes { weeks, ..plant.sizes };
        let demand = vec![0; 128 * weeks];
        let expected = Plant { sizes, demand, ..plant.clone() }.encode();
        assert_eq!(expected.len(), 16_823 - 512 * k);
        let mut out = vec![0xa5; expected.len()];
        let length = library::roll(&plant.encode(), &plan, k as u64, &rates, &mut out);
        assert_eq!(length, Ok(expected.len()));
        assert!(out == expected, "{k}");
        assert!(reference::rolled_plant_file(&plant.encode(), &plan, k as u64, &rates) == Ok(out));
    }
}

/// The first and the last of 26 weeks produce. The changeover over 24 shut weeks is
/// the greatest, and the last week has no other minute.
#[test]
fn most_weeks_are_shut() {
    let mut plant = samples::greatest_plant();
    plant.shortest_run = 1;
    plant.storage.fill(Storage { least: 0, greatest: 4_000_000_000 });
    plant.opening_inventory.fill(0);
    plant.inventory_costs.fill(0);
    plant.backlog_costs.fill(0);
    let (from, to) = (15, 0);
    let place = plant.sizes.from_to(from, to);
    plant.changeover_minutes[place] = 10_079;
    let mut rows = vec![Vec::new(); 26];
    rows[0] = vec![Slot { product: from as u8, minutes: 10_080 }];
    rows[25] = vec![Slot { product: to as u8, minutes: 1 }];
    let slots = Slots::from_rows(&rows, vec![0; plant.demand.len()]);
    assert_runs(&plant, &slots, -1_000_000 * 1000);

    // A minute of changeover more, and the last week is too full.
    plant.changeover_minutes[place] = 10_080;
    assert_refused(&plant, &slots, 36);
}

/// The last product is mounted, and the first or the last of 26 weeks produces. The
/// changeover into it is the greatest, and the week has no other minute.
#[test]
fn the_first_changeover_is_the_greatest() {
    let mut plant = mounted(&samples::greatest_plant(), 15);
    plant.shortest_run = 1;
    plant.storage.fill(Storage { least: 0, greatest: 4_000_000_000 });
    plant.opening_inventory.fill(0);
    plant.inventory_costs.fill(0);
    plant.backlog_costs.fill(0);
    let place = plant.sizes.from_to(15, 0);
    for week in [0, 25] {
        let mut rows = vec![Vec::new(); 26];
        rows[week] = vec![Slot { product: 0, minutes: 1 }];
        let slots = Slots::from_rows(&rows, vec![0; plant.demand.len()]);
        plant.changeover_minutes[place] = 10_079;
        assert_runs(&plant, &slots, -1_000_000 * 1000);
        // A minute of changeover more, and the week is too full.
        plant.changeover_minutes[place] = 10_080;
        assert_refused(&plant, &slots, 36);
        // With nothing mounted it is not.
        assert_runs(&mounted(&plant, 255), &slots, 0);
    }
}

/// One product runs all weeks and is sold as it is made; everything else is
/// owed, and all stock lies at the greatest limit.
#[test]
fn the_greatest_plant_runs() {
    let mut plant = samples::greatest_plant();
    plant.rates[3] = 79_000;
    let sizes = plant.sizes;
    let made = 79_000 * 10_080;
    let mut sales = vec![0; sizes.customers * sizes.products * sizes.weeks];
    for customer in 0..sizes.customers {
        for week in 0..sizes.weeks {
            sales[sizes.customer_product_week(customer, 3, week)] = made / 8;
        }
    }
    let slots =
        Slots::from_rows(&vec![vec![Slot { product: 3, minutes: 10_080 }]; sizes.weeks], sales);

    let unit = 100_000;
    let sold = 26 * unit * i64::from(made);
    let inventory = 26 * 16 * unit * 4_000_000_000;
    // After week w, from 1, each of 8 customers is owed (w + 1) times the demand of the
    // other 15 products, and of this one the opening amount and what was not sold.
    let others: i64 = (1..=26).map(|week| 15 * (week + 1) * 100_000_000).sum();
    let left = 100_000_000 - i64::from(made / 8);
    let this: i64 = (1..=26).map(|week| 100_000_000 + week * left).sum();
    let backlog = 8 * unit * (others + this);
    assert_runs(&plant, &slots, sold - inventory - backlog);
    assert_runs(&mounted(&plant, 3), &slots, sold - inventory - backlog);
    // The first week has no minute for a changeover.
    assert_refused(&mounted(&plant, 15), &slots, 36);
}

/// Every product runs in every week: more slots than 8 bits can count.
#[test]
fn the_most_slots_run() {
    let sizes = greatest_sizes();
    let mut plant = samples::least_plant(sizes);
    plant.week_minutes = 16;
    plant.storage.fill(Storage { least: 0, greatest: 26 });
    let row = (0..16).map(|product| Slot { product, minutes: 1 }).collect();
    let slots = Slots::from_rows(&vec![row; sizes.weeks], vec![0; plant.demand.len()]);
    assert_runs(&plant, &slots, 0);
}

/// Sales of one week, over the customers, whose sum does not fit in 32 bits.
#[test]
fn sales_beyond_32_bits_count() {
    const SOLD: u32 = 540_000_000;
    let sizes = Sizes { products: 1, customers: 8, weeks: 6 };
    let mut plant = samples::least_plant(sizes);
    plant.rates[0] = 100_000;
    plant.week_minutes = 10_080;
    plant.storage[0].greatest = 4_000_000_000;
    plant.opening_inventory[0] = 3_990_000_000;
    plant.opening_backlog.fill(100_000_000);
    plant.demand.fill(100_000_000);
    let mut rows = vec![vec![Slot { product: 0, minutes: 1 }]; sizes.weeks];
    rows[5][0].minutes = 10_080;
    let mut sales = vec![0; plant.demand.len()];
    for customer in 0..sizes.customers {
        sales[sizes.customer_product_week(customer, 0, 5)] = SOLD;
    }
    let slots = Slots::from_rows(&rows, sales);
    assert_runs(&plant, &slots, 0);

    // With less inventory, what is left of the sum in 32 bits could be sold.
    plant.opening_inventory[0] = 1_000_000;
    let mut plan = following::plan(&plant, &slots);
    plan.inventory[5] = plan.inventory[4] + plan.grams[5] - SOLD.wrapping_mul(8);
    let (plant, plan, slots) = (plant.encode(), plan.encode(), slots.encode());
    let mut out = [0xa5; 1000];
    assert_eq!(library::check(&plant, &plan), Err(39));
    assert_eq!(reference::check(&plant, &plan), Err(39));
    assert_eq!(library::slots(&plant, &plan, &mut out), Err(39));
    assert_eq!(reference::slots(&plant, &plan, &mut out), Err(39));
    assert_eq!(library::plan(&plant, &slots, &mut out), Err(39));
    assert_eq!(reference::plan(&plant, &slots, &mut out), Err(39));
    assert_eq!(out, [0xa5; 1000]);
}

/// What is left of these lengths in 32 bits would be right.
#[test]
fn lengths_beyond_32_bits_count() {
    const BEYOND: usize = 1 << 32;
    let files = [small::plant().encode(), small::plan().encode(), small::slots().encode()];
    let [plant, plan, slots] = &files;
    let mut out = [0xa5; 300];

    // The pages that nothing reads or writes are never there.
    let mut long = vec![0; BEYOND + 300];
    for plant in [plant, &small::mounted_plant().encode()] {
        long[..plant.len()].copy_from_slice(plant);
        assert_eq!(library::check(&long[..BEYOND + plant.len()], plan), Err(2));
        assert_eq!(library::plan(&long[..BEYOND + plant.len()], slots, &mut out), Err(2));
    }
    long[..plan.len()].copy_from_slice(plan);
    assert_eq!(library::check(plant, &long[..BEYOND + plan.len()]), Err(12));
    let rates = rate_list(&small::plant().rates);
    assert_eq!(library::roll(plant, &long[..BEYOND + plan.len()], 1, &rates, &mut out), Err(12));
    long[..300].fill(0);
    long[..slots.len()].copy_from_slice(slots);
    assert_eq!(library::plan(plant, &long[..BEYOND + slots.len()], &mut out), Err(22));
    long[..300].fill(0);
    long[..rates.len()].copy_from_slice(&rates);
    let long_rates = &long[..BEYOND + rates.len()];
    assert_eq!(library::roll(plant, plan, 1, long_rates, &mut out), Err(4));
    assert_eq!(library::roll(plant, plan, (1 << 32) + 1, &rates, &mut out), Err(61));
    assert_eq!(out, [0xa5; 300]);

    long[..300].fill(0xa5);
    assert_eq!(library::plan(plant, slots, &mut long[..BEYOND]), Ok(plan.len()));
    assert!(long[..plan.len()] == **plan && long[plan.len()..300] == out[plan.len()..]);
    long[..300].fill(0xa5);
    assert_eq!(library::slots(plant, plan, &mut long[..BEYOND]), Ok(slots.len()));
    assert!(long[..slots.len()] == **slots && long[slots.len()..300] == out[slots.len()..]);
    let rolled = reference::rolled_plant_file(plant, plan, 1, &rates).expect("a week remains");
    long[..300].fill(0xa5);
    assert_eq!(library::roll(plant, plan, 1, &rates, &mut long[..BEYOND]), Ok(rolled.len()));
    assert!(long[..rolled.len()] == *rolled && long[rolled.len()..300] == out[rolled.len()..]);
}

#[test]
fn a_file_of_another_kind_is_refused() {
    let (plan, slots) = (small::plan().encode(), small::slots().encode());
    let mut out = [0xa5; 300];
    for plant in [small::plant().encode(), small::mounted_plant().encode()] {
        assert_eq!(library::check(&plan, &plant), Err(1));
        assert_eq!(library::check(&plan, &plan), Err(1));
        assert_eq!(library::check(&plant, &plant), Err(11));
        assert_eq!(library::check(&plant, &slots), Err(11));
        assert_eq!(library::slots(&plant, &slots, &mut out), Err(11));
        assert_eq!(library::plan(&plant, &plan, &mut out), Err(21));
        assert_eq!(library::plan(&plant, &plant, &mut out), Err(21));
        assert_eq!(library::plan(&slots, &slots, &mut out), Err(1));
        assert_eq!(library::roll(&plan, &plan, 1, &[], &mut out), Err(1));
        assert_eq!(library::roll(&plant, &slots, 1, &[], &mut out), Err(11));
        assert_eq!(library::roll(&plant, &plant, 1, &[], &mut out), Err(11));
    }
    assert_eq!(out, [0xa5; 300]);
}
