//! The small plant's run, that with B mounted, that over four weeks with two of them
//! shut, and changes to all.

use doxkarin_tests::machine::run;
use doxkarin_tests::model::{OpeningLine, Plan, Plant, Refusal, Slots};
use doxkarin_tests::small;

#[test]
fn the_small_plant_runs() {
    let tables = Plan {
        ran: vec![1, 1, 1, 1],
        first: vec![1, 0, 0, 1],
        last: vec![0, 1, 1, 0],
        changeovers: vec![0, 1, 0, 0, 0, 0, 1, 0],
        opening_changeovers: vec![0, 0, 0, 0, 0, 0, 0, 1],
        places: vec![1, 2, 2, 1],
        minutes: vec![5000, 2000, 2000, 3000],
        grams: vec![500_000, 100_000, 200_000, 150_000],
        sales: vec![400_000, 300_000, 100_000, 150_000],
        inventory: vec![100_000, 0, 0, 0],
        backlog: vec![0, 0, 0, 50_000],
        profit: 8_650_000,
    };
    assert_eq!(run(&small::plant(), &small::slots()), Ok(tables));
}

/// The small plant's plan, but for the changeover from B to A in week 0.
#[test]
fn the_small_plant_runs_with_b_mounted() {
    let tables = Plan {
        opening_changeovers: vec![0, 0, 1, 0, 0, 0, 0, 1],
        profit: 8_650_000 - 500_000,
        ..small::plan()
    };
    assert_eq!(run(&small::mounted_plant(), &small::slots()), Ok(tables));
}

fn with_mounted(plant: Plant, mounted: u8) -> Plant {
    Plant { opening_line: Some(OpeningLine { mounted, was_shut: 0 }), ..plant }
}

/// A needs no changeover where it is mounted, and has its mark.
#[test]
fn the_mounted_product_costs_nothing() {
    let tables = Plan { opening_changeovers: vec![1, 0, 0, 0, 0, 0, 0, 1], ..small::plan() };
    assert_eq!(run(&with_mounted(small::plant(), 0), &small::slots()), Ok(tables));
}

/// 255 is nothing, as in kind 1.
#[test]
fn nothing_is_mounted() {
    assert_eq!(run(&with_mounted(small::plant(), 255), &small::slots()), Ok(small::plan()));
}

#[test]
fn the_week_before_changes_nothing() {
    for mounted in [0, 1, 255] {
        let not_shut = with_mounted(small::plant(), mounted);
        let opening_line = Some(OpeningLine { mounted, was_shut: 1 });
        let shut = Plant { opening_line, ..small::plant() };
        assert_eq!(run(&shut, &small::slots()), run(&not_shut, &small::slots()));
    }
}

/// The first week fits with its changeover of 30 minutes, and a minute more does not.
#[test]
fn the_first_changeover_takes_minutes() {
    let run_first = |minutes| {
        let mut slots = small::slots();
        slots.slots[1].minutes = minutes;
        run(&small::mounted_plant(), &slots).err()
    };
    assert_eq!(run_first(5010), None);
    assert_eq!(run_first(5011), Some(36));
}

/// What is mounted before the shut weeks 0 and 1 is mounted in week 2.
#[test]
fn what_is_mounted_stays_over_the_first_weeks() {
    let mut slots = small::long_slots();
    slots.counts = vec![0, 0, 2, 1];
    slots.sales = vec![0, 0, 500_000, 0, 0, 0, 100_000, 0];
    let plant = small::long_plant();
    let bare = run(&plant, &slots).expect("the run never stops");
    let mut tables = bare.clone();
    tables.opening_changeovers[plant.sizes.week_from_to(2, 1, 0)] = 1;
    tables.profit -= 500_000;
    assert_eq!(run(&with_mounted(plant, 1), &slots), Ok(tables));
}

/// Where nothing runs, nothing is changed over.
#[test]
fn every_week_may_be_shut_with_a_product_mounted() {
    let mut slots = small::long_slots();
    slots.counts.fill(0);
    slots.slots.clear();
    slots.sales.fill(0);
    let plan = run(&with_mounted(small::long_plant(), 0), &slots);
    assert!(plan.is_ok());
    assert_eq!(plan, run(&small::long_plant(), &slots));
}

/// What is mounted stays mounted over the shut weeks, which sell from stock.
#[test]
fn shut_weeks_run() {
    let tables = Plan {
        ran: vec![1, 1, 0, 0, 0, 0, 1, 0],
        first: vec![1, 0, 0, 0, 0, 0, 1, 0],
        last: vec![0, 1, 0, 0, 0, 0, 1, 0],
        changeovers: vec![0, 1, 0, 0, 0, 0, 0, 0, 0, 0, 0, 0, 0, 0, 0, 0],
        opening_changeovers: vec![0, 0, 0, 0, 0, 0, 0, 0, 0, 0, 0, 0, 0, 0, 1, 0],
        places: vec![1, 2, 0, 0, 0, 0, 1, 0],
        minutes: vec![5000, 2000, 0, 0, 0, 0, 2000, 0],
        grams: vec![500_000, 100_000, 0, 0, 0, 0, 200_000, 0],
        sales: vec![400_000, 50_000, 50_000, 200_000, 50_000, 50_000, 0, 0],
        inventory: vec![100_000, 50_000, 50_000, 0, 0, 0, 0, 0],
        backlog: vec![0, 50_000, 0, 0, 50_000, 0, 0, 0],
        // Sales 8,200,000, changeovers 1,100,000, backlog 250,000, inventory 200,000.
        profit: 6_650_000,
    };
    assert_eq!(run(&small::long_plant(), &small::long_slots()), Ok(tables));
}

/// Runs the plant of four weeks after a change to its slots.
fn run_long(change: fn(&mut Slots)) -> Result<Plan, Refusal> {
    let mut slots = small::long_slots();
    change(&mut slots);
    run(&small::long_plant(), &slots)
}

#[test]
fn a_shut_week_sells_what_is_asked_for_and_in_stock() {
    // 100,000 of A are asked for in week 1 and in stock.
    let sold_earlier = run_long(|slots| {
        slots.sales[1] = 100_000;
        slots.sales[2] = 0;
    });
    // 50,000 of A fewer are owed and in stock after week 1, at 2 and 1 each.
    assert_eq!(sold_earlier.map(|plan| plan.profit), Ok(6_650_000 + 50_000 * (2 + 1)));
    assert_eq!(run_long(|slots| slots.sales[1] = 100_001), Err(38));
    assert_eq!(run_long(|slots| slots.sales[2] = 50_001), Err(38));
    // 50,000 of B are owed in week 1, and 49,950 are in stock.
    assert_eq!(run_long(|slots| slots.slots[1].minutes = 1999), Err(39));
}

#[test]
fn a_product_over_shut_weeks_needs_no_changeover() {
    let plan = run_long(|slots| {
        slots.slots[2].product = 1;
        slots.sales[3] = 0;
    });
    let plan = plan.expect("the run never stops");
    let sizes = small::long_plant().sizes;
    assert_eq!(plan.opening_changeovers[sizes.week_from_to(3, 1, 1)], 1);
    // 200,000 of A are owed and not sold, 100,000 of B are in stock, and there is no
    // changeover from B to A.
    assert_eq!(plan.profit, 6_650_000 - 200_000 * (10 + 2) - 100_000 + 500_000);
}

/// The last week fits with its changeover over the shut weeks, and a minute more
/// does not.
#[test]
fn a_changeover_over_shut_weeks_takes_minutes() {
    assert!(run_long(|slots| slots.slots[2].minutes = 10_050).is_ok());
    assert_eq!(run_long(|slots| slots.slots[2].minutes = 10_051), Err(36));
}

#[test]
fn the_first_producing_week_has_no_changeover() {
    let plan = run_long(|slots| {
        slots.counts = vec![0, 0, 2, 1];
        slots.sales = vec![0, 0, 500_000, 0, 0, 0, 100_000, 0];
    });
    let plan = plan.expect("the run never stops");
    let sizes = small::long_plant().sizes;
    let mut opening = vec![0; plan.opening_changeovers.len()];
    opening[sizes.week_from_to(3, 1, 0)] = 1;
    assert_eq!(plan.opening_changeovers, opening);
}

#[test]
fn every_week_may_be_shut() {
    let plan = run_long(|slots| {
        slots.counts.fill(0);
        slots.slots.clear();
        slots.sales.fill(0);
    });
    let mut tables = Plan::zeros(small::long_plant().sizes);
    tables.backlog = vec![400_000, 500_000, 500_000, 700_000, 100_000, 100_000, 100_000, 100_000];
    tables.profit = -(2_100_000 * 2 + 400_000 * 3);
    assert_eq!(plan, Ok(tables));
}

/// Runs the small plant after a change: the profit, or the stop.
fn run_changed(change: fn(&mut Plant, &mut Slots)) -> Result<i64, Refusal> {
    let (mut plant, mut slots) = (small::plant(), small::slots());
    change(&mut plant, &mut slots);
    run(&plant, &slots).map(|plan| plan.profit)
}

#[test]
fn a_product_runs_once_a_week() {
    assert_eq!(run_changed(|_, slots| slots.slots[3].product = 1), Err(25));
}

#[test]
fn runs_have_a_shortest_length() {
    let shortest = run_changed(|_, slots| {
        slots.slots[2].minutes = 300;
        slots.sales[3] = 15_000;
    });
    let shorter = run_changed(|_, slots| {
        slots.slots[2].minutes = 299;
        slots.sales[3] = 14_950;
    });
    // 135,000 g of B fewer are sold, at 12 each, and stay owed, at 3 each.
    assert_eq!(shortest, Ok(8_650_000 - 135_000 * (12 + 3)));
    assert_eq!(shorter, Err(35));
}

#[test]
fn the_week_has_an_end() {
    // 152,000 g of B more are in stock after both weeks, at 1 each.
    let full = run_changed(|_, slots| slots.slots[1].minutes = 5040);
    assert_eq!(full, Ok(8_650_000 - 2 * 152_000));
    assert_eq!(run_changed(|_, slots| slots.slots[1].minutes = 5041), Err(36));
}

#[test]
fn sales_are_asked_for_and_in_stock() {
    assert_eq!(run_changed(|_, slots| slots.sales[0] = 400_001), Err(38));
    assert_eq!(run_changed(|_, slots| slots.sales[3] = 150_001), Err(39));
}

#[test]
fn stock_keeps_its_limits() {
    assert_eq!(run_changed(|plant, _| plant.storage[0].greatest = 100_000), Ok(8_650_000));
    assert_eq!(run_changed(|plant, _| plant.storage[0].greatest = 99_999), Err(40));
    assert_eq!(run_changed(|plant, _| plant.storage[1].least = 1), Err(40));
}
