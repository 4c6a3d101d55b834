//! The example texts: the small plant is the sample files, the year's end has
//! shut weeks and is taken over in its middle, and the plants of source 004 say
//! what its tables say.

use plantext::binary;
use plantext::model::{Names, Plant, Slots, WeekBefore};
use plantext::{plant_text, rates_text, slots_text};

use crate::machine;
use crate::texts::facts;
use crate::{read, read_text};

fn plant(name: &str) -> (Plant, Names) {
    let text = read(&format!("examples/{name}.plant.txt"));
    plant_text::read(&text).unwrap_or_else(|faults| panic!("{name}: {faults:?}"))
}

fn slots(name: &str) -> Slots {
    let (plant, names) = plant(name);
    let text = read(&format!("examples/{name}.slots.txt"));
    slots_text::read(plant.sizes, &names, &text)
        .unwrap_or_else(|faults| panic!("{name}: {faults:?}"))
}

#[test]
fn the_small_plant_is_the_sample_files() {
    let (plant, _) = plant("small");
    assert_eq!(binary::encode_plant(&plant), read("crates/formcheck/data/plant.bin"));
    assert_eq!(binary::encode_slots(&slots("small")), read("crates/formcheck/data/slots.bin"));
    assert_eq!(machine::run(&plant, &slots("small")), Ok(8_650_000));
}

/// The small plant's first run then pays the changeover from B to A (request 2026-02).
#[test]
fn the_small_plant_has_b_mounted() {
    let (small, names) = plant("small");
    let week_before = Some(WeekBefore { mounted: Some(1), shut: false });
    let mounted = Plant { week_before, ..small };
    assert_eq!(machine::run(&mounted, &slots("small")), Ok(8_650_000 - 500_000));
    assert_eq!(plant("small-b-mounted"), (mounted, names));
}

#[test]
fn the_document_shows_the_examples() {
    let document = read_text("docs/TEXT.md");
    assert!(document.contains(&read_text("examples/small.plant.txt")));
    assert!(document.contains(&read_text("examples/small.slots.txt")));
    assert!(document.contains(&read_text("examples/year-end-6-weeks.rates.txt")));
    // Of the rolled plant its first lines, indented.
    let rolled = read_text("examples/year-end-after-week-3.plant.txt");
    let lines = rolled.lines().skip_while(|line| !line.starts_with("weeks")).take(14);
    let indented = lines.map(|line| format!("    {line}").trim_end().to_string());
    assert!(document.contains(&indented.collect::<Vec<_>>().join("\n")));
}

#[test]
fn the_year_ends_with_shut_weeks() {
    let name = "year-end-6-weeks";
    let ((plant, names), slots) = (plant(name), slots(name));
    let counts: Vec<usize> = slots.weeks.iter().map(Vec::len).collect();
    assert_eq!(counts, [2, 2, 0, 2, 1, 0]);
    // Another product is made after week 3 than before, and week 3 sells from stock.
    assert_ne!(slots.weeks[1][1].product, slots.weeks[3][0].product);
    assert!(slots.sales.iter().skip(2).step_by(6).any(|&sale| sale > 0));
    assert_eq!(machine::run(&plant, &slots), Ok(21_450_000));

    let file = binary::encode_slots(&slots);
    let back = binary::decode_slots(plant.sizes, &file).expect("a good file");
    let text = slots_text::write(plant.sizes, &names, &back);
    assert_eq!(facts(&text), facts(&read_text("examples/year-end-6-weeks.slots.txt")));
}

/// The text as `show` prints it stands below its comments.
fn is_shown(text: &str, shown: &str) -> bool {
    let head = text.strip_suffix(shown);
    head.is_some_and(|head| head.lines().all(|line| line.is_empty() || line.starts_with('#')))
}

/// Request 2026-03: the line is retooled in week 3, which is shut.
#[test]
fn the_year_end_is_taken_over_after_week_3() {
    let ((plant, names), slots) = (plant("year-end-6-weeks"), slots("year-end-6-weeks"));
    let text = read("examples/year-end-6-weeks.rates.txt");
    let rates = rates_text::read(&names, &text).expect("a good text");
    assert_eq!(rates, [125, 80]);
    assert_eq!(plant.rates, [100, 50]);

    let (rolled, before) = machine::roll(&plant, &slots, 3, rates).expect("weeks that run");
    assert_eq!(before, 11_990_000);
    assert_eq!(rolled.week_before, Some(WeekBefore { mounted: Some(0), shut: true }));
    assert_eq!(rolled.opening_backlog, [0, 0, 30_000, 0]);
    let file = binary::encode_plant(&rolled);
    let shown = plant_text::write(&binary::decode_plant(&file).expect("a good file"), &names);
    assert!(is_shown(&read_text("examples/year-end-after-week-3.plant.txt"), &shown), "{shown}");
    assert_eq!(self::plant("year-end-after-week-3"), (rolled.clone(), names));

    // The old plan on the old rates, the old plan on the new ones, and a new plan.
    let later = machine::later_slots(&slots, 3);
    let unchanged = Plant { rates: plant.rates.clone(), ..rolled.clone() };
    assert_eq!(machine::run(&unchanged, &later), Ok(9_460_000));
    assert_eq!(machine::run(&plant, &slots), Ok(11_990_000 + 9_460_000));
    assert_eq!(machine::run(&rolled, &later), Ok(8_560_000));
    assert_eq!(machine::run(&rolled, &self::slots("year-end-after-week-3")), Ok(10_230_000));
}

/// Every example rolled on after each of its weeks, with its own rates: the text shows
/// the rolled plant, and the rest of the plan runs on it to the same profit.
#[test]
fn every_example_may_be_rolled_on() {
    for name in [
        "small",
        "ten-products-4-weeks",
        "ten-products-6-weeks",
        "ten-products-8-weeks",
        "year-end-6-weeks",
        "year-end-after-week-3",
    ] {
        let ((plant, names), slots) = (plant(name), slots(name));
        let text = read(&format!("examples/{name}.plant.txt"));
        for weeks in 1..plant.sizes.weeks {
            let rates = rates_text::read(&names, &text).expect("a good text");
            let (rolled, before) = machine::roll(&plant, &slots, weeks, rates).expect("a run");
            let shown = plant_text::write(&rolled, &names);
            let back = plant_text::read(shown.as_bytes());
            assert_eq!(back, Ok((rolled.clone(), names.clone())), "{name} after {weeks}");
            let later = machine::run(&rolled, &machine::later_slots(&slots, weeks));
            let whole = machine::run(&plant, &slots);
            assert_eq!(later.map(|later| before + later), whole, "{name} after {weeks}");
        }
    }
}

/// Thousandths of a cent of the examples to one of source 004's dollars.
const DOLLAR: i64 = 300 * 100 * 1000;

#[test]
fn the_ten_products_run_near_the_sources_profit() {
    // Table 4's greatest profits, in tenths of a dollar.
    for (name, profit, greatest) in [
        ("ten-products-4-weeks", 163_145_262_976, 54_388),
        ("ten-products-6-weeks", 244_016_670_368, 81_348),
        ("ten-products-8-weeks", 319_597_680_448, 106_549),
    ] {
        let (plant, _) = plant(name);
        assert_eq!(machine::run(&plant, &slots(name)), Ok(profit), "{name}");
        let greatest = greatest * DOLLAR / 10;
        assert!(profit <= greatest, "{name}");
        assert!(profit > greatest / 1000 * 999, "{name}");
    }
}

/// Table 5's sales of each product by week, in tenths of a ton.
const SALES: [[i64; 8]; 10] = [
    [107, 203, 0, 0, 310, 0, 0, 0],
    [0, 169, 101, 150, 120, 0, 0, 150],
    [190, 0, 80, 190, 60, 0, 262, 68],
    [360, 0, 60, 0, 0, 360, 60, 0],
    [430, 0, 430, 0, 430, 0, 430, 0],
    [0, 137, 0, 343, 0, 0, 240, 0],
    [0, 0, 261, 0, 40, 0, 0, 273],
    [0, 300, 0, 120, 79, 341, 0, 300],
    [0, 0, 150, 0, 33, 117, 0, 100],
    [0, 270, 0, 270, 4, 266, 90, 180],
];

/// Table 5's backlogs of each product by week, in tenths of a ton.
const BACKLOGS: [[i64; 8]; 10] = [
    [203, 0, 0, 0, 0, 0, 0, 0],
    [120, 101, 0, 0, 0, 0, 150, 0],
    [0, 40, 0, 0, 0, 60, 8, 0],
    [0, 0, 0, 0, 60, 0, 0, 0],
    [0, 0, 0, 0, 0, 0, 0, 0],
    [240, 103, 103, 0, 0, 0, 0, 0],
    [120, 120, 129, 129, 209, 209, 329, 56],
    [30, 0, 30, 0, 11, 0, 30, 0],
    [150, 300, 300, 450, 567, 600, 750, 800],
    [0, 0, 0, 0, 86, 0, 0, 0],
];

#[test]
fn the_demand_is_that_of_the_sources_sales_and_backlogs() {
    let (plant, _) = plant("ten-products-8-weeks");
    for product in 0..10 {
        let mut backlog = 0;
        for week in 0..8 {
            let demand: u32 = (0..plant.sizes.customers)
                .map(|customer| plant.sizes.customer_product_week(customer, product, week))
                .map(|place| plant.demand[place])
                .sum();
            let expected = SALES[product][week] + BACKLOGS[product][week] - backlog;
            assert_eq!(i64::from(demand), expected * 100_000, "product {product} week {week}");
            backlog = BACKLOGS[product][week];
        }
    }
}

#[test]
fn the_prices_and_costs_are_the_sources() {
    let (plant, names) = plant("ten-products-8-weeks");
    // Table 3, in dollars per ton.
    let prices = [10, 12, 13, 12, 15, 10, 8, 14, 7, 15];
    for (product, price) in prices.map(|price| price * 30).into_iter().enumerate() {
        assert_eq!(plant.inventory_costs[product] * 10, price);
        for (customer, name) in names.customers.iter().enumerate() {
            let pair = plant.sizes.customer_product(customer, product);
            let paid = match (plant.wants(customer, product), name.as_str()) {
                (false, _) => 0,
                (true, "C10") => price * 3 / 2,
                (true, _) => price,
            };
            assert_eq!(plant.prices[pair], paid, "{name} {product}");
            assert_eq!(plant.backlog_costs[pair] * 5, paid, "{name} {product}");
        }
    }
    // 10 dollars for 60 minutes.
    for (minutes, cents) in plant.changeover_minutes.iter().zip(&plant.changeover_cents) {
        assert_eq!(u32::from(*minutes) * 10 * 100 * 300, cents * 60);
    }
}

#[test]
fn the_shorter_plants_are_the_first_weeks_of_the_longest() {
    let (longest, names) = plant("ten-products-8-weeks");
    for weeks in [4, 6] {
        let mut cut = longest.clone();
        cut.sizes.weeks = weeks;
        cut.demand =
            longest.demand.chunks(8).flat_map(|demand| &demand[..weeks]).copied().collect();
        assert_eq!(plant(&format!("ten-products-{weeks}-weeks")), (cut, names.clone()));
    }
}
