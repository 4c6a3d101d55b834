//! From numbers to text and back, and to bytes and back.

use plantext::model::{Names, Plant, Sizes, Slot, Slots, WeekBefore};
use plantext::{binary, plant_text, rates_text, slots_text};

use crate::random::{plant_of, week_befores, Random};
use crate::read;
use crate::texts;

/// Takes a plant to text and back, and to bytes, which it gives, and back.
fn through_text_and_bytes(plant: &Plant) -> Vec<u8> {
    let names = Names::numbered(plant.sizes);
    let text = plant_text::write(plant, &names);
    assert_eq!(plant_text::read(text.as_bytes()), Ok((plant.clone(), names)));
    let file = binary::encode_plant(plant);
    assert_eq!(binary::decode_plant(&file).as_ref(), Ok(plant));
    file
}

#[test]
fn plants_come_back_from_text_and_bytes() {
    for seed in 0..200 {
        through_text_and_bytes(&Random::new(seed).plant());
    }
}

/// Plants of 1 to 16 products in kind 1, and in kind 4 with all values of section 12.
#[test]
fn both_kinds_come_back_from_text_and_bytes() {
    for products in 1..=16 {
        let mut plant = plant_of(products);
        let kind_1 = through_text_and_bytes(&plant);
        assert_eq!(kind_1[..2], [1, 11]);
        for week_before in week_befores(products) {
            plant.week_before = Some(week_before);
            let kind_4 = through_text_and_bytes(&plant);
            assert_eq!(kind_4[..2], [4, 12]);
            let (bodies, section_12) = kind_4[110..].split_at(kind_1.len() - 101);
            assert_eq!(bodies, &kind_1[101..]);
            let WeekBefore { mounted, shut } = week_before;
            assert_eq!(section_12, [mounted.unwrap_or(255), shut.into()]);
        }
    }
}

#[test]
fn slots_come_back_from_text_and_bytes() {
    for seed in 0..200 {
        let mut random = Random::new(seed);
        let sizes = random.plant().sizes;
        let slots = random.slots(sizes);
        let names = Names::numbered(sizes);
        let text = slots_text::write(sizes, &names, &slots);
        let back = slots_text::read(sizes, &names, text.as_bytes());
        assert_eq!(back, Ok(slots.clone()), "seed {seed}");
        let file = binary::encode_slots(&slots);
        assert_eq!(binary::decode_slots(sizes, &file), Ok(slots), "seed {seed}");
    }
}

/// A plant of kind 4 may owe more (request 2026-03).
#[test]
fn the_greatest_opening_backlog_comes_back() {
    for (week_before, greatest) in [
        (None, 100_000_000),
        (Some(WeekBefore { mounted: None, shut: false }), 1_600_000_000),
        (Some(WeekBefore { mounted: Some(15), shut: true }), 1_600_000_000),
    ] {
        let plant = plant_of(16);
        let opening_backlog = vec![greatest; plant.opening_backlog.len()];
        through_text_and_bytes(&Plant { week_before, opening_backlog, ..plant });
    }
}

#[test]
fn rates_come_back_from_text_and_bytes() {
    for products in 1..=16 {
        let sizes = plant_of(products).sizes;
        let names = Names::numbered(sizes);
        for seed in 0..50 {
            let rates = Random::new(seed).rates(products);
            let text = rates_text::write(&names, &rates);
            assert_eq!(rates_text::read(&names, text.as_bytes()), Ok(rates.clone()), "seed {seed}");
            let file = binary::encode_rates(&rates);
            assert_eq!(file.len(), 4 * products);
            assert_eq!(binary::decode_rates(sizes, &file), Ok(rates), "seed {seed}");
        }
    }
}

/// A list of rates is as section 2 of the plant file.
#[test]
fn a_plants_text_gives_its_own_rates() {
    for seed in 0..200 {
        let plant = Random::new(seed).plant();
        let names = Names::numbered(plant.sizes);
        let text = plant_text::write(&plant, &names);
        let rates = rates_text::read(&names, text.as_bytes()).expect("a good text");
        assert_eq!(rates, plant.rates, "seed {seed}");
        let section_2 = if plant.week_before.is_some() { 113 } else { 104 };
        let list = binary::encode_rates(&rates);
        assert!(binary::encode_plant(&plant)[section_2..].starts_with(&list), "seed {seed}");
    }
}

/// The products have the plant's order, whatever that of their lines.
#[test]
fn rates_may_be_written() {
    let (_, names) =
        plant_text::read(texts::changed(&texts::PLANT, &[]).as_bytes()).expect("a good text");
    for text in [
        "rate A 125\nrate B 80\n",
        "rate B 80 grams per minute\nrate A 125",
        "\u{feff}# new\r\n\r\n\trate  B 80.0 # slow\r\nrate A 125 gram per minute\r\n",
    ] {
        assert_eq!(rates_text::read(&names, text.as_bytes()), Ok(vec![125, 80]), "{text}");
    }
    assert_eq!(binary::encode_rates(&[125, 100_000]), [125, 0, 0, 0, 0xa0, 0x86, 1, 0]);
    assert_eq!(
        rates_text::write(&names, &[1, 100_000]),
        "rate A 1 gram per minute\nrate B 100000 grams per minute\n"
    );
    // Of a plant's text only the rates count, and its products may be in another order.
    let changes = [(1, "weeks 26"), (4, "product B"), (5, "product A"), (7, "rate A 125")];
    let text = texts::changed(&texts::PLANT, &changes);
    assert_eq!(rates_text::read(&names, text.as_bytes()), Ok(vec![125, 50]));
}

/// The text of weeks that are shut or run A. A shut week is its week line alone.
fn text_of_weeks(shut: &[bool]) -> String {
    let weeks = shut.iter().enumerate().map(|(week, &is_shut)| {
        let run = if is_shut { "" } else { "run A 300 minutes\n" };
        format!("week {}\n{run}", week + 1)
    });
    weeks.collect::<Vec<_>>().join("\n")
}

/// Any of four weeks may be shut: the first, the last, several in a row and all.
#[test]
fn shut_weeks_come_back_from_text_and_bytes() {
    let sizes = Sizes { products: 2, customers: 1, weeks: 4 };
    let names = Names { products: vec!["A".into(), "B".into()], customers: vec!["C1".into()] };
    for pattern in 0..16 {
        let shut: Vec<bool> = (0..4).map(|week| pattern & (1 << week) != 0).collect();
        let text = text_of_weeks(&shut);
        let slots = slots_text::read(sizes, &names, text.as_bytes()).expect("a good text");
        let run = Slot { product: 0, minutes: 300 };
        let weeks: Vec<Vec<Slot>> =
            shut.iter().map(|&is_shut| if is_shut { vec![] } else { vec![run] }).collect();
        assert_eq!(slots, Slots { weeks, sales: vec![0; 8] }, "{shut:?}");

        let file = binary::encode_slots(&slots);
        let counts: Vec<u8> = shut.iter().map(|&is_shut| u8::from(!is_shut)).collect();
        assert_eq!(file[29..33], counts, "{shut:?}");
        let back = binary::decode_slots(sizes, &file).expect("a good file");
        assert_eq!(slots_text::write(sizes, &names, &back), text, "{shut:?}");
    }
}

#[test]
fn a_shut_week_has_sales() {
    let (plant, names) =
        plant_text::read(texts::changed(&texts::PLANT, &[]).as_bytes()).expect("a good text");
    let text = texts::changed(&texts::SLOTS, &[(7, ""), (8, "")]);
    let slots = slots_text::read(plant.sizes, &names, text.as_bytes()).expect("a good text");
    assert_eq!(binary::encode_slots(&slots), read("crates/formcheck/data/slots-0-shut-week.bin"));
    let text = texts::changed(&texts::SLOTS, &[(2, ""), (3, ""), (7, ""), (8, "")]);
    let slots = slots_text::read(plant.sizes, &names, text.as_bytes()).expect("a good text");
    assert_eq!(binary::encode_slots(&slots), read("crates/formcheck/data/slots-0-shut-weeks.bin"));
    let shown = slots_text::write(plant.sizes, &names, &slots);
    assert_eq!(
        shown,
        "week 1\nsell C1 A 400000 grams\nsell C1 B 100000 grams\n\n\
         week 2\nsell C1 A 300000 grams\nsell C1 B 150000 grams\n"
    );
}

#[test]
fn the_greatest_plant_comes_back() {
    let file = read("crates/formcheck/data/plant-0-greatest.bin");
    let plant = binary::decode_plant(&file).expect("a good plant file");
    let text = plant_text::write(&plant, &Names::numbered(plant.sizes));
    let (back, _) = plant_text::read(text.as_bytes()).expect("a good text");
    assert_eq!(binary::encode_plant(&back), file);
}

#[test]
fn facts_without_units_are_in_the_units_of_the_file() {
    let text = texts::changed(&texts::PLANT, &[]);
    let (plant, names) = plant_text::read(text.as_bytes()).expect("a good text");
    assert_eq!(binary::encode_plant(&plant), read("crates/formcheck/data/plant.bin"));
    assert_eq!(names.products, ["A", "B"]);
    assert_eq!(names.customers, ["C1"]);

    let text = texts::changed(&texts::SLOTS, &[]);
    let slots = slots_text::read(plant.sizes, &names, text.as_bytes()).expect("a good text");
    assert_eq!(binary::encode_slots(&slots), read("crates/formcheck/data/slots.bin"));
}

/// The small plant after changes to its text.
fn plant_after(changes: &[(usize, &str)]) -> Plant {
    let text = texts::changed(&texts::PLANT, changes);
    let (plant, _) = plant_text::read(text.as_bytes()).unwrap_or_else(|faults| {
        panic!("{changes:?}: {faults:?}");
    });
    plant
}

#[test]
fn units_may_be_written() {
    let small = plant_after(&[]);
    let written = plant_after(&[
        (2, "week-minutes 10080 minutes"),
        (3, "shortest-run 300 minutes"),
        (7, "rate A 100 grams per minute"),
        (11, "inventory-cost A 1 cent per kilogram"),
        (13, "storage A 0 2000 kilograms"),
        (14, "storage B 0 2000000 grams"),
        (15, "price C1 A 10 cents per kilogram"),
        (17, "backlog-cost C1 A 2 cents per kilogram"),
        (21, "demand C1 A week 1 400 kilograms"),
        (22, "demand C1 A week 2 300.000 kilograms"),
        (23, "demand C1 B week 1 100000 grams"),
    ]);
    assert_eq!(written, small);
}

#[test]
fn kilograms_may_have_decimals() {
    let grams = |line: &str| plant_after(&[(19, line)]).opening_inventory[0];
    assert_eq!(grams("opening-inventory A 1 kilogram"), 1000);
    assert_eq!(grams("opening-inventory A 1.5 kilograms"), 1500);
    assert_eq!(grams("opening-inventory A 0.001 kilograms"), 1);
    assert_eq!(grams("opening-inventory A 12.3450 kilograms"), 12_345);
    assert_eq!(grams("opening-inventory A 1 gram"), 1);
    assert_eq!(grams("opening-inventory A 7.0 grams"), 7);
}

#[test]
fn what_is_not_written_is_0() {
    let small = plant_after(&[]);
    // Opening numbers of 0 need no lines.
    assert_eq!(plant_after(&[(19, ""), (20, "")]), small);
    // Without demand there is no need of a price.
    let plant = plant_after(&[(16, ""), (18, ""), (23, ""), (24, "demand C1 B week 2 0")]);
    assert_eq!(plant.demand, [400_000, 300_000, 0, 0]);
    assert_eq!(plant.prices, [10, 0]);
    assert_eq!(plant.backlog_costs, [2, 0]);
}

/// Either line makes a plant of kind 4; what the other would say is not left open.
#[test]
fn the_week_before_may_be_written() {
    for (lines, mounted, shut) in [
        (["mounted B", ""], Some(1), false),
        (["mounted A", "week-before producing"], Some(0), false),
        (["week-before shut", "mounted B"], Some(1), true),
        (["", "week-before shut"], None, true),
        (["week-before producing", ""], None, false),
    ] {
        let plant = plant_after(&[(19, lines[0]), (20, lines[1])]);
        assert_eq!(plant.week_before, Some(WeekBefore { mounted, shut }), "{lines:?}");
        assert_eq!(Plant { week_before: None, ..plant }, plant_after(&[]), "{lines:?}");
    }
}

#[test]
fn order_space_and_comments_do_not_matter() {
    let small = plant_after(&[]);
    let mut lines = texts::PLANT.to_vec();
    // The products keep their order, and with it their numbers.
    lines.reverse();
    lines.retain(|line| !line.starts_with("product"));
    lines.extend(["product A", "product B"]);
    let text = lines.join("  # why\r\n\r\n\t");
    let text = format!("\u{feff}# a plant\n{text}");
    let (plant, _) = plant_text::read(text.as_bytes()).expect("a good text");
    assert_eq!(plant, small);
}

#[test]
fn names_are_any_words() {
    let text = texts::changed(&texts::PLANT, &[])
        .replace("A", "Größe-1")
        .replace("B", "week")
        .replace("C1", "Größe-1");
    let (plant, names) = plant_text::read(text.as_bytes()).expect("a good text");
    assert_eq!(plant, plant_after(&[]));
    assert_eq!(names.products, ["Größe-1", "week"]);
    assert_eq!(names.customers, ["Größe-1"]);
    let written = plant_text::write(&plant, &names);
    assert_eq!(plant_text::read(written.as_bytes()), Ok((plant, names)));
}

#[test]
fn sales_that_are_not_written_are_0() {
    let (plant, names) =
        plant_text::read(texts::changed(&texts::PLANT, &[]).as_bytes()).expect("a good text");
    let text = texts::changed(&texts::SLOTS, &[(4, ""), (10, "sell C1 B 0.5 kilograms")]);
    let slots = slots_text::read(plant.sizes, &names, text.as_bytes()).expect("a good text");
    assert_eq!(slots.sales, [0, 300_000, 100_000, 500]);
}
