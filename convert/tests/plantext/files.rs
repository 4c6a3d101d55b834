//! The sample files: good ones come back byte for byte, damaged ones are
//! refused with the number in their names.

use std::fs;

use plantext::binary::{self, RatesRefusal, Refusal};
use plantext::model::{Names, Plant, WeekBefore};
use plantext::{plant_text, rates_text, slots_text};

use crate::random::plant_of;
use crate::{read, repository};

/// The sample files whose names begin so, each with its number, 0 if good.
fn samples(kind: &str) -> Vec<(String, u8)> {
    let entries = fs::read_dir(repository("crates/formcheck/data")).expect("the data folder");
    let names =
        entries.map(|entry| entry.expect("an entry").file_name().into_string().expect("a name"));
    names
        .filter_map(|name| {
            let number = match name.strip_prefix(kind)? {
                ".bin" => 0,
                rest => rest.split('-').nth(1)?.parse().ok()?,
            };
            Some((name, number))
        })
        .collect()
}

fn read_sample(name: &str) -> Vec<u8> {
    read(&format!("crates/formcheck/data/{name}"))
}

fn small_plant() -> Plant {
    binary::decode_plant(&read_sample("plant.bin")).expect("the small plant")
}

/// A plant in kind 4, with its first product mounted.
fn in_kind_4(plant: Plant) -> Plant {
    Plant { week_before: Some(WeekBefore { mounted: Some(0), shut: false }), ..plant }
}

/// The small plant's files of kind 1 and of kind 4, each with where its contents end.
fn small_plant_files() -> [(Vec<u8>, usize); 2] {
    [(small_plant(), 101), (in_kind_4(small_plant()), 110)]
        .map(|(plant, end)| (binary::encode_plant(&plant), end))
}

#[test]
fn plant_files_have_their_numbers() {
    let samples = samples("plant");
    let mut numbers: Vec<u8> = samples.iter().map(|sample| sample.1).collect();
    numbers.sort();
    numbers.dedup();
    assert_eq!(numbers, [0, 1, 2, 3, 4, 5]);
    for (name, number) in samples {
        let file = read_sample(&name);
        match binary::decode_plant(&file) {
            Ok(plant) => {
                assert_eq!(number, 0, "{name}");
                assert_eq!(binary::encode_plant(&plant), file, "{name}");
            }
            Err(refusal) => assert_eq!(refusal, Refusal(number), "{name}"),
        }
    }
}

#[test]
fn slot_files_have_their_numbers() {
    let samples = samples("slots");
    let mut numbers: Vec<u8> = samples.iter().map(|sample| sample.1).collect();
    numbers.sort();
    numbers.dedup();
    assert_eq!(numbers, [0, 21, 22, 23, 24]);
    let sizes = small_plant().sizes;
    for (name, number) in samples {
        let file = read_sample(&name);
        match binary::decode_slots(sizes, &file) {
            Ok(slots) => {
                assert_eq!(number, 0, "{name}");
                assert_eq!(binary::encode_slots(&slots), file, "{name}");
            }
            Err(refusal) => assert_eq!(refusal, Refusal(number), "{name}"),
        }
    }
}

/// Row 5, number by number: the small plant with one number just out of range.
#[test]
fn every_number_of_a_plant_has_its_range() {
    let changes: [fn(&mut Plant); 18] = [
        |plant| plant.rates[1] = 0,
        |plant| plant.rates[1] = 100_001,
        |plant| plant.changeover_minutes[1] = 10_081,
        |plant| plant.changeover_minutes[3] = 1,
        |plant| plant.changeover_cents[2] = 1_000_001,
        |plant| plant.changeover_cents[0] = 1,
        |plant| plant.demand[3] = 100_000_001,
        |plant| plant.prices[1] = 100_001,
        |plant| plant.backlog_costs[1] = 100_001,
        |plant| plant.inventory_costs[1] = 100_001,
        |plant| plant.storage[1].least = 2_000_001,
        |plant| plant.storage[1].greatest = 4_000_000_001,
        |plant| plant.opening_inventory[1] = 4_000_000_001,
        |plant| plant.shortest_run = 0,
        |plant| plant.shortest_run = 10_081,
        |plant| plant.week_minutes = 0,
        |plant| plant.week_minutes = 299,
        |plant| plant.week_minutes = 10_081,
    ];
    for (place, change) in changes.iter().enumerate() {
        for mut plant in [small_plant(), in_kind_4(small_plant())] {
            change(&mut plant);
            let file = binary::encode_plant(&plant);
            assert_eq!(binary::decode_plant(&file), Err(Refusal(5)), "change {place}");
        }
    }
}

/// Row 5 of the opening backlog, which goes by the kind (request 2026-03).
#[test]
fn the_opening_backlog_has_its_range_by_the_kind() {
    for (plant, greatest) in
        [(small_plant(), 100_000_000), (in_kind_4(small_plant()), 1_600_000_000)]
    {
        for place in 0..plant.opening_backlog.len() {
            for (grams, good) in
                [(0, true), (greatest, true), (greatest + 1, false), (u32::MAX, false)]
            {
                let mut plant = plant.clone();
                plant.opening_backlog[place] = grams;
                let decoded = binary::decode_plant(&binary::encode_plant(&plant));
                assert_eq!(decoded, if good { Ok(plant) } else { Err(Refusal(5)) }, "{grams}");
            }
        }
    }
}

/// A list of another length is a 4, whatever its rates; a rate out of range a 5.
#[test]
fn lists_of_rates_have_their_numbers() {
    for products in 1..=16 {
        let sizes = plant_of(products).sizes;
        for rate in [0, 1, 100_000] {
            let stretched = binary::encode_rates(&[rate; 17]);
            for length in (0..=stretched.len()).filter(|&length| length != 4 * products) {
                let decoded = binary::decode_rates(sizes, &stretched[..length]);
                assert_eq!(decoded, Err(RatesRefusal::Length), "{products} products: {length}");
            }
        }
        for place in 0..products {
            for (rate, good) in
                [(0, false), (1, true), (100_000, true), (100_001, false), (u32::MAX, false)]
            {
                let mut rates = vec![7; products];
                rates[place] = rate;
                let decoded = binary::decode_rates(sizes, &binary::encode_rates(&rates));
                let expected = if good { Ok(rates) } else { Err(RatesRefusal::Range) };
                assert_eq!(decoded, expected, "{products} products: {rate} at {place}");
            }
        }
    }
}

/// Row 5 of section 12 (request 2026-02).
#[test]
fn the_week_before_has_its_range() {
    for products in [1, 2, 3, 15, 16] {
        let mut file = binary::encode_plant(&in_kind_4(plant_of(products)));
        let section_12 = file.len() - 2;
        for mounted in 0..=255 {
            for shut in [0, 1, 2, 255] {
                file[section_12..].copy_from_slice(&[mounted, shut]);
                let good = (usize::from(mounted) < products || mounted == 255) && shut <= 1;
                let expected = if good { Ok(file.clone()) } else { Err(Refusal(5)) };
                let decoded = binary::decode_plant(&file);
                let again = decoded.map(|plant| binary::encode_plant(&plant));
                assert_eq!(again, expected, "{products} products: {mounted} {shut}");
            }
        }
    }
}

/// Row 1: either kind has its count of sections and their numbers, and is no shorter
/// than its contents.
#[test]
fn every_kind_has_its_contents() {
    for (mut file, end) in small_plant_files() {
        for length in 0..file.len() {
            let number = if length < end { 1 } else { 2 };
            assert_eq!(binary::decode_plant(&file[..length]), Err(Refusal(number)), "{length}");
        }
        for entry in (2..end).step_by(9) {
            file[entry] += 1;
            assert_eq!(binary::decode_plant(&file), Err(Refusal(1)), "entry at {entry}");
            file[entry] -= 1;
        }
        let own = [file[0], file[1]];
        for kind in 0..=255 {
            for count in 0..=255 {
                file[..2].copy_from_slice(&[kind, count]);
                let refusal = match [kind, count] {
                    pair if pair == own => None,
                    // Kind 4 has the entries of kind 1, and one more before the bodies.
                    [1, 11] => Some(Refusal(2)),
                    _ => Some(Refusal(1)),
                };
                assert_eq!(binary::decode_plant(&file).err(), refusal, "{kind} {count}");
            }
        }
    }
}

/// Rows 2, 3 and 4 of a plant, in either kind.
#[test]
fn every_kind_has_its_counts_and_lengths() {
    for (file, end) in small_plant_files() {
        for (place, count) in [(0, 0), (0, 17), (1, 0), (1, 9), (2, 0), (2, 27)] {
            let mut file = file.clone();
            file[end + place] = count;
            assert_eq!(binary::decode_plant(&file), Err(Refusal(3)), "{place} {count}");
        }
        // The last section of another length, before its entry says so and after.
        let own = file[end - 4];
        for length in (0..own + 3).filter(|&length| length != own) {
            let mut file = file.clone();
            file.resize(file.len() - usize::from(own) + usize::from(length), 0);
            assert_eq!(binary::decode_plant(&file), Err(Refusal(2)), "{length} bytes");
            file[end - 4] = length;
            assert_eq!(binary::decode_plant(&file), Err(Refusal(4)), "{length} bytes");
        }
    }
}

/// Lengths that fit and offsets that do not, section by section.
#[test]
fn every_section_has_its_place() {
    // The contents begin at byte 2 with entries of 9 bytes, each with its offset at byte 1.
    for (file, end) in small_plant_files() {
        for entry in (2..end).step_by(9) {
            let mut file = file.clone();
            file[entry + 1] ^= 1;
            assert_eq!(binary::decode_plant(&file), Err(Refusal(2)), "entry at {entry}");
        }
    }
    for section in 0..3 {
        let mut file = read_sample("slots.bin");
        file[2 + 9 * section + 1] ^= 1;
        let decoded = binary::decode_slots(small_plant().sizes, &file);
        assert_eq!(decoded, Err(Refusal(22)), "section {section}");
    }
}

#[test]
fn files_are_told_from_texts() {
    let mut of_no_kind = read_sample("plant.bin");
    of_no_kind[0] = b'w';
    assert!(binary::is_binary(&of_no_kind));
    for name in ["plant.bin", "slots.bin", "plan.bin", "plant-1-empty.bin", "plant-1-kind.bin"] {
        assert!(binary::is_binary(&read_sample(name)), "{name}");
    }
    assert!(!binary::is_binary(&read("examples/small.plant.txt")));
    assert!(!binary::is_binary(b"\tweeks 2\n"));
}

#[test]
fn plant_files_are_told_by_their_kind() {
    for kind in 0..=255 {
        assert_eq!(binary::is_plant(&[kind]), kind == 1 || kind == 4, "{kind}");
    }
    assert!(!binary::is_plant(&[]));
}

#[test]
fn a_file_is_not_a_text() {
    let told = "the line is not text; expected UTF-8 without control characters";
    let faults = plant_text::read(&read_sample("plant.bin")).expect_err("no text");
    assert_eq!((faults[0].line, faults[0].message.as_str()), (1, told));
    let plant = small_plant();
    let names = Names::numbered(plant.sizes);
    let faults =
        slots_text::read(plant.sizes, &names, b"week 1\nrun P1 \xff\n").expect_err("no text");
    assert_eq!((faults[0].line, faults[0].message.as_str()), (2, told));
    let list = binary::encode_rates(&plant.rates);
    let faults = rates_text::read(&names, &list).expect_err("no text");
    assert_eq!((faults[0].line, faults[0].message.as_str()), (1, told));
}
