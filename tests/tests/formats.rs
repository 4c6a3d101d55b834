//! `docs/FORMATS.md`: the example is the small plant's files, and the lengths
//! that it names are those of the greatest plant's files.

use std::fs;
use std::path::Path;

use doxkarin_tests::model::{Plan, Plant, Slot, Slots};
use doxkarin_tests::scenario::greatest_sizes;
use doxkarin_tests::{reference, rolls, samples, small};

fn document() -> String {
    let path = Path::new(env!("CARGO_MANIFEST_DIR")).join("../docs/FORMATS.md");
    fs::read_to_string(path).expect("the document")
}

/// A number of some bytes of a file.
fn number(bytes: &[u8]) -> u64 {
    bytes.iter().rev().fold(0, |number, &byte| 256 * number + u64::from(byte))
}

/// The lines of a file's table in the document. A section repeats its widths.
fn table(file: &[u8], widths: &[&[usize]]) -> String {
    let mut lines = Vec::new();
    for (entry, widths) in file[2..].chunks(9).zip(widths) {
        let (offset, length) = (number(&entry[1..5]) as usize, number(&entry[5..]) as usize);
        let mut body = &file[offset..offset + length];
        let mut numbers = Vec::new();
        for &width in widths.iter().cycle() {
            if body.is_empty() {
                break;
            }
            let (first, rest) = body.split_at(width);
            numbers.push(number(first).to_string());
            body = rest;
        }
        lines.push(format!("| {} | {offset} | {length} | {} |\n", entry[0], numbers.join(" ")));
    }
    lines.concat()
}

#[test]
fn the_document_shows_the_small_plants_files() {
    let document = document();
    let (plant, plan) = (small::plant().encode(), small::plan().encode());
    let slots = small::slots().encode();
    let by_four: &[usize] = &[4];
    let mounted = small::mounted_plant().encode();
    let rates = rolls::rate_list(&small::plant().rates);
    let rolled =
        reference::rolled_plant_file(&plant, &plan, 1, &rates).expect("a plan that passes");
    let mut widths = [by_four; 12];
    (widths[0], widths[2], widths[10], widths[11]) = (&[1], &[2], &[2], &[1]);
    assert!(document.contains(&table(&plant, &widths[..11])));
    assert!(document.contains(&table(&mounted, &widths)));
    assert!(document.contains(&table(&rolled, &widths)));
    let mut widths = [by_four; 12];
    widths[..6].fill(&[1]);
    (widths[6], widths[11]) = (&[2], &[8]);
    assert!(document.contains(&table(&plan, &widths)));
    assert!(document.contains(&table(&slots, &[&[1], &[1, 2], by_four])));

    for line in slots.chunks(20) {
        let bytes: Vec<String> = line.iter().map(|byte| format!("{byte:02x}")).collect();
        assert!(document.contains(&format!("\n    {}\n", bytes.join(" "))));
    }
    let files = [
        (&plant, "Plant"),
        (&mounted, "Plant with B mounted"),
        (&rolled, "Plant after one week"),
        (&slots, "Slots"),
        (&plan, "Plan"),
    ];
    for (file, name) in files {
        let start = format!("{name}, {} bytes, `{:02x} {:02x}` ", file.len(), file[0], file[1]);
        assert!(document.contains(&start), "{start}");
    }
}

#[test]
fn the_document_names_the_greatest_lengths() {
    let sizes = greatest_sizes();
    let rows = vec![vec![Slot { product: 0, minutes: 0 }; sizes.products]; sizes.weeks];
    let plan = Plan::zeros(sizes);
    let plant = samples::least_plant(sizes);
    let mounted = Plant { opening_line: small::mounted_plant().opening_line, ..plant.clone() };
    let lengths = [
        plant.encode().len(),
        mounted.encode().len(),
        plan.encode().len(),
        Slots::from_rows(&rows, plan.sales).encode().len(),
    ];
    let document = document();
    for length in lengths {
        let length = format!("at most {},{:03}", length / 1000, length % 1000);
        assert!(document.contains(&length), "{length}");
    }
}
