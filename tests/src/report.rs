//! What `planreport` prints of two files.

use crate::forms::{read_plan, read_plant};
use crate::model::{Plan, Plant};
use crate::reference::{check, shown};

/// Bytes that the program reads of a file; what lies beyond is not seen.
pub const READ_LENGTH: usize = 65_536;

/// The whole text: the profit and a line for each slot, or the refusal.
pub fn text(plant: &[u8], plan: &[u8]) -> String {
    let (plant, plan) = (read_part(plant), read_part(plan));
    match check(plant, plan) {
        Ok(profit) => format!("passed {profit}\n{}", schedule(plant, plan)),
        Err(refusal) => format!("refused {refusal}\n"),
    }
}

fn read_part(file: &[u8]) -> &[u8] {
    &file[..file.len().min(READ_LENGTH)]
}

/// The slot lines of two files that pass.
fn schedule(plant: &[u8], plan: &[u8]) -> String {
    let plant = read_plant(plant).expect("a plant that was checked");
    let plan = read_plan(&plant, plan).expect("a plan that was checked");
    slot_lines(&plant, &plan).concat()
}

/// One line for each slot in running order: week from 1, product, changeover
/// minutes, start and end of the run. A shut week has no line.
fn slot_lines(plant: &Plant, plan: &Plan) -> Vec<String> {
    let mut lines = Vec::new();
    // The line keeps the product mounted from week to week, into the first week too.
    let mut mounted = plant.mounted();
    for (week, row) in (1..).zip(shown(plant.sizes, plan).rows()) {
        let mut clock = 0u64;
        for slot in row {
            let product = usize::from(slot.product);
            let changeover = mounted
                .map_or(0, |from| plant.changeover_minutes[plant.sizes.from_to(from, product)]);
            let start = clock + u64::from(changeover);
            let end = start + u64::from(slot.minutes);
            lines.push(format!("{week} {product} {changeover} {start} {end}\n"));
            mounted = Some(product);
            clock = end;
        }
    }
    lines
}
