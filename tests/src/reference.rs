//! The four calls in the second implementation: files in, an answer or the
//! refusal out. Everything is read into vectors of its own first.

use crate::forms::{read_plan, read_plant, read_slots};
use crate::model::{Plan, Plant, Refusal, Sizes, Slot, Slots};
use crate::{machine, rolling, rules};

/// Level A: the profit of a plan that passes.
pub fn check(plant: &[u8], plan: &[u8]) -> Result<i64, Refusal> {
    passed(plant, plan).map(|(_, plan)| plan.profit)
}

/// Level B: writes the slot file of a plan that passes.
pub fn slots(plant: &[u8], plan: &[u8], out: &mut [u8]) -> Result<usize, Refusal> {
    write(&slot_file(plant, plan), out)
}

/// Level C: writes the plan file of a slot file's run.
pub fn plan(plant: &[u8], slots: &[u8], out: &mut [u8]) -> Result<usize, Refusal> {
    write(&plan_file(plant, slots), out)
}

/// Writes the plant file of the weeks that remain after the first `k` of a plan
/// that passes, with new rates.
pub fn roll(
    plant: &[u8],
    plan: &[u8],
    k: u64,
    rates: &[u8],
    out: &mut [u8],
) -> Result<usize, Refusal> {
    write(&rolled_plant_file(plant, plan, k, rates), out)
}

/// The slot file of a plan that passes.
pub fn slot_file(plant: &[u8], plan: &[u8]) -> Result<Vec<u8>, Refusal> {
    let (plant, plan) = passed(plant, plan)?;
    Ok(shown(plant.sizes, &plan).encode())
}

/// The plan file of a slot file's run.
pub fn plan_file(plant: &[u8], slots: &[u8]) -> Result<Vec<u8>, Refusal> {
    let plant = read_plant(plant)?;
    let slots = read_slots(&plant, slots)?;
    Ok(machine::run(&plant, &slots)?.encode())
}

/// The plant file of the weeks that remain after the first `k` of a plan that
/// passes, with new rates.
pub fn rolled_plant_file(
    plant: &[u8],
    plan: &[u8],
    k: u64,
    rates: &[u8],
) -> Result<Vec<u8>, Refusal> {
    let (plant, plan) = passed(plant, plan)?;
    Ok(rolling::roll(&plant, &plan, k, rates)?.encode())
}

/// The slots that a plan shows: each week's products in the order of O, with
/// their minutes, and the sales.
pub fn shown(sizes: Sizes, plan: &Plan) -> Slots {
    let mut slots = Slots { counts: Vec::new(), slots: Vec::new(), sales: plan.sales.clone() };
    for week in 0..sizes.weeks {
        let mut row: Vec<(u8, Slot)> = (0..sizes.products)
            .map(|product| (product, sizes.week_product(week, product)))
            .filter(|&(_, index)| plan.ran[index] == 1)
            .map(|(product, index)| {
                let product = u8::try_from(product).expect("at most 16 products");
                (plan.places[index], Slot { product, minutes: plan.minutes[index] })
            })
            .collect();
        row.sort_by_key(|&(place, _)| place);
        slots.counts.push(u8::try_from(row.len()).expect("at most 16 slots"));
        slots.slots.extend(row.into_iter().map(|(_, slot)| slot));
    }
    slots
}

/// Reads both files and tries the rules: a plant, and a plan that passes.
pub fn passed(plant: &[u8], plan: &[u8]) -> Result<(Plant, Plan), Refusal> {
    let plant = read_plant(plant)?;
    let plan = read_plan(&plant, plan)?;
    match rules::first_broken(&plant, &plan) {
        None => Ok((plant, plan)),
        Some(rule) => Err(rule),
    }
}

/// Puts the file, if there is one, at the start of an output with room for it.
pub fn write(file: &Result<Vec<u8>, Refusal>, out: &mut [u8]) -> Result<usize, Refusal> {
    let file = file.as_ref().map_err(|&refusal| refusal)?;
    out.get_mut(..file.len()).ok_or(51u32)?.copy_from_slice(file);
    Ok(file.len())
}
