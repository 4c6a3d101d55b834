//! The plant of the weeks that remain of a plan, with new rates.

use crate::forms::{at_most, most_opening_backlog, read_rates, refuse_unless};
use crate::model::{OpeningLine, Plan, Plant, Refusal, Sizes};

/// The plant after the first `k` weeks of a plan that passes: 61, then rows 4 and
/// 5 of the list of rates, then 62.
pub fn roll(plant: &Plant, plan: &Plan, k: u64, rates: &[u8]) -> Result<Plant, Refusal> {
    let run = weeks_run(plant.sizes, k).ok_or(61u32)?;
    let rates = read_rates(plant.sizes, rates)?;
    let rolled = remaining(plant, plan, run, rates);
    let most = most_opening_backlog(rolled.kind());
    refuse_unless(at_most(&rolled.opening_backlog, most), 62)?;
    Ok(rolled)
}

/// How many weeks have run: at least one has, and at least one remains.
fn weeks_run(sizes: Sizes, k: u64) -> Option<usize> {
    usize::try_from(k).ok().filter(|run| (1..sizes.weeks).contains(run))
}

/// The plant of the weeks after the first `run`.
fn remaining(plant: &Plant, plan: &Plan, run: usize, rates: Vec<u32>) -> Plant {
    let sizes = plant.sizes;
    let last_run = run - 1;
    let demand = plant.demand.chunks_exact(sizes.weeks).flat_map(|weeks| &weeks[run..]);
    let backlog = plan.backlog.chunks_exact(sizes.weeks).map(|weeks| weeks[last_run]);
    Plant {
        sizes: Sizes { weeks: sizes.weeks - run, ..sizes },
        rates,
        demand: demand.copied().collect(),
        opening_inventory: plan.inventory[sizes.week_row(last_run)].to_vec(),
        opening_backlog: backlog.collect(),
        opening_line: Some(OpeningLine {
            mounted: mounted_after(plant, plan, run),
            was_shut: u8::from(plan.is_shut(sizes, last_run)),
        }),
        ..plant.clone()
    }
}

/// What is mounted after the first `run` weeks, or 255: the last product of their
/// last producing week, else the plant's own.
fn mounted_after(plant: &Plant, plan: &Plan, run: usize) -> u8 {
    let products = plant.sizes.products;
    // A shut week has no mark of L, a producing week has one.
    let weeks = plan.last[..run * products].chunks_exact(products);
    let last_products = weeks.flat_map(|marks| (0u8..).zip(marks).filter(|&(_, &mark)| mark == 1));
    match (last_products.last(), plant.opening_line) {
        (Some((product, _)), _) => product,
        (None, Some(line)) => line.mounted,
        (None, None) => 255,
    }
}
