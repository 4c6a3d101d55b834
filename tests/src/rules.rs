//! The rules 31 to 41 over a plant and a plan.

use crate::model::{Plan, Plant, Refusal, Sizes};

/// Whether a plan of the plant meets a rule, whatever the other rules say.
pub type Rule = fn(&Plant, &Plan) -> bool;

/// Every rule with its number, in checking order.
pub const RULES: [(Refusal, Rule); 11] = [
    (31, one_first_and_one_last),
    (32, changeovers_join_runs),
    (33, opening_changeovers_join_weeks),
    (34, places_rise),
    (35, runs_within_limits),
    (36, weeks_within_minutes),
    (37, production_matches_minutes),
    (38, backlog_balances),
    (39, inventory_balances),
    (40, inventory_within_storage),
    (41, profit_adds_up),
];

/// The number of the first rule that the plan breaks.
pub fn first_broken(plant: &Plant, plan: &Plan) -> Option<Refusal> {
    RULES.iter().find(|(_, is_met)| !is_met(plant, plan)).map(|&(number, _)| number)
}

/// Row 31: each producing week has one first and one last product, each of
/// which ran.
pub fn one_first_and_one_last(plant: &Plant, plan: &Plan) -> bool {
    let sizes = plant.sizes;
    let one_that_ran = |marks: &[u8], week| {
        let marked: Vec<usize> =
            week_products(sizes, week).filter(|&place| marks[place] != 0).collect();
        matches!(marked[..], [place] if plan.ran[place] == 1)
    };
    (0..sizes.weeks).all(|week| {
        plan.is_shut(sizes, week)
            || (one_that_ran(&plan.first, week) && one_that_ran(&plan.last, week))
    })
}

/// Row 32: within the week no product changes to itself, every run but the
/// first has one changeover into it, and every run but the last one out of it.
pub fn changeovers_join_runs(plant: &Plant, plan: &Plan) -> bool {
    let sizes = plant.sizes;
    week_and_product(sizes).all(|(week, product)| {
        let place = sizes.week_product(week, product);
        let ran = i64::from(plan.ran[place]);
        let diagonal = plan.changeovers[sizes.week_from_to(week, product, product)];
        diagonal == 0
            && sum_into(sizes, &plan.changeovers, week, product)
                == ran - i64::from(plan.first[place])
            && sum_out_of(sizes, &plan.changeovers, week, product)
                == ran - i64::from(plan.last[place])
    })
}

/// Row 33: a producing week opens with one changeover from the last product of
/// the producing week before, however many shut weeks lie between, to its own
/// first; the first producing week with one from what is mounted before week 0.
/// None opens a shut week, or the first producing week where nothing is mounted.
pub fn opening_changeovers_join_weeks(plant: &Plant, plan: &Plan) -> bool {
    let sizes = plant.sizes;
    let marks = &plan.opening_changeovers;
    let is_producing = |week: &usize| !plan.is_shut(sizes, *week);
    (0..sizes.weeks).all(|week| {
        let before = (0..week).rev().find(is_producing);
        let is_opened = is_producing(&week) && (before.is_some() || plant.mounted().is_some());
        (0..sizes.products).all(|product| {
            let first = plan.first[sizes.week_product(week, product)];
            let mounted = match before {
                None => u8::from(plant.mounted() == Some(product)),
                Some(before) => plan.last[sizes.week_product(before, product)],
            };
            let (into, out_of) = if is_opened { (first, mounted) } else { (0, 0) };
            sum_into(sizes, marks, week, product) == i64::from(into)
                && sum_out_of(sizes, marks, week, product) == i64::from(out_of)
        })
    })
}

/// Row 34: a product that did not run has place 0, one that ran has a place
/// from 1 to the count of the week's runs, and places rise along changeovers.
pub fn places_rise(plant: &Plant, plan: &Plan) -> bool {
    let sizes = plant.sizes;
    (0..sizes.weeks).all(|week| {
        let runs = week_products(sizes, week).filter(|&place| plan.ran[place] == 1).count();
        let position = |product| usize::from(plan.places[sizes.week_product(week, product)]);
        let in_bounds =
            (0..sizes.products).all(|product| match plan.ran[sizes.week_product(week, product)] {
                0 => position(product) == 0,
                _ => (1..=runs).contains(&position(product)),
            });
        let rising = from_and_to(sizes).all(|(from, to)| {
            plan.changeovers[sizes.week_from_to(week, from, to)] == 0
                || position(to) > position(from)
        });
        in_bounds && rising
    })
}

/// Row 35: a run lasts from the shortest run to the week's minutes, and a
/// product that did not run has no minutes.
pub fn runs_within_limits(plant: &Plant, plan: &Plan) -> bool {
    plan.ran.iter().zip(&plan.minutes).all(|(&ran, &minutes)| {
        let ran = u64::from(ran);
        let least = u64::from(plant.shortest_run) * ran;
        let greatest = u64::from(plant.week_minutes) * ran;
        (least..=greatest).contains(&u64::from(minutes))
    })
}

/// Row 36: the week's runs and changeovers fit into its minutes.
pub fn weeks_within_minutes(plant: &Plant, plan: &Plan) -> bool {
    let sizes = plant.sizes;
    (0..sizes.weeks).all(|week| {
        let runs: u64 =
            week_products(sizes, week).map(|place| u64::from(plan.minutes[place])).sum();
        let changeovers: u64 = from_and_to(sizes)
            .map(|(from, to)| {
                let minutes = plant.changeover_minutes[sizes.from_to(from, to)];
                changeover_count(sizes, plan, week, from, to) * u64::from(minutes)
            })
            .sum();
        runs + changeovers <= u64::from(plant.week_minutes)
    })
}

/// Row 37: production is rate times minutes.
pub fn production_matches_minutes(plant: &Plant, plan: &Plan) -> bool {
    let sizes = plant.sizes;
    week_and_product(sizes).all(|(week, product)| {
        let place = sizes.week_product(week, product);
        let produced = u64::from(plant.rates[product]) * u64::from(plan.minutes[place]);
        u64::from(plan.grams[place]) == produced
    })
}

/// Row 38: backlog is the backlog before plus demand less sales.
pub fn backlog_balances(plant: &Plant, plan: &Plan) -> bool {
    let sizes = plant.sizes;
    week_and_product(sizes).all(|(week, product)| {
        (0..sizes.customers).all(|customer| {
            let place = sizes.customer_product_week(customer, product, week);
            let before = match week {
                0 => plant.opening_backlog[sizes.customer_product(customer, product)],
                _ => plan.backlog[sizes.customer_product_week(customer, product, week - 1)],
            };
            let demand = i64::from(plant.demand[place]);
            let sale = i64::from(plan.sales[place]);
            i64::from(plan.backlog[place]) == i64::from(before) + demand - sale
        })
    })
}

/// Row 39: inventory is the inventory before plus production less the sales to
/// all customers.
pub fn inventory_balances(plant: &Plant, plan: &Plan) -> bool {
    let sizes = plant.sizes;
    week_and_product(sizes).all(|(week, product)| {
        let place = sizes.week_product(week, product);
        let before = match week {
            0 => plant.opening_inventory[product],
            _ => plan.inventory[sizes.week_product(week - 1, product)],
        };
        let sales: i64 = (0..sizes.customers)
            .map(|customer| sizes.customer_product_week(customer, product, week))
            .map(|sale| i64::from(plan.sales[sale]))
            .sum();
        let produced = i64::from(plan.grams[place]);
        i64::from(plan.inventory[place]) == i64::from(before) + produced - sales
    })
}

/// Row 40: inventory is within the product's storage.
pub fn inventory_within_storage(plant: &Plant, plan: &Plan) -> bool {
    let sizes = plant.sizes;
    week_and_product(sizes).all(|(week, product)| {
        let limits = plant.storage[product];
        let inventory = plan.inventory[sizes.week_product(week, product)];
        (limits.least..=limits.greatest).contains(&inventory)
    })
}

/// Row 41: the stated profit is the profit of the tables.
pub fn profit_adds_up(plant: &Plant, plan: &Plan) -> bool {
    i128::from(plan.profit) == profit(plant, plan)
}

/// The profit of the tables in thousandths of a cent: sales less changeovers,
/// backlog and inventory, over all weeks.
pub fn profit(plant: &Plant, plan: &Plan) -> i128 {
    sales_revenue(plant, plan)
        - changeover_cost(plant, plan)
        - backlog_cost(plant, plan)
        - inventory_cost(plant, plan)
}

fn sales_revenue(plant: &Plant, plan: &Plan) -> i128 {
    over_customers(plant.sizes, &plant.prices, &plan.sales)
}

fn backlog_cost(plant: &Plant, plan: &Plan) -> i128 {
    over_customers(plant.sizes, &plant.backlog_costs, &plan.backlog)
}

/// Counts once per product and week.
fn inventory_cost(plant: &Plant, plan: &Plan) -> i128 {
    let sizes = plant.sizes;
    week_and_product(sizes)
        .map(|(week, product)| {
            let inventory = plan.inventory[sizes.week_product(week, product)];
            i128::from(plant.inventory_costs[product]) * i128::from(inventory)
        })
        .sum()
}

fn changeover_cost(plant: &Plant, plan: &Plan) -> i128 {
    let sizes = plant.sizes;
    (0..sizes.weeks)
        .flat_map(|week| from_and_to(sizes).map(move |(from, to)| (week, from, to)))
        .map(|(week, from, to)| {
            let cents = plant.changeover_cents[sizes.from_to(from, to)];
            let count = changeover_count(sizes, plan, week, from, to);
            1000 * i128::from(cents) * i128::from(count)
        })
        .sum()
}

/// Cents per kilogram by customer and product, times grams by customer,
/// product and week.
fn over_customers(sizes: Sizes, cents: &[u32], grams: &[u32]) -> i128 {
    let by_week = grams.chunks_exact(sizes.weeks);
    cents
        .iter()
        .zip(by_week)
        .map(|(&cents, row)| {
            i128::from(cents) * row.iter().map(|&grams| i128::from(grams)).sum::<i128>()
        })
        .sum()
}

/// How often the week has this changeover, at its opening and within it.
fn changeover_count(sizes: Sizes, plan: &Plan, week: usize, from: usize, to: usize) -> u64 {
    let place = sizes.week_from_to(week, from, to);
    u64::from(plan.changeovers[place]) + u64::from(plan.opening_changeovers[place])
}

/// The week's sum of marks into a product.
fn sum_into(sizes: Sizes, marks: &[u8], week: usize, to: usize) -> i64 {
    let marks_into = (0..sizes.products).map(|from| marks[sizes.week_from_to(week, from, to)]);
    marks_into.map(i64::from).sum()
}

/// The week's sum of marks out of a product.
fn sum_out_of(sizes: Sizes, marks: &[u8], week: usize, from: usize) -> i64 {
    let marks_out = (0..sizes.products).map(|to| marks[sizes.week_from_to(week, from, to)]);
    marks_out.map(i64::from).sum()
}

/// The week's places in a table by week and product.
fn week_products(sizes: Sizes, week: usize) -> impl Iterator<Item = usize> {
    (0..sizes.products).map(move |product| sizes.week_product(week, product))
}

fn week_and_product(sizes: Sizes) -> impl Iterator<Item = (usize, usize)> {
    (0..sizes.weeks).flat_map(move |week| (0..sizes.products).map(move |product| (week, product)))
}

fn from_and_to(sizes: Sizes) -> impl Iterator<Item = (usize, usize)> {
    (0..sizes.products).flat_map(move |from| (0..sizes.products).map(move |to| (from, to)))
}
