//! The third demand by brute force, on tiny plants: among all plans of a grid,
//! those that pass are exactly those that the runs give, and each gives the one
//! slot file back.
//!
//! All slot files with a few minutes and sales are run, with weeks shut in every
//! way among them. Then plan files are made whose numbers take all values of small
//! sets, the values of the runs among them. Where all tables together are too many,
//! either the marks and places vary over the numbers of each run, or the numbers
//! over the marks of each run. Most plants are tried with nothing mounted, and
//! then with each product.
//!
//! Rolling on by brute force: after every count of weeks of every plan that the runs
//! give, every slot file of the weeks that remain runs on the rolled plant as it does
//! after the first weeks in the whole run, with the same tables or the same stop.

use std::collections::{BTreeMap, BTreeSet};
use std::ops::Range;

use doxkarin_tests::forms::{read_plan, read_plant, read_slots};
use doxkarin_tests::model::{OpeningLine, Plant, Refusal, Sizes, Slot, Slots, Storage};
use doxkarin_tests::rolls::rate_list;
use doxkarin_tests::{horizon, library, reference, samples};

type File = Vec<u8>;

/// A plant with small numbers: one gram a minute, weeks of 4 minutes.
fn tiny_plant(products: usize, customers: usize, weeks: usize) -> Plant {
    let sizes = Sizes { products, customers, weeks };
    let mut plant = samples::least_plant(sizes);
    plant.week_minutes = 4;
    plant.demand.fill(1);
    plant.prices.fill(4);
    plant.backlog_costs.fill(2);
    plant.inventory_costs.fill(1);
    plant.storage.fill(Storage { least: 0, greatest: 2 });
    for from in 0..products {
        for to in 0..products {
            plant.changeover_minutes[sizes.from_to(from, to)] = u16::from(from != to);
        }
    }
    plant
}

/// The plant with each product mounted before week 0. A changeover costs a cent.
fn each_mounted(plant: &Plant) -> Vec<Plant> {
    let sizes = plant.sizes;
    let mut plant = plant.clone();
    for from in 0..sizes.products {
        for to in (0..sizes.products).filter(|&to| to != from) {
            plant.changeover_cents[sizes.from_to(from, to)] = 1;
        }
    }
    let line = |product| OpeningLine { mounted: product, was_shut: product % 2 };
    (0..sizes.products as u8)
        .map(|product| Plant { opening_line: Some(line(product)), ..plant.clone() })
        .collect()
}

/// The plant with nothing mounted, as it is, and then with each product.
fn bare_and_each_mounted(bare: &Plant) -> Vec<Plant> {
    [vec![bare.clone()], each_mounted(bare)].concat()
}

/// Every list of up to `most` slots with these minutes, the empty one of a shut
/// week among them, also of one product twice.
fn rows(products: usize, most: usize, minutes: &[u16]) -> Vec<Vec<Slot>> {
    let mut rows: Vec<Vec<Slot>> = vec![Vec::new()];
    let mut longest = vec![Vec::new()];
    for _ in 0..most {
        let mut longer = Vec::new();
        for row in &longest {
            for product in 0..products as u8 {
                for &minutes in minutes {
                    let mut row: Vec<Slot> = row.clone();
                    row.push(Slot { product, minutes });
                    longer.push(row);
                }
            }
        }
        rows.extend(longer.iter().cloned());
        longest = longer;
    }
    rows
}

/// Every list of `count` of these values.
fn lists<Value: Clone>(values: &[Value], count: usize) -> Vec<Vec<Value>> {
    let mut lists = vec![Vec::new()];
    for _ in 0..count {
        lists = lists
            .into_iter()
            .flat_map(|list| {
                values.iter().map(move |value| [list.clone(), vec![value.clone()]].concat())
            })
            .collect();
    }
    lists
}

/// Runs every slot file with these minutes and sales: the plan files of those
/// that do not stop, each with its slot file.
fn runs(plant: &Plant, minutes: &[u16], sales: &[u32]) -> BTreeMap<File, File> {
    let products = plant.sizes.products;
    runs_of_rows(plant, &rows(products, products, minutes), sales)
}

/// The same of every slot file whose weeks are these lists of slots.
fn runs_of_rows(plant: &Plant, rows: &[Vec<Slot>], sales: &[u32]) -> BTreeMap<File, File> {
    let Sizes { products, customers, weeks } = plant.sizes;
    let plant_file = plant.encode();
    let all_sales = lists(sales, customers * products * weeks);
    let mut given = BTreeMap::new();
    for weeks in lists(rows, weeks) {
        for sales in &all_sales {
            let slot_file = Slots::from_rows(&weeks, sales.clone()).encode();
            let expected = reference::plan_file(&plant_file, &slot_file);
            let mut out = vec![0xa5; 1000];
            let answer = library::plan(&plant_file, &slot_file, &mut out);
            assert_eq!(answer, expected.as_ref().map(File::len).map_err(|&refusal| refusal));
            if let Ok(length) = answer {
                out.truncate(length);
                assert!(given.insert(out, slot_file).is_none(), "two slot files give one plan");
            }
        }
    }
    given
}

/// A number of a file with the values that it takes.
#[derive(Clone, Debug)]
struct Cell {
    offset: usize,
    width: usize,
    values: Vec<i64>,
}

impl Cell {
    fn set(&self, file: &mut [u8], value: i64) {
        file[self.offset..self.offset + self.width]
            .copy_from_slice(&value.to_le_bytes()[..self.width]);
    }
}

/// The width of the numbers of each section of a plan.
const WIDTHS: [usize; 12] = [1, 1, 1, 1, 1, 1, 2, 4, 4, 4, 4, 8];

/// A section, counted from 0, with the values that its numbers take.
type Values<'values> = (usize, &'values [i64]);

/// The cells of these sections of plan files.
fn cells(given: &BTreeMap<File, File>, sections: &[Values]) -> Vec<Cell> {
    let file = given.keys().next().expect("some slot file runs");
    let places = contents(file);
    let mut cells = Vec::new();
    for &(section, values) in sections {
        let width = WIDTHS[section];
        let (offset, length) = places[section];
        for offset in (offset..offset + length).step_by(width) {
            cells.push(Cell { offset, width, values: values.to_vec() });
        }
    }
    cells
}

/// Offset and length of each body.
fn contents(file: &[u8]) -> Vec<(usize, usize)> {
    let number = |place: usize| {
        let bytes = file[place..place + 4].try_into().expect("four bytes");
        u32::from_le_bytes(bytes) as usize
    };
    (0..WIDTHS.len())
        .map(|entry| 2 + 9 * entry)
        .map(|at| (number(at + 1), number(at + 5)))
        .collect()
}

/// Every file with these cells at all their values.
fn for_each_file(file: &mut [u8], cells: &[Cell], visit: &mut impl FnMut(&[u8])) {
    match cells {
        [] => visit(file),
        [cell, rest @ ..] => {
            for &value in &cell.values {
                cell.set(file, value);
                for_each_file(file, rest, visit);
            }
        }
    }
}

/// The plans that pass, among those that were tried.
struct Passed<'plant> {
    plant: &'plant [u8],
    given: &'plant BTreeMap<File, File>,
    passed: BTreeSet<File>,
    tried: u64,
}

impl<'plant> Passed<'plant> {
    fn new(plant: &'plant [u8], given: &'plant BTreeMap<File, File>) -> Self {
        Passed { plant, given, passed: BTreeSet::new(), tried: 0 }
    }

    fn try_plan(&mut self, plan: &[u8]) {
        self.tried += 1;
        if library::check(self.plant, plan).is_ok() && !self.passed.contains(plan) {
            assert!(self.given.contains_key(plan), "no slot file gives {plan:?}");
            self.passed.insert(plan.to_vec());
        }
    }

    /// Every plan with the cells at all their values, over each plan of the runs.
    /// Plans that differ in the cells only are gone through once.
    fn try_around(&mut self, cells: &[Cell]) {
        let mut seen = BTreeSet::new();
        for plan in self.given.keys() {
            let mut file = plan.clone();
            for cell in cells {
                cell.set(&mut file, 0);
            }
            if seen.insert(file.clone()) {
                for_each_file(&mut file, cells, &mut |plan| self.try_plan(plan));
            }
        }
    }

    /// Every plan with both cells at all their values, over one plan.
    fn try_pair(&mut self, plan: &[u8], one: &Cell, other: &Cell) {
        let pair = [one.clone(), other.clone()];
        for_each_file(&mut plan.to_vec(), &pair, &mut |plan| self.try_plan(plan));
    }

    /// Asserts that the plans that passed are all those of the runs, as many as
    /// expected, and that the slots of each are its slot file.
    fn assert_all(self, at_least_tried: u64, passed: usize) {
        let all: BTreeSet<File> = self.given.keys().cloned().collect();
        assert!(self.passed == all, "{} passed, {} given", self.passed.len(), all.len());
        assert_eq!(all.len(), passed);
        for (plan, slots) in self.given {
            assert_eq!(library::check(self.plant, plan), Ok(profit(plan)));
            let mut out = vec![0xa5; slots.len()];
            assert_eq!(library::slots(self.plant, plan, &mut out), Ok(slots.len()));
            assert!(out == *slots);
        }
        println!("{} plans tried, {} passed", self.tried, self.passed.len());
        assert!(self.tried >= at_least_tried, "{} plans tried", self.tried);
    }
}

const MARKS: &[i64] = &[0, 1];

/// The profit that a plan file has.
fn profit(plan: &[u8]) -> i64 {
    i64::from_le_bytes(plan[plan.len() - 8..].try_into().expect("eight bytes"))
}

/// Profits of the runs, and each with one more.
fn profits(given: &BTreeMap<File, File>) -> Vec<i64> {
    let found: BTreeSet<i64> =
        given.keys().map(|plan| profit(plan)).flat_map(|profit| [profit, profit + 1]).collect();
    found.into_iter().collect()
}

/// The values of each section's numbers, where the marks are 0 or 1.
fn values<'values>(
    places: &'values [i64],
    minutes: &'values [i64],
    grams: &'values [i64],
    profits: &'values [i64],
) -> [Values<'values>; 12] {
    [
        (0, MARKS),
        (1, MARKS),
        (2, MARKS),
        (3, MARKS),
        (4, MARKS),
        (5, places),
        (6, minutes),
        (7, minutes),
        (8, grams),
        (9, grams),
        (10, grams),
        (11, profits),
    ]
}

fn numbers(values: impl IntoIterator<Item = impl Into<i64>>) -> Vec<i64> {
    values.into_iter().map(Into::into).collect()
}

/// All values of all tables at once.
fn assert_whole_grid(plant: &Plant, minutes: &[u16], sales: &[u32], least: u64, passing: usize) {
    let given = runs(plant, minutes, sales);
    let (minutes, grams) = (numbers(minutes.to_vec()), numbers(sales.to_vec()));
    let (places, profits) = (numbers(0..=2), profits(&given));
    let cells = cells(&given, &values(&places, &minutes, &grams, &profits));
    let plant_file = plant.encode();
    let mut passed = Passed::new(&plant_file, &given);
    passed.try_around(&cells);
    passed.assert_all(least, passing);
}

/// The sections of marks and places, and those of numbers, counted from 0.
const STRUCTURE: Range<usize> = 0..6;
const AMOUNTS: Range<usize> = 6..12;

/// All values of these sections over the others of each run.
fn assert_grid(plant: &Plant, sales: &[u32], sections: Range<usize>, least: u64, passing: usize) {
    let minutes = [0, 1, 2, 3];
    let given = runs(plant, &minutes, sales);
    let (minutes, grams) = (numbers(minutes), numbers(sales.to_vec()));
    let (places, profits) = (numbers(0..=plant.sizes.products as i64 + 1), profits(&given));
    let values = values(&places, &minutes, &grams, &profits);
    let plant_file = plant.encode();
    let mut passed = Passed::new(&plant_file, &given);
    passed.try_around(&cells(&given, &values[sections]));
    passed.assert_all(least, passing);
}

/// All marks and places over the numbers of each run, and all numbers over the
/// marks and places of each run.
fn assert_two_grids(plant: &Plant, least: u64, passing: usize) {
    for sections in [STRUCTURE, AMOUNTS] {
        assert_grid(plant, &[0, 1, 2], sections, least, passing);
    }
}

#[test]
fn one_product_one_customer_one_week() {
    for plant in bare_and_each_mounted(&tiny_plant(1, 1, 1)) {
        assert_whole_grid(&plant, &[0, 1, 2, 3, 4, 5], &[0, 1, 2, 3], 1_000_000, 6);
    }
}

#[test]
fn one_product_two_customers_one_week() {
    for plant in bare_and_each_mounted(&tiny_plant(1, 2, 1)) {
        assert_whole_grid(&plant, &[0, 1, 2, 3], &[0, 1, 2], 1_000_000, 11);
    }
}

#[test]
fn one_product_two_weeks() {
    let bare = tiny_plant(1, 1, 2);
    assert_two_grids(&bare, 100_000, 36);
    for plant in each_mounted(&bare) {
        assert_grid(&plant, &[0, 1, 2], STRUCTURE, 100_000, 36);
    }
}

#[test]
fn two_products_one_week() {
    let bare = tiny_plant(2, 1, 1);
    assert_two_grids(&bare, 1_000_000, 35);
    for plant in each_mounted(&bare) {
        assert_grid(&plant, &[0, 1, 2], STRUCTURE, 1_000_000, 27);
    }
    // All numbers too, with less room for stock.
    let storage = vec![Storage { least: 0, greatest: 1 }; 2];
    for plant in each_mounted(&Plant { storage, ..bare }) {
        assert_grid(&plant, &[0, 1], AMOUNTS, 100_000, 19);
    }
}

/// Three products that all run for a minute: of all F, L, Z and O only the six
/// orders pass, and no ring.
#[test]
fn three_products_have_six_orders() {
    let mut plant = tiny_plant(3, 1, 1);
    plant.week_minutes = 5;
    let given = runs(&plant, &[0, 1, 2], &[1]);
    let places = numbers(0..=3);
    let values: [Values; 4] = [(1, MARKS), (2, MARKS), (3, MARKS), (5, &places)];
    let plant_file = plant.encode();
    let mut passed = Passed::new(&plant_file, &given);
    passed.try_around(&cells(&given, &values));
    passed.assert_all(2_000_000, 6);
}

/// Three products that all run for a minute after one that is mounted: of all F, L
/// and ZF only the six orders pass, each with the changeover into its first product.
#[test]
fn three_products_have_six_orders_with_each_mounted() {
    let mut plant = tiny_plant(3, 1, 1);
    plant.week_minutes = 6;
    for plant in each_mounted(&plant) {
        let given = runs(&plant, &[0, 1], &[1]);
        let plant_file = plant.encode();
        let mut passed = Passed::new(&plant_file, &given);
        passed.try_around(&cells(&given, &[(1, MARKS), (2, MARKS), (4, MARKS)]));
        passed.assert_all(100_000, 6);
    }
}

/// Two products, two weeks: around each run every pair of numbers is changed.
#[test]
fn two_products_two_weeks() {
    let mut plant = tiny_plant(2, 1, 2);
    plant.opening_inventory = vec![1, 0];
    assert_pairs(&plant, 713);
    for mounted in each_mounted(&plant) {
        // Without cents, so that there are not too many profits.
        let changeover_cents = plant.changeover_cents.clone();
        assert_pairs(&Plant { changeover_cents, ..mounted }, 593);
    }
}

fn assert_pairs(plant: &Plant, passing: usize) {
    let (minutes, sales) = ([0, 1, 2], [0, 1]);
    let given = runs(plant, &minutes, &sales);
    let (minutes, sales, grams) = (numbers(minutes), numbers(sales), numbers(0..=2));
    let (places, profits) = (numbers(0..=2), profits(&given));
    let mut values = values(&places, &minutes, &grams, &profits);
    // Only sales of the slot files, all of which were run.
    values[8].1 = &sales;
    let cells = cells(&given, &values);

    let plant_file = plant.encode();
    let mut passed = Passed::new(&plant_file, &given);
    for (turn, plan) in given.keys().enumerate() {
        passed.try_plan(plan);
        for (place, one) in cells.iter().enumerate() {
            // Pairs with the profit, and all pairs around some of the runs.
            let others =
                if turn % 16 == 0 { &cells[place + 1..] } else { &cells[cells.len() - 1..] };
            for other in others {
                passed.try_pair(plan, one, other);
            }
        }
    }
    passed.assert_all(1_000_000, passing);
}

/// One product, three weeks, each shut or with a run of a minute: all marks and
/// places over the numbers of each run, and every pair of numbers around it.
#[test]
fn one_product_three_weeks() {
    for plant in bare_and_each_mounted(&tiny_plant(1, 1, 3)) {
        assert_marks_and_pairs(&plant, 34);
    }
}

fn assert_marks_and_pairs(plant: &Plant, passing: usize) {
    let (minutes, sales) = ([0, 1], [0, 1]);
    let given = runs(plant, &minutes, &sales);
    let (minutes, sales, grams) = (numbers(minutes), numbers(sales), numbers(0..=3));
    let (places, profits) = (numbers(0..=1), profits(&given));
    let mut values = values(&places, &minutes, &grams, &profits);
    values[8].1 = &sales;

    let plant_file = plant.encode();
    let mut passed = Passed::new(&plant_file, &given);
    passed.try_around(&cells(&given, &values[..6]));
    let cells = cells(&given, &values);
    for plan in given.keys() {
        for (place, one) in cells.iter().enumerate() {
            for other in &cells[place + 1..] {
                passed.try_pair(plan, one, other);
            }
        }
    }
    passed.assert_all(1_000_000, passing);
}

/// A plant with minutes for every changeover and room for all that is made, so that
/// only the order of the products refuses a plan.
fn roomy_plant(weeks: usize) -> Plant {
    let mut plant = tiny_plant(2, 1, weeks);
    plant.week_minutes = 10;
    plant.storage.fill(Storage { least: 0, greatest: 4 });
    plant
}

/// Two products, three weeks, with every order of none, one or both: all marks of
/// each week over each run.
#[test]
fn two_products_three_weeks() {
    for plant in bare_and_each_mounted(&roomy_plant(3)) {
        let given = runs(&plant, &[1], &[0]);
        let plant_file = plant.encode();
        let mut passed = Passed::new(&plant_file, &given);
        for week in 0..3 {
            let marks: Vec<Cell> = (0..5)
                .flat_map(|section| {
                    let cells = cells(&given, &[(section, MARKS)]);
                    let count = cells.len() / 3;
                    cells[week * count..(week + 1) * count].to_vec()
                })
                .collect();
            passed.try_around(&marks);
        }
        passed.assert_all(1_000_000, 125);
    }
}

/// Two products, four weeks, each shut or with one run: all marks of ZF over each
/// run, with up to two shut weeks between producing weeks.
#[test]
fn two_products_four_weeks() {
    for plant in bare_and_each_mounted(&roomy_plant(4)) {
        let given = runs_of_rows(&plant, &rows(2, 1, &[1]), &[0]);
        let plant_file = plant.encode();
        let mut passed = Passed::new(&plant_file, &given);
        passed.try_around(&cells(&given, &[(4, MARKS)]));
        passed.assert_all(1_000_000, 81);
    }
}

/// The plan file that a run gives, or its stop.
fn plan_file(plant: &[u8], slots: &Slots) -> Result<File, Refusal> {
    let mut out = vec![0xa5; 1000];
    let length = library::plan(plant, &slots.encode(), &mut out)?;
    out.truncate(length);
    Ok(out)
}

/// Every slot file of a plant whose weeks are these lists of slots.
fn slot_files(plant: &Plant, rows: &[Vec<Slot>], sales: &[u32]) -> Vec<Slots> {
    let Sizes { products, customers, weeks } = plant.sizes;
    let all_sales = lists(sales, customers * products * weeks);
    let with_sales =
        |rows: Vec<Vec<Slot>>| all_sales.iter().map(move |s| Slots::from_rows(&rows, s.clone()));
    lists(rows, weeks).into_iter().flat_map(with_sales).collect()
}

/// The rolled plant after the first `k` weeks of each run, by the slot file of these
/// weeks. Runs that are the same so far give the same plant.
fn rolled_plants(plant: &Plant, given: &BTreeMap<File, File>, k: usize) -> BTreeMap<File, File> {
    let (plant_file, rates) = (plant.encode(), rate_list(&plant.rates));
    let mut rolled = BTreeMap::new();
    for (plan, slots) in given {
        let slots = read_slots(plant, slots).expect("a slot file that ran");
        let mut out = vec![0xa5; 1000];
        let length = library::roll(&plant_file, plan, k as u64, &rates, &mut out);
        out.truncate(length.expect("weeks remain"));
        assert!(
            reference::rolled_plant_file(&plant_file, plan, k as u64, &rates) == Ok(out.clone())
        );
        let first = horizon::slots(plant.sizes, &slots, 0..k).encode();
        let same = rolled.entry(first).or_insert_with(|| out.clone());
        assert!(*same == out, "the later weeks change the rolled plant");
    }
    rolled
}

/// Asserts that after every count of weeks every slot file runs on as in the whole
/// run: so many times to a plan, and so many times to a stop.
fn assert_runs_on(plant: &Plant, rows: &[Vec<Slot>], sales: &[u32], runs: usize, stops: usize) {
    let (sizes, plant_file) = (plant.sizes, plant.encode());
    let given = runs_of_rows(plant, rows, sales);
    let all = slot_files(plant, rows, sales);
    let (mut run, mut stopped) = (0, 0);
    for k in 1..sizes.weeks {
        let rolled_plants = rolled_plants(plant, &given, k);
        for slots in &all {
            let first = horizon::slots(sizes, slots, 0..k).encode();
            let Some(rolled_file) = rolled_plants.get(&first) else { continue };
            let later = horizon::slots(sizes, slots, k..sizes.weeks);
            let rest = plan_file(rolled_file, &later);
            match plan_file(&plant_file, slots) {
                Ok(whole) => {
                    let whole = read_plan(plant, &whole).expect("a plan was written");
                    let expected = horizon::plan(plant, &whole, k..sizes.weeks);
                    assert!(rest == Ok(expected.encode()), "{k} {slots:?}");
                    let purse = horizon::plan(plant, &whole, 0..k).profit;
                    assert_eq!(purse + expected.profit, whole.profit, "{k} {slots:?}");
                    run += 1;
                }
                Err(stop) => {
                    assert_eq!(rest, Err(stop), "{k} {slots:?}");
                    stopped += 1;
                }
            }
        }
        for rolled in rolled_plants.values() {
            let rolled = read_plant(rolled).expect("a plant was written");
            assert_eq!(rolled.sizes, Sizes { weeks: sizes.weeks - k, ..sizes });
        }
    }
    println!("{run} run on, {stopped} stop");
    assert_eq!((run, stopped), (runs, stops));
}

/// The plant with other demand in each week, and something owed at first.
fn uneven(mut plant: Plant) -> Plant {
    for (demand, grams) in plant.demand.iter_mut().zip([1, 0, 2, 1].into_iter().cycle()) {
        *demand = grams;
    }
    plant.opening_backlog[0] = 1;
    plant
}

#[test]
fn one_product_of_two_weeks_runs_on() {
    for plant in bare_and_each_mounted(&uneven(tiny_plant(1, 1, 2))) {
        assert_runs_on(&plant, &rows(1, 1, &[0, 1, 2, 3]), &[0, 1, 2], 41, 79);
    }
}

#[test]
fn one_product_of_three_weeks_runs_on() {
    for plant in bare_and_each_mounted(&uneven(tiny_plant(1, 1, 3))) {
        assert_runs_on(&plant, &rows(1, 1, &[0, 1, 2]), &[0, 1, 2], 408, 840);
    }
}

#[test]
fn two_products_of_two_weeks_run_on() {
    let mut plant = uneven(tiny_plant(2, 1, 2));
    plant.opening_inventory = vec![1, 0];
    assert_runs_on(&plant, &rows(2, 2, &[0, 1, 2]), &[0, 1], 713, 4963);
    for plant in each_mounted(&plant) {
        assert_runs_on(&plant, &rows(2, 2, &[0, 1, 2]), &[0, 1], 593, 4051);
    }
}

#[test]
fn two_products_of_three_weeks_run_on() {
    for plant in bare_and_each_mounted(&uneven(roomy_plant(3))) {
        assert_runs_on(&plant, &rows(2, 2, &[1]), &[0, 1], 6424, 9396);
    }
}
