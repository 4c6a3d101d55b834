//! The library against the second implementation. `cargo run --release --offline
//! --manifest-path tests/Cargo.toml --bin differential -- SEED CASES` runs as
//! many other cases as one likes.

use doxkarin_tests::differential::{run, CALLS};
use doxkarin_tests::model::{Refusal, Sizes};
use doxkarin_tests::rolls::rate_list;
use doxkarin_tests::{library, reference, small};

const SEED: u64 = 20_260_101;
const CASES: u64 = 600_000;

#[test]
fn random_files_give_the_same_answers() {
    let counts = run(SEED, CASES).unwrap_or_else(|difference| panic!("{difference}"));
    println!("{counts}");
    assert!(counts.cases >= CASES);
    for call in CALLS {
        assert_eq!(counts.numbers(call), call.numbers(), "{call:?}");
    }

    type Wanted = fn(Sizes) -> bool;
    let limits: [(&str, Wanted); 7] = [
        ("1 product", |sizes| sizes.products == 1),
        ("16 products", |sizes| sizes.products == 16),
        ("1 customer", |sizes| sizes.customers == 1),
        ("8 customers", |sizes| sizes.customers == 8),
        ("1 week", |sizes| sizes.weeks == 1),
        ("26 weeks", |sizes| sizes.weeks == 26),
        ("all", |sizes| (sizes.products, sizes.customers, sizes.weeks) == (16, 8, 26)),
    ];
    for (name, wanted) in limits {
        assert!(counts.has_passed(wanted), "no plan of {name} passed");
    }
    for (name, passed) in counts.passed_sorts() {
        println!("{passed} {name}");
        assert!(passed >= 100, "{passed} plans of this sort passed: {name}");
    }
    for (name, rolls) in counts.roll_sorts() {
        println!("{rolls} {name}");
        assert!(rolls >= 100, "{rolls} rolls are of this sort: {name}");
    }
}

/// What an output holds before each call.
const UNTOUCHED: [u8; 400] = [0xa5; 400];

/// Asserts that all four calls agree on these files: the numbers that check and plan return.
/// The plant is rolled on after its first week, with the small plant's rates.
fn assert_same(plant: &[u8], plan: &[u8], slots: &[u8]) -> [Refusal; 2] {
    let checked = reference::check(plant, plan);
    assert_eq!(library::check(plant, plan), checked);

    let (mut one, mut other) = (UNTOUCHED, UNTOUCHED);
    assert_eq!(library::slots(plant, plan, &mut one), reference::slots(plant, plan, &mut other));
    assert!(one == other);

    let (mut one, mut other) = (UNTOUCHED, UNTOUCHED);
    let written = reference::plan(plant, slots, &mut other);
    assert_eq!(library::plan(plant, slots, &mut one), written);
    assert!(one == other);

    let rolled = assert_rolls_alike(plant, plan, 1, &rate_list(&small::plant().rates));
    assert_eq!(rolled, checked.err().unwrap_or(0));
    [checked.err().unwrap_or(0), written.err().unwrap_or(0)]
}

/// Asserts that both implementations roll these files alike: the number.
fn assert_rolls_alike(plant: &[u8], plan: &[u8], k: u64, rates: &[u8]) -> Refusal {
    let (mut one, mut other) = (UNTOUCHED, UNTOUCHED);
    let rolled = reference::roll(plant, plan, k, rates, &mut other);
    assert_eq!(library::roll(plant, plan, k, rates, &mut one), rolled);
    assert!(one == other);
    rolled.err().unwrap_or(0)
}

/// Lets every byte of these files take every value: the numbers that the calls
/// return.
fn change_every_byte(right: [Vec<u8>; 3]) -> Vec<Refusal> {
    let mut numbers = Vec::new();
    for (file, bytes) in right.iter().enumerate() {
        for place in 0..bytes.len() {
            for value in 0..=255 {
                let mut files = right.clone();
                files[file][place] = value;
                let [plant, plan, slots] = &files;
                numbers.extend(assert_same(plant, plan, slots));
            }
        }
    }
    numbers.sort_unstable();
    numbers.dedup();
    numbers
}

#[test]
fn every_byte_of_the_small_files_takes_every_value() {
    // A plan's lengths can be wrong only with an offset, so that no single byte gives 13.
    let expected: Vec<Refusal> =
        (0..=5).chain([11, 12, 14]).chain(21..=25).chain(31..=41).collect();
    let right = [small::plant().encode(), small::plan().encode(), small::slots().encode()];
    assert_eq!(change_every_byte(right), expected);
    // The same with B mounted, and with shut weeks.
    let right =
        [small::mounted_plant().encode(), small::mounted_plan().encode(), small::slots().encode()];
    assert_eq!(change_every_byte(right), expected);
    let right =
        [small::long_plant().encode(), small::long_plan().encode(), small::long_slots().encode()];
    assert_eq!(change_every_byte(right), expected);
}

/// Cuts each of these files at every length, of which the contents have so many.
fn cut_anywhere(right: [Vec<u8>; 3], contents: [usize; 3]) {
    for (file, bytes) in right.iter().enumerate() {
        for length in 0..bytes.len() {
            let mut files = right.clone();
            files[file].truncate(length);
            let [plant, plan, slots] = &files;
            let numbers = assert_same(plant, plan, slots);
            let is_misplaced = usize::from(length >= contents[file]);
            let expected = [[1, 2].map(|row| [row, row]), [[11, 0], [12, 0]], [[0, 21], [0, 22]]];
            assert_eq!(numbers, expected[file][is_misplaced], "{file} {length}");
        }
    }
}

#[test]
fn the_small_files_are_cut_anywhere() {
    let right = [small::plant().encode(), small::plan().encode(), small::slots().encode()];
    cut_anywhere(right, [101, 110, 29]);
    let right =
        [small::mounted_plant().encode(), small::mounted_plan().encode(), small::slots().encode()];
    cut_anywhere(right, [110, 110, 29]);
}

/// Every byte of the small plants' lists of rates takes every value, and the lists are
/// cut and stretched, after each count of weeks.
#[test]
fn every_byte_of_a_list_of_rates_takes_every_value() {
    let rates = rate_list(&small::plant().rates);
    for (plant, plan) in [
        (small::plant(), small::plan()),
        (small::mounted_plant(), small::mounted_plan()),
        (small::long_plant(), small::long_plan()),
    ] {
        let weeks = plant.sizes.weeks as u64;
        let (plant, plan) = (plant.encode(), plan.encode());
        for k in 0..=weeks + 1 {
            let remain = (1..weeks).contains(&k);
            let mut numbers = Vec::new();
            for place in 0..rates.len() {
                for value in 0..=255 {
                    let mut rates = rates.clone();
                    rates[place] = value;
                    numbers.push(assert_rolls_alike(&plant, &plan, k, &rates));
                }
            }
            numbers.sort_unstable();
            numbers.dedup();
            assert_eq!(numbers, if remain { vec![0, 5] } else { vec![61] }, "{k}");
            for length in 0..20 {
                let rates: Vec<u8> = rates.iter().copied().cycle().take(length).collect();
                let number = assert_rolls_alike(&plant, &plan, k, &rates);
                let of_list = if length == 8 { 0 } else { 4 };
                assert_eq!(number, if remain { of_list } else { 61 }, "{k} {length}");
            }
        }
    }
}
