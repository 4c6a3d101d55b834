//! Rolling on: the plant file of the weeks that remain of a plan, its bytes, its
//! refusals and their order, and the run of the remaining weeks on it held against
//! the whole run.

use doxkarin_tests::forms::{most_opening_backlog, read_plan, read_plant};
use doxkarin_tests::machine::Machine;
use doxkarin_tests::model::{Kind, OpeningLine, Plan, Plant, Refusal, Sizes, Slots, Storage};
use doxkarin_tests::random::Random;
use doxkarin_tests::rolls::rate_list;
use doxkarin_tests::scenario::{greatest_sizes, sizes, Scenario};
use doxkarin_tests::{facts, following, horizon, library, machine, reference, samples, small};

const LIMIT: u32 = most_opening_backlog(Kind::MountedPlant);

/// Rolls with both implementations, which agree: the file, or the refusal.
fn roll(plant: &[u8], plan: &[u8], k: u64, rates: &[u8]) -> Result<Vec<u8>, Refusal> {
    let expected = reference::rolled_plant_file(plant, plan, k, rates);
    let mut out = vec![0xa5; 20_000];
    let answer = library::roll(plant, plan, k, rates, &mut out);
    assert_eq!(answer, expected.as_ref().map(Vec::len).map_err(|&refusal| refusal), "{k}");
    if let Ok(file) = &expected {
        assert!(out[..file.len()] == **file, "{k}: the rolled plants differ");
    }
    expected
}

/// The same with the plant's own rates, read.
fn rolled(plant: &Plant, plan: &Plan, k: usize) -> Result<Plant, Refusal> {
    let file = roll(&plant.encode(), &plan.encode(), k as u64, &rate_list(&plant.rates))?;
    Ok(read_plant(&file).expect("a plant was written"))
}

fn with_line(plant: &Plant, opening_line: Option<OpeningLine>) -> Plant {
    Plant { opening_line, ..plant.clone() }
}

/// A plant of these weeks, all of which are shut, and its plan.
fn shut_plant(weeks: usize) -> (Plant, Plan) {
    let plant = samples::least_plant(Sizes { products: 1, customers: 1, weeks });
    let slots = Slots::from_rows(&vec![Vec::new(); weeks], vec![0; weeks]);
    let plan = machine::run(&plant, &slots).expect("the run never stops");
    (plant, plan)
}

/// The small plant after its first week, byte by byte.
#[test]
fn the_small_plant_is_rolled() {
    #[rustfmt::skip]
    let expected = [
        4, 12,
        1, 110, 0, 0, 0, 3, 0, 0, 0,
        2, 113, 0, 0, 0, 8, 0, 0, 0,
        3, 121, 0, 0, 0, 8, 0, 0, 0,
        4, 129, 0, 0, 0, 16, 0, 0, 0,
        5, 145, 0, 0, 0, 8, 0, 0, 0,
        6, 153, 0, 0, 0, 8, 0, 0, 0,
        7, 161, 0, 0, 0, 8, 0, 0, 0,
        8, 169, 0, 0, 0, 8, 0, 0, 0,
        9, 177, 0, 0, 0, 16, 0, 0, 0,
        10, 193, 0, 0, 0, 16, 0, 0, 0,
        11, 209, 0, 0, 0, 4, 0, 0, 0,
        12, 213, 0, 0, 0, 2, 0, 0, 0,
        // 2 products, 1 customer, 1 week.
        2, 1, 1,
        // Rates 120 and 1,000.
        120, 0, 0, 0, 0xe8, 0x03, 0, 0,
        // Changeovers of 0, 40, 30 and 0 minutes, and of 0, 600, 500 and 0 cents.
        0, 0, 40, 0, 30, 0, 0, 0,
        0, 0, 0, 0, 0x58, 0x02, 0, 0, 0xf4, 0x01, 0, 0, 0, 0, 0, 0,
        // Demand of the second week: 300,000 and 200,000.
        0xe0, 0x93, 0x04, 0, 0x40, 0x0d, 0x03, 0,
        // Prices, backlog costs and inventory costs.
        10, 0, 0, 0, 12, 0, 0, 0,
        2, 0, 0, 0, 3, 0, 0, 0,
        1, 0, 0, 0, 1, 0, 0, 0,
        // Storage of 0 to 2,000,000 each.
        0, 0, 0, 0, 0x80, 0x84, 0x1e, 0, 0, 0, 0, 0, 0x80, 0x84, 0x1e, 0,
        // In stock 100,000 of A and no B, and nothing owed.
        0xa0, 0x86, 0x01, 0, 0, 0, 0, 0, 0, 0, 0, 0, 0, 0, 0, 0,
        // Runs of 300 minutes, weeks of 10,080.
        0x2c, 0x01, 0x60, 0x27,
        // B is mounted, and the first week was not shut.
        1, 0,
    ];
    let rates = rate_list(&[120, 1000]);
    let file = roll(&small::plant().encode(), &small::plan().encode(), 1, &rates);
    assert_eq!(file, Ok(expected.to_vec()));
    // With B mounted before the first week nothing is another after it.
    let file = roll(&small::mounted_plant().encode(), &small::mounted_plan().encode(), 1, &rates);
    assert_eq!(file, Ok(expected.to_vec()));
}

/// The plant of four weeks after each of the first three, of which two are shut.
#[test]
fn the_long_plant_is_rolled() {
    let (plant, plan) = (small::long_plant(), small::long_plan());
    let sizes = |weeks| Sizes { weeks, ..plant.sizes };
    let line = |was_shut| Some(OpeningLine { mounted: 1, was_shut });
    let after_first = Plant {
        sizes: sizes(3),
        demand: vec![100_000, 0, 200_000, 0, 0, 0],
        opening_inventory: vec![100_000, 50_000],
        opening_backlog: vec![0, 50_000],
        opening_line: line(0),
        ..plant.clone()
    };
    let after_second = Plant {
        sizes: sizes(2),
        demand: vec![0, 200_000, 0, 0],
        opening_inventory: vec![50_000, 0],
        opening_backlog: vec![50_000, 0],
        opening_line: line(1),
        ..plant.clone()
    };
    let after_third = Plant {
        sizes: sizes(1),
        demand: vec![200_000, 0],
        opening_inventory: vec![0, 0],
        opening_backlog: vec![0, 0],
        opening_line: line(1),
        ..plant.clone()
    };
    for (k, expected) in (1..).zip([after_first, after_second, after_third]) {
        assert_eq!(rolled(&plant, &plan, k), Ok(expected), "{k}");
    }
}

/// The rates are those of the list and nothing else follows from them.
#[test]
fn the_rates_are_new() {
    for (plant, plan) in [
        (small::plant(), small::plan()),
        (small::mounted_plant(), small::mounted_plan()),
        (small::long_plant(), small::long_plan()),
    ] {
        let same = rolled(&plant, &plan, 1).expect("weeks remain");
        assert_eq!(same.rates, plant.rates);
        for rates in [[1, 100_000], [100_000, 1], [50, 100], [65_537, 256]] {
            let file = roll(&plant.encode(), &plan.encode(), 1, &rate_list(&rates));
            let expected = Plant { rates: rates.to_vec(), ..same.clone() };
            assert_eq!(file, Ok(expected.encode()));
        }
    }
}

/// The second number of section 12 says whether the last week that ran was shut,
/// whatever the plant's own says.
#[test]
fn the_week_before_is_the_last_that_ran() {
    for was_shut in [0, 1] {
        let lines = [1, 255].map(|mounted| Some(OpeningLine { mounted, was_shut }));
        for line in lines {
            let plant = with_line(&small::long_plant(), line);
            let plan = machine::run(&plant, &small::long_slots()).expect("the run never stops");
            for (k, expected) in [(1, 0), (2, 1), (3, 1)] {
                let line = rolled(&plant, &plan, k).expect("weeks remain").opening_line;
                assert_eq!(line, Some(OpeningLine { mounted: 1, was_shut: expected }), "{k}");
            }
        }
    }
    // Only the week after the last that ran is shut.
    let sales = vec![400_000, 100_000, 100_000, 0];
    let slots = Slots::from_rows(&[small::slots().rows()[0].clone(), Vec::new()], sales);
    let plan = machine::run(&small::plant(), &slots).expect("the run never stops");
    let line = rolled(&small::plant(), &plan, 1).expect("a week remains").opening_line;
    assert_eq!(line, Some(OpeningLine { mounted: 1, was_shut: 0 }));
}

/// Where no week has produced, what the plant has mounted is mounted still.
#[test]
fn what_is_mounted_stays_over_shut_weeks() {
    let rows = vec![Vec::new(); 4];
    let slots = Slots::from_rows(&rows, vec![0; 8]);
    let line = |mounted, was_shut| Some(OpeningLine { mounted, was_shut });
    for (opening_line, mounted) in
        [(None, 255), (line(255, 0), 255), (line(255, 1), 255), (line(0, 0), 0), (line(1, 1), 1)]
    {
        let plant = with_line(&small::long_plant(), opening_line);
        let plan = machine::run(&plant, &slots).expect("the run never stops");
        for k in 1..4 {
            let rolled = rolled(&plant, &plan, k).expect("weeks remain");
            assert_eq!(rolled.opening_line, line(mounted, 1), "{opening_line:?} {k}");
        }
    }
}

/// Of kind 4 also from kind 1, and the same from kind 4 with nothing mounted.
#[test]
fn both_kinds_are_rolled() {
    let mut random = Random::new(41);
    let mut written = 0;
    for _ in 0..400 {
        let sizes = sizes(&mut random);
        let Scenario { plant, slots } = Scenario::new(&mut random, sizes);
        let (plant, bare) = (
            with_line(&plant, None),
            with_line(&plant, Some(OpeningLine { mounted: 255, was_shut: 1 })),
        );
        let (Ok(plan), true) = (machine::run(&plant, &slots), read_plant(&plant.encode()).is_ok())
        else {
            continue;
        };
        for k in 1..sizes.weeks {
            let of_kind_1 = rolled(&plant, &plan, k);
            assert_eq!(of_kind_1, rolled(&bare, &plan, k));
            if let Ok(plant) = of_kind_1 {
                assert_eq!(plant.kind(), Kind::MountedPlant);
                written += 1;
            }
        }
    }
    assert!(written >= 400, "{written} written");
}

#[test]
fn at_least_a_week_has_run_and_one_remains() {
    for weeks in 1..=26 {
        let (plant, plan) = shut_plant(weeks);
        let (plant, plan) = (plant.encode(), plan.encode());
        let rates = rate_list(&[1]);
        let weeks = weeks as u64;
        for k in 0..=weeks + 1 {
            let file = roll(&plant, &plan, k, &rates);
            if (1..weeks).contains(&k) {
                let rolled = read_plant(&file.expect("weeks remain")).expect("a plant was written");
                assert_eq!(rolled.sizes.weeks as u64, weeks - k);
            } else {
                assert_eq!(file, Err(61), "{k} of {weeks}");
            }
            // These are `k` in fewer bits.
            for bits in [8, 16, 32, 63] {
                let far = k + (1 << bits);
                assert_eq!(roll(&plant, &plan, far, &rates), Err(61), "{far} of {weeks}");
            }
            let negative = k.wrapping_neg();
            if k > 0 {
                assert_eq!(roll(&plant, &plan, negative, &rates), Err(61), "{negative}");
            }
        }
        assert_eq!(roll(&plant, &plan, u64::MAX, &rates), Err(61));
    }
}

#[test]
fn a_list_has_four_bytes_for_each_product() {
    for products in 1..=16 {
        let plant = samples::least_plant(Sizes { products, customers: 1, weeks: 2 });
        let slots = Slots::from_rows(&vec![Vec::new(); 2], vec![0; 2 * products]);
        let plan = machine::run(&plant, &slots).expect("the run never stops").encode();
        let plant = plant.encode();
        for length in (0..=80).chain([256 + 4 * products, 65_536 + 4 * products]) {
            let rates = rate_list(&[7]).into_iter().cycle().take(length).collect::<Vec<u8>>();
            let expected = (length != 4 * products).then_some(4);
            assert_eq!(roll(&plant, &plan, 1, &rates).err(), expected, "{products} {length}");
        }
    }
}

#[test]
fn a_rate_is_in_its_range() {
    let sizes = Sizes { products: 5, customers: 1, weeks: 2 };
    let plant = samples::least_plant(sizes);
    let slots = Slots::from_rows(&vec![Vec::new(); 2], vec![0; 10]);
    let plan = machine::run(&plant, &slots).expect("the run never stops").encode();
    let plant = plant.encode();
    let numbers = [
        (0, Some(5)),
        (1, None),
        (100_000, None),
        (100_001, Some(5)),
        (1 << 17, Some(5)),
        (1 << 24, Some(5)),
        (1 << 31, Some(5)),
        (u32::MAX, Some(5)),
    ];
    for place in 0..sizes.products {
        for (rate, expected) in numbers {
            let mut rates = [9; 5];
            rates[place] = rate;
            let list = rate_list(&rates);
            assert_eq!(roll(&plant, &plan, 1, &list).err(), expected, "{place} {rate}");
        }
    }
}

/// A case with every fault, each of which is taken away in turn: what is left gives
/// the next number.
#[test]
fn the_first_fault_gives_the_number() {
    let mut slots = small::slots();
    // B of the first week is not sold, and owed after it beside what is owed at first.
    slots.sales[2] = 0;
    let numbers = [5, 11, 41, 61, 4, 5, 62, 51, 0];
    for (repaired, &number) in numbers.iter().enumerate() {
        let has = |fault: usize| repaired <= fault;
        let mut plant = small::mounted_plant();
        plant.opening_backlog[1] = LIMIT - 100_000 + u32::from(has(6));
        let mut plan = machine::run(&plant, &slots).expect("the run never stops");
        if has(2) {
            plan.profit += 1;
        }
        let mut plan = plan.encode();
        if has(1) {
            plan[0] = 1;
        }
        if has(0) {
            plant.rates[0] = 0;
        }
        let k = if has(3) { 2 } else { 1 };
        let mut rates = rate_list(&[100, if has(5) { 0 } else { 50 }]);
        if has(4) {
            rates.push(0);
        }
        let mut out = vec![0xa5; 215 - usize::from(has(7))];
        let mut length = 77;
        let plant = plant.encode();
        let answer = library::roll_into(&plant, &plan, k, &rates, &mut out, &mut length);
        assert_eq!(answer, number, "{repaired}");
        let mut other = vec![0xa5; out.len()];
        let expected = reference::roll(&plant, &plan, k, &rates, &mut other);
        assert_eq!(expected.err().unwrap_or(0), number, "{repaired}");
        assert!(out == other, "{repaired}");
        if number == 0 {
            assert_eq!(length, 215);
        } else {
            assert_eq!(length, 77);
            assert!(out.iter().all(|&byte| byte == 0xa5), "{repaired}");
        }
    }
}

/// Every two faults that can be had together: the first in the order gives the
/// number.
#[test]
fn of_two_faults_the_first_gives_the_number() {
    let mut slots = small::slots();
    slots.sales[2] = 0;
    let faults = [41, 61, 4, 5, 62, 51];
    for (place, &first) in faults.iter().enumerate() {
        for &second in &faults[place..] {
            let has = |number| first == number || second == number;
            let mut plant = small::mounted_plant();
            plant.opening_backlog[1] = LIMIT - 100_000 + u32::from(has(62));
            let mut plan = machine::run(&plant, &slots).expect("the run never stops");
            plan.profit += i64::from(has(41));
            let rates = rate_list(&[100, if has(5) { 100_001 } else { 50 }]);
            let rates = &rates[usize::from(has(4))..];
            let mut out = vec![0xa5; 215 - usize::from(has(51))];
            let (plant, plan) = (plant.encode(), plan.encode());
            // No week remains, or none has run.
            for k in if has(61) { vec![0, 2, u64::MAX] } else { vec![1] } {
                let answer = library::roll(&plant, &plan, k, rates, &mut out);
                assert_eq!(answer, Err(first), "{first} {second} {k}");
                let answer = reference::roll(&plant, &plan, k, rates, &mut out);
                assert_eq!(answer, Err(first), "{first} {second} {k}");
            }
            assert!(out.iter().all(|&byte| byte == 0xa5), "{first} {second}");
        }
    }
}

/// A plant of kind 4 with five grams of demand in each week, all of which are shut.
fn owing_plant() -> (Plant, Slots) {
    let sizes = Sizes { products: 2, customers: 2, weeks: 4 };
    let mut plant = samples::least_plant(sizes);
    plant.opening_line = Some(OpeningLine { mounted: 0, was_shut: 0 });
    plant.demand.fill(5);
    plant.storage.fill(Storage { least: 0, greatest: 100 });
    plant.opening_inventory.fill(100);
    let slots = Slots::from_rows(&vec![Vec::new(); 4], vec![0; plant.demand.len()]);
    (plant, slots)
}

/// What is owed after the last week that ran may reach the limit and not pass it,
/// for each customer and product; other weeks do not count.
#[test]
fn what_is_owed_has_a_limit() {
    for pair in 0..4 {
        for opening in LIMIT - 21..=LIMIT {
            let (mut plant, slots) = owing_plant();
            plant.opening_backlog[pair] = opening;
            let plan = machine::run(&plant, &slots).expect("the run never stops");
            for k in 1..4 {
                let owed = opening + 5 * k as u32;
                let rolled = rolled(&plant, &plan, k).map(|plant| plant.opening_backlog[pair]);
                let expected = if owed > LIMIT { Err(62) } else { Ok(owed) };
                assert_eq!(rolled, expected, "{pair} {opening} {k}");
            }
        }
    }
}

/// What was owed beyond the limit in an earlier week may have been sold since.
#[test]
fn what_was_owed_earlier_does_not_count() {
    for pair in 0..4 {
        let (mut plant, mut slots) = owing_plant();
        plant.opening_backlog[pair] = LIMIT;
        // After the weeks there are owed 5 too much, the limit, 1 too much, and less.
        slots.sales[4 * pair + 1] = 10;
        slots.sales[4 * pair + 2] = 4;
        slots.sales[4 * pair + 3] = 7;
        let plan = machine::run(&plant, &slots).expect("the run never stops");
        let answers = [1, 2, 3].map(|k| rolled(&plant, &plan, k).err());
        assert_eq!(answers, [Some(62), None, Some(62)], "{pair}");
    }
}

/// Kind 1 owes 100,000,000 at first at most, and reaches the limit after 15 weeks.
#[test]
fn a_plant_of_kind_1_owes_the_limit_after_15_weeks() {
    let mut plant = samples::greatest_plant();
    let slots = Slots::from_rows(&vec![Vec::new(); 26], vec![0; plant.demand.len()]);
    let plan = machine::run(&plant, &slots).expect("the run never stops");
    for k in 1..26 {
        let owed = rolled(&plant, &plan, k).map(|plant| plant.opening_backlog);
        let expected = 100_000_000 * (k as u32 + 1);
        assert_eq!(owed, if k <= 15 { Ok(vec![expected; 128]) } else { Err(62) }, "{k}");
    }
    // The last customer is owed more of the last product than all others of all.
    plant.opening_backlog.fill(0);
    plant.opening_backlog[127] = 100_000_000;
    let plan = machine::run(&plant, &slots).expect("the run never stops");
    assert_eq!(rolled(&plant, &plan, 15).err(), None);
    assert_eq!(rolled(&plant, &plan, 16).err(), Some(62));
    plant.opening_backlog[127] = 0;
    let plan = machine::run(&plant, &slots).expect("the run never stops");
    assert_eq!(rolled(&plant, &plan, 16).err(), None);
    assert_eq!(rolled(&plant, &plan, 17).err(), Some(62));
}

/// A plan that is refused is refused before all that a roll tries itself.
#[test]
fn a_refused_plan_is_not_rolled() {
    for fact in facts::all() {
        let (plant, plan) = (fact.plant.encode(), fact.plan.encode());
        for k in [0, 1, 2] {
            for rates in [rate_list(&fact.plant.rates), Vec::new()] {
                let answer = roll(&plant, &plan, k, &rates).err();
                let expected = match fact.answer {
                    Err(refusal) => Some(refusal),
                    Ok(_) if k != 1 => Some(61),
                    Ok(_) => rates.is_empty().then_some(4),
                };
                assert_eq!(answer, expected, "P{} {k}", fact.number);
            }
        }
    }
}

/// What an output holds before a call.
fn pattern(length: usize) -> Vec<u8> {
    (1..=255).cycle().take(length).collect()
}

#[test]
fn an_output_has_room_or_is_left() {
    for (plant, plan) in [
        (small::plant(), small::plan()),
        (small::mounted_plant(), small::mounted_plan()),
        (small::long_plant(), small::long_plan()),
    ] {
        let rates = rate_list(&plant.rates);
        let (plant, plan) = (plant.encode(), plan.encode());
        let file = roll(&plant, &plan, 1, &rates).expect("weeks remain");
        for room in (0..file.len() + 20).chain([65_536]) {
            let mut out = pattern(room + 16);
            let mut length = 77;
            let (inside, _) = out.split_at_mut(room);
            let number = library::roll_into(&plant, &plan, 1, &rates, inside, &mut length);
            let mut expected = pattern(room + 16);
            if room < file.len() {
                assert_eq!((number, length), (51, 77), "{room}");
            } else {
                assert_eq!((number, length), (0, file.len() as u64), "{room}");
                expected[..file.len()].copy_from_slice(&file);
            }
            assert!(out == expected, "{room}");
        }
    }
}

/// A random plant of several weeks with slots that run, and the plan.
fn running_scenario(random: &mut Random, turn: usize) -> (Plant, Slots, Plan) {
    loop {
        let sizes = if turn.is_multiple_of(40) { greatest_sizes() } else { sizes(random) };
        if sizes.weeks == 1 {
            continue;
        }
        let Scenario { plant, slots } = Scenario::new(random, sizes);
        if let Ok(plan) = machine::run(&plant, &slots) {
            return (plant, slots, plan);
        }
    }
}

/// Weeks to roll at: all of a few, else some of many.
fn some_weeks(random: &mut Random, weeks: usize) -> Vec<usize> {
    if weeks <= 5 {
        (1..weeks).collect()
    } else {
        (0..3).map(|_| random.between(1, weeks as u64 - 1) as usize).collect()
    }
}

/// Every number of the rolled plant is where the plant or the plan has it.
#[test]
fn every_number_of_a_rolled_plant_is_found() {
    let mut random = Random::new(31);
    let mut written = 0;
    for turn in 0..600 {
        let (plant, slots, plan) = running_scenario(&mut random, turn);
        let sizes = plant.sizes;
        for k in some_weeks(&mut random, sizes.weeks) {
            let Ok(rolled) = rolled(&plant, &plan, k) else { continue };
            written += 1;
            let rest = rolled.sizes;
            assert_eq!(rest, Sizes { weeks: sizes.weeks - k, ..sizes });
            for customer in 0..sizes.customers {
                for product in 0..sizes.products {
                    let place = |week| sizes.customer_product_week(customer, product, week);
                    for week in 0..rest.weeks {
                        let demand =
                            rolled.demand[rest.customer_product_week(customer, product, week)];
                        assert_eq!(demand, plant.demand[place(k + week)]);
                    }
                    let owed = rolled.opening_backlog[rest.customer_product(customer, product)];
                    assert_eq!(owed, plan.backlog[place(k - 1)]);
                }
            }
            for product in 0..sizes.products {
                let stock = plan.inventory[sizes.week_product(k - 1, product)];
                assert_eq!(rolled.opening_inventory[product], stock);
            }
            let last = slots.rows()[..k].iter().flatten().last().map(|slot| slot.product);
            let own = plant.opening_line.map_or(255, |line| line.mounted);
            let was_shut = u8::from(slots.counts[k - 1] == 0);
            let line = OpeningLine { mounted: last.unwrap_or(own), was_shut };
            assert_eq!(rolled.opening_line, Some(line));
            // The rest is copied.
            let copied = Plant {
                sizes,
                demand: plant.demand.clone(),
                opening_inventory: plant.opening_inventory.clone(),
                opening_backlog: plant.opening_backlog.clone(),
                opening_line: plant.opening_line,
                ..rolled
            };
            assert_eq!(copied, plant);
        }
    }
    assert!(written > 100, "{written} written");
}

/// The plan file that the library writes of slots, if they run.
fn written(plant: &Plant, slots: &Slots) -> Result<Vec<u8>, Refusal> {
    let mut out = vec![0xa5; 65_536];
    let length = library::plan(&plant.encode(), &slots.encode(), &mut out)?;
    out.truncate(length);
    Ok(out)
}

/// Asserts that the later weeks run on the rolled plant as in the whole run: every
/// table byte for byte, and the profit is what the first weeks leave of the whole.
fn assert_runs_on(plant: &Plant, slots: &Slots, plan: &Plan, rolled: &Plant, k: usize) {
    let weeks = plant.sizes.weeks;
    let later = horizon::slots(plant.sizes, slots, k..weeks);
    let file = written(rolled, &later).expect("the later weeks run");
    assert!(file == horizon::plan(plant, plan, k..weeks).encode(), "{k}: the tables differ");
    let rest = read_plan(rolled, &file).expect("a plan was written");
    assert_eq!(library::check(&rolled.encode(), &file), Ok(rest.profit));

    let first = horizon::plan(plant, plan, 0..k);
    assert_eq!(first.profit + rest.profit, plan.profit, "{k}");
    // The first weeks by themselves make the same profit.
    let sizes = Sizes { weeks: k, ..plant.sizes };
    let demand = plant.demand.chunks_exact(weeks).flat_map(|row| row[..k].to_vec()).collect();
    let first_plant = Plant { sizes, demand, ..plant.clone() };
    let first_slots = horizon::slots(plant.sizes, slots, 0..k);
    assert!(written(&first_plant, &first_slots) == Ok(first.encode()), "{k}");
}

#[test]
fn the_later_weeks_run_on() {
    let mut random = Random::new(30);
    let (mut run, mut refused) = (0, 0);
    for turn in 0..800 {
        let (plant, slots, plan) = running_scenario(&mut random, turn);
        for k in some_weeks(&mut random, plant.sizes.weeks) {
            match rolled(&plant, &plan, k) {
                Ok(rolled) => {
                    assert_runs_on(&plant, &slots, &plan, &rolled, k);
                    run += 1;
                }
                Err(number) => {
                    assert_eq!(number, 62);
                    let mut owed = plan.backlog.iter().skip(k - 1).step_by(plant.sizes.weeks);
                    assert!(owed.any(|&owed| owed > LIMIT));
                    refused += 1;
                }
            }
        }
    }
    assert!(run >= 1000 && refused >= 50, "{run} run, {refused} refused");
}

#[test]
fn the_small_plants_later_weeks_run_on() {
    let (plant, slots, plan) = (small::plant(), small::slots(), small::plan());
    let rolled_plant = rolled(&plant, &plan, 1).expect("a week remains");
    assert_runs_on(&plant, &slots, &plan, &rolled_plant, 1);
    let (plant, slots, plan) = (small::long_plant(), small::long_slots(), small::long_plan());
    for k in 1..4 {
        let rolled_plant = rolled(&plant, &plan, k).expect("weeks remain");
        assert_runs_on(&plant, &slots, &plan, &rolled_plant, k);
    }
}

/// Slot by slot both machines have the same stock, owed, clock and mounted product,
/// and the purses differ by the purse after the first weeks.
#[test]
fn the_machines_go_on_alike() {
    let mut random = Random::new(32);
    let mut written = 0;
    for turn in 1..300 {
        let (plant, slots, plan) = running_scenario(&mut random, turn);
        let weeks = plant.sizes.weeks;
        let rows = slots.rows();
        for k in some_weeks(&mut random, weeks) {
            let Ok(rolled) = rolled(&plant, &plan, k) else { continue };
            written += 1;
            let later_sales = horizon::slots(plant.sizes, &slots, k..weeks).sales;
            let mut whole = Machine::new(&plant);
            for (week, row) in rows[..k].iter().enumerate() {
                whole.begin_week();
                row.iter().try_for_each(|&slot| whole.run_slot(slot)).expect("the run goes on");
                whole.end_week(week, &slots.sales).expect("the run goes on");
            }
            let purse = whole.profit;
            let mut later = Machine::new(&rolled);
            assert_alike(&whole, &later, purse);
            for (week, row) in (k..).zip(&rows[k..]) {
                whole.begin_week();
                later.begin_week();
                for &slot in row {
                    whole.run_slot(slot).expect("the run goes on");
                    later.run_slot(slot).expect("the later run goes on");
                    assert_eq!((whole.clock, &whole.ran), (later.clock, &later.ran));
                    assert_alike(&whole, &later, purse);
                }
                whole.end_week(week, &slots.sales).expect("the run goes on");
                later.end_week(week - k, &later_sales).expect("the later run goes on");
                assert_eq!(whole.clock, later.clock);
                assert_alike(&whole, &later, purse);
            }
            assert_eq!(whole.profit, plan.profit);
        }
    }
    assert!(written > 100, "{written} written");
}

fn assert_alike(whole: &Machine, later: &Machine, purse: i64) {
    assert_eq!(whole.mounted, later.mounted);
    assert_eq!(whole.inventory, later.inventory);
    assert_eq!(whole.backlog, later.backlog);
    assert_eq!(whole.profit, purse + later.profit);
}

/// Rolled on and rolled on again, the plant is as if it were rolled once.
#[test]
fn rolling_twice_is_rolling_once() {
    let mut random = Random::new(33);
    let (mut twice, mut refused) = (0, 0);
    for turn in 0..800 {
        let (plant, slots, plan) = running_scenario(&mut random, turn);
        let weeks = plant.sizes.weeks as u64;
        if weeks < 3 {
            continue;
        }
        let first = random.between(1, weeks - 2);
        let second = random.between(1, weeks - 1 - first);
        let Ok(rolled) = rolled(&plant, &plan, first as usize) else { continue };
        let later = horizon::slots(plant.sizes, &slots, first as usize..weeks as usize);
        let later_plan = written(&rolled, &later).expect("the later weeks run");
        let rates: Vec<u32> =
            plant.rates.iter().map(|_| random.between(1, 100_000) as u32).collect();
        let rates = rate_list(&rates);
        let again = roll(&rolled.encode(), &later_plan, second, &rates);
        let once = roll(&plant.encode(), &plan.encode(), first + second, &rates);
        assert!(again == once, "{first} {second}");
        match once {
            Ok(_) => twice += 1,
            Err(number) => {
                assert_eq!(number, 62);
                refused += 1;
            }
        }
    }
    assert!(twice >= 200 && refused >= 5, "{twice} twice, {refused} refused");
}

/// With other rates the later weeks make more or less, and a plant file is written
/// all the same.
#[test]
fn other_rates_need_no_run() {
    let (plant, plan) = (small::plant(), small::plan());
    let file = roll(&plant.encode(), &plan.encode(), 1, &rate_list(&[1, 1]));
    let rolled = read_plant(&file.expect("a week remains")).expect("a plant was written");
    // 150,000 of B are sold where 3,000 are made.
    let later = horizon::slots(plant.sizes, &small::slots(), 1..2);
    assert_eq!(written(&rolled, &later).err(), Some(39));
    let following = following::plan(&rolled, &later);
    assert_eq!(library::check(&rolled.encode(), &following.encode()), Err(39));
}
