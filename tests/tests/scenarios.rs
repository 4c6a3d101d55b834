//! The random plants of the other tests: both kinds and every sort of shut weeks
//! are among them, often, and their slots mostly run; most can be rolled on, and some
//! owe too much for it.

use doxkarin_tests::model::Sizes;
use doxkarin_tests::random::Random;
use doxkarin_tests::rolls::{any_k, any_rates, rate_list};
use doxkarin_tests::scenario::{sizes, Scenario, SORTS};
use doxkarin_tests::{forms, machine, rolling};

const SCENARIOS: usize = 4000;

fn percent(count: usize, of: usize) -> usize {
    100 * count / of
}

#[test]
fn every_sort_runs() {
    let mut random = Random::new(9);
    let (mut shut, mut run) = (0, 0);
    let mut sorts = [0; SORTS.len()];
    for _ in 0..SCENARIOS {
        let sizes = sizes(&mut random);
        let Scenario { plant, slots } = Scenario::new(&mut random, sizes);
        if machine::run(&plant, &slots).is_err() {
            continue;
        }
        run += 1;
        shut += usize::from(slots.counts.contains(&0));
        for ((_, is_sort), count) in SORTS.iter().zip(&mut sorts) {
            *count += usize::from(is_sort(&plant, &slots));
        }
    }
    assert!(percent(run, SCENARIOS) >= 50, "{run} of {SCENARIOS} run");
    assert!(percent(shut, run) >= 25, "{shut} of {run} have shut weeks");
    for ((name, _), count) in SORTS.iter().zip(sorts) {
        let least = if name.starts_with("shut") { 2 } else { 1 };
        assert!(percent(count, run) >= least, "{count} of {run} are of the sort: {name}");
    }
}

/// Every plant is within its ranges, and of those that run with several weeks most
/// can be rolled on at any week, and some owe too much.
#[test]
fn most_are_rolled_on() {
    let mut random = Random::new(10);
    let (mut rolls, mut rolled, mut owing) = (0, 0, 0);
    for _ in 0..SCENARIOS {
        let sizes = sizes(&mut random);
        let Scenario { plant, slots } = Scenario::new(&mut random, sizes);
        assert_eq!(forms::read_plant(&plant.encode()).as_ref(), Ok(&plant));
        let Ok(plan) = machine::run(&plant, &slots) else { continue };
        for k in 1..sizes.weeks {
            rolls += 1;
            match rolling::roll(&plant, &plan, k as u64, &rate_list(&plant.rates)) {
                Ok(_) => rolled += 1,
                Err(number) => {
                    assert_eq!(number, 62);
                    owing += 1;
                }
            }
        }
    }
    assert!(percent(rolled, rolls) >= 60, "{rolled} of {rolls} are rolled on");
    assert!(percent(owing, rolls) >= 5, "{owing} of {rolls} owe too much");
}

/// Most random counts of weeks and lists of rates are right.
#[test]
fn most_rolls_are_right() {
    let mut random = Random::new(11);
    let (mut runs, mut lists) = (0, 0);
    for _ in 0..SCENARIOS {
        let sizes = sizes(&mut random);
        let sizes = Sizes { weeks: sizes.weeks.max(2), ..sizes };
        let Scenario { plant, .. } = Scenario::new(&mut random, sizes);
        let k = any_k(&mut random, sizes.weeks);
        runs += usize::from((1..sizes.weeks as u64).contains(&k));
        let list = any_rates(&mut random, &plant);
        lists += usize::from(forms::read_rates(sizes, &list).is_ok());
    }
    for right in [runs, lists] {
        assert!((60..95).contains(&percent(right, SCENARIOS)), "{right} of {SCENARIOS}");
    }
}
