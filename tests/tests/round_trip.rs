//! Slots out of a plan and the plan back, and plans rolled on, over the library,
//! with outputs of several lengths.

use doxkarin_tests::model::{OpeningLine, Plant, Refusal};
use doxkarin_tests::mutants::{PLAN_CHANGES, SLOTS_CHANGES};
use doxkarin_tests::random::Random;
use doxkarin_tests::rolls::rate_list;
use doxkarin_tests::scenario::{greatest_sizes, sizes, Scenario};
use doxkarin_tests::{facts, following, forms, library, machine, reference, samples, small};

/// What an output holds before a call: no byte is like its neighbours, and none
/// is one that a cleared output would have.
fn pattern(length: usize) -> Vec<u8> {
    (1..=255).cycle().take(length).collect()
}

/// The value of a length or profit before a call.
const UNTOUCHED: u64 = 0x0123_4567_89ab_cdef;

/// A call with a plant, another file and an output.
trait Call: Fn(&[u8], &[u8], &mut [u8], &mut u64) -> Refusal {}

impl<Function: Fn(&[u8], &[u8], &mut [u8], &mut u64) -> Refusal> Call for Function {}

/// The call that rolls on after so many weeks, with these rates.
fn roll_into(k: u64, rates: &[u32]) -> impl Call {
    let rates = rate_list(rates);
    move |plant: &[u8], plan: &[u8], out: &mut [u8], length: &mut u64| {
        library::roll_into(plant, plan, k, &rates, out, length)
    }
}

/// Asserts that a call gives this file in every output that has room for it, and
/// 51 in others.
fn assert_writes(call: impl Call, plant: &[u8], input: &[u8], file: &[u8]) {
    for shortage in [1, 2, file.len() / 2, file.len()] {
        let mut out = pattern(file.len() - shortage);
        let mut length = UNTOUCHED;
        assert_eq!(call(plant, input, &mut out, &mut length), 51);
        assert_eq!(length, UNTOUCHED);
        assert!(out == pattern(file.len() - shortage));
    }
    for surplus in [0, 1, 7, 4096] {
        let mut out = pattern(file.len() + surplus);
        let mut length = UNTOUCHED;
        assert_eq!(call(plant, input, &mut out, &mut length), 0);
        assert_eq!(length, file.len() as u64);
        assert!(out[..file.len()] == *file);
        assert!(out[file.len()..] == pattern(file.len() + surplus)[file.len()..]);
    }
}

#[test]
fn slots_come_back_as_the_plan() {
    for fact in facts::all().into_iter().filter(|fact| fact.answer.is_ok()) {
        let (plant, plan) = (fact.plant.encode(), fact.plan.encode());
        let mut out = pattern(1000);
        let length = library::slots(&plant, &plan, &mut out).expect("the plan passes");
        let slots = out[..length].to_vec();
        assert_writes(library::slots_into, &plant, &plan, &slots);
        assert_writes(library::plan_into, &plant, &slots, &plan);
        assert_eq!(library::check(&plant, &plan), fact.answer);
    }
}

#[test]
fn the_small_plant_goes_both_ways() {
    let (plant, plan) = (small::plant().encode(), small::plan().encode());
    let slots = small::slots().encode();
    assert_writes(library::slots_into, &plant, &plan, &slots);
    assert_writes(library::plan_into, &plant, &slots, &plan);
}

#[test]
fn the_small_plant_goes_both_ways_with_b_mounted() {
    let (plant, plan) = (small::mounted_plant().encode(), small::mounted_plan().encode());
    let slots = small::slots().encode();
    assert_writes(library::slots_into, &plant, &plan, &slots);
    assert_writes(library::plan_into, &plant, &slots, &plan);
}

#[test]
fn shut_weeks_go_both_ways() {
    let (plant, plan) = (small::long_plant().encode(), small::long_plan().encode());
    let slots = small::long_slots().encode();
    assert_writes(library::slots_into, &plant, &plan, &slots);
    assert_writes(library::plan_into, &plant, &slots, &plan);
}

#[test]
fn random_slots_go_both_ways() {
    let mut random = Random::new(3);
    let mut passed = 0;
    while passed < 400 {
        let sizes = if passed % 20 == 0 { greatest_sizes() } else { sizes(&mut random) };
        let Scenario { plant, slots } = Scenario::new(&mut random, sizes);
        if machine::run(&plant, &slots).is_err() {
            continue;
        }
        passed += 1;
        let (plant_file, slot_file) = (plant.encode(), slots.encode());

        let mut plan_file = pattern(100_000);
        let length =
            library::plan(&plant_file, &slot_file, &mut plan_file).expect("the run never stops");
        plan_file.truncate(length);
        assert_writes(library::plan_into, &plant_file, &slot_file, &plan_file);
        assert_writes(library::slots_into, &plant_file, &plan_file, &slot_file);

        let plan = forms::read_plan(&plant, &plan_file).expect("a plan was written");
        assert_eq!(library::check(&plant_file, &plan_file), Ok(plan.profit));
    }
}

/// Random plans are rolled on, each at some week, with other rates half of the time.
#[test]
fn random_plans_are_rolled_on() {
    let mut random = Random::new(13);
    let mut rolled = 0;
    for turn in 0..500 {
        let sizes = if turn % 40 == 0 { greatest_sizes() } else { sizes(&mut random) };
        let Scenario { plant, slots } = Scenario::new(&mut random, sizes);
        let Ok(plan) = machine::run(&plant, &slots) else { continue };
        if sizes.weeks == 1 {
            continue;
        }
        let k = random.between(1, sizes.weeks as u64 - 1);
        let mut rates = plant.rates.clone();
        if random.one_in(2) {
            rates.fill_with(|| random.between(1, 100_000) as u32);
        }
        let (plant, plan) = (plant.encode(), plan.encode());
        match reference::rolled_plant_file(&plant, &plan, k, &rate_list(&rates)) {
            Ok(file) => {
                assert_writes(roll_into(k, &rates), &plant, &plan, &file);
                rolled += 1;
            }
            Err(refusal) => assert_leaves(roll_into(k, &rates), &plant, &plan, refusal),
        }
    }
    assert!(rolled >= 200, "{rolled} rolled on");
}

/// Plants that differ only in the second number of section 12 get the same answers,
/// half of the time on files with a change.
#[test]
fn the_week_before_changes_no_answer() {
    let mut random = Random::new(12);
    let (mut passed, mut refused) = (0, 0);
    while passed.min(refused) < 400 {
        let sizes = sizes(&mut random);
        let Scenario { mut plant, mut slots } = Scenario::new(&mut random, sizes);
        let mut plan = following::plan(&plant, &slots);
        if random.one_in(2) {
            random.pick(&PLAN_CHANGES)(&mut random, &mut plant, &slots, &mut plan);
            random.pick(&SLOTS_CHANGES)(&mut random, &mut plant, &mut slots);
        }
        let Some(line) = plant.opening_line else { continue };
        let (plan, slots) = (plan.encode(), slots.encode());
        let k = random.between(1, sizes.weeks as u64);
        let rates = rate_list(&plant.rates);
        let [not_shut, shut] = [0, 1].map(|was_shut| {
            let opening_line = Some(OpeningLine { was_shut, ..line });
            let plant = Plant { opening_line, ..plant.clone() }.encode();
            let mut outputs = [(); 3].map(|()| pattern(65_536));
            let [slots_out, plan_out, plant_out] = &mut outputs;
            let answers = (
                library::check(&plant, &plan),
                library::slots(&plant, &plan, slots_out),
                library::plan(&plant, &slots, plan_out),
                library::roll(&plant, &plan, k, &rates, plant_out),
            );
            (answers, outputs)
        });
        assert!(not_shut == shut, "{:?} {:?}", not_shut.0, shut.0);
        let ((checked, _, written, rolled), _) = shut;
        for is_passed in [checked.is_ok(), written.is_ok(), rolled.is_ok()] {
            passed += usize::from(is_passed);
            refused += usize::from(!is_passed);
        }
    }
}

#[test]
fn a_refusal_leaves_everything() {
    for fact in facts::all() {
        let Err(refusal) = fact.answer else { continue };
        let (plant, plan) = (fact.plant.encode(), fact.plan.encode());
        if let Some(slots) = fact.slots {
            assert_leaves(library::plan_into, &plant, &slots.encode(), refusal);
        }

        let mut profit = UNTOUCHED as i64;
        assert_eq!(library::check_into(&plant, &plan, &mut profit), refusal);
        assert_eq!(profit, UNTOUCHED as i64);
        assert_leaves(library::slots_into, &plant, &plan, refusal);
        assert_leaves(roll_into(1, &fact.plant.rates), &plant, &plan, refusal);
    }
}

/// The refusals that only a roll has, and those of a list of rates.
#[test]
fn a_refused_roll_leaves_everything() {
    let (plant, plan) = (small::plant().encode(), small::plan().encode());
    for k in [0, 2, 3, u64::MAX] {
        assert_leaves(roll_into(k, &[100, 50]), &plant, &plan, 61);
    }
    for rates in [&[][..], &[100], &[100, 50, 1]] {
        assert_leaves(roll_into(1, rates), &plant, &plan, 4);
    }
    for rates in [[0, 50], [100, 0], [100_001, 50], [100, u32::MAX]] {
        assert_leaves(roll_into(1, &rates), &plant, &plan, 5);
    }
    // What is owed of B at first and not sold is one gram too much.
    let mut slots = small::slots();
    slots.sales[2] = 0;
    let plant = Plant { opening_backlog: vec![0, 1_599_900_001], ..small::mounted_plant() };
    let plan = machine::run(&plant, &slots).expect("the run never stops");
    assert_leaves(roll_into(1, &[100, 50]), &plant.encode(), &plan.encode(), 62);
}

/// Asserts that a call refuses, whatever the output's length, and leaves it.
fn assert_leaves(call: impl Call, plant: &[u8], input: &[u8], refusal: Refusal) {
    for length in [0, 1, 1000] {
        let mut out = pattern(length);
        let mut written = UNTOUCHED;
        assert_eq!(call(plant, input, &mut out, &mut written), refusal);
        assert_eq!(written, UNTOUCHED);
        assert!(out == pattern(length));
    }
}

#[test]
fn damaged_files_are_refused_by_every_call() {
    let (plant, plan) = (small::plant().encode(), small::plan().encode());
    let slots = small::slots().encode();
    for sample in samples::plants().into_iter().filter(|sample| sample.number > 0) {
        assert_eq!(library::check(&sample.bytes, &plan), Err(sample.number), "{}", sample.name);
        assert_leaves(library::slots_into, &sample.bytes, &plan, sample.number);
        assert_leaves(library::plan_into, &sample.bytes, &slots, sample.number);
        assert_leaves(roll_into(1, &[100, 50]), &sample.bytes, &plan, sample.number);
    }
    for sample in samples::plans().into_iter().filter(|sample| sample.number > 0) {
        assert_eq!(library::check(&plant, &sample.bytes), Err(sample.number), "{}", sample.name);
        assert_leaves(library::slots_into, &plant, &sample.bytes, sample.number);
        assert_leaves(roll_into(1, &[100, 50]), &plant, &sample.bytes, sample.number);
    }
    for sample in samples::slots().into_iter().filter(|sample| sample.number > 0) {
        assert_leaves(library::plan_into, &plant, &sample.bytes, sample.number);
    }
}
