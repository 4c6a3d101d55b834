//! Each rule broken alone: one plan for each of 31 to 41 that meets all others.
//! Then what is left in a shut week, and ZF around shut weeks and in the first
//! producing week.

use doxkarin_tests::model::{OpeningLine, Plan, Plant, Refusal, Sizes, Slot, Slots};
use doxkarin_tests::rules::{self, RULES};
use doxkarin_tests::{facts, following, library, machine, reference, small};

/// Section 12: none in kind 1; then nothing, A and B mounted in kind 4.
const LINES: [Option<OpeningLine>; 4] = [
    None,
    Some(OpeningLine { mounted: 255, was_shut: 1 }),
    Some(OpeningLine { mounted: 0, was_shut: 0 }),
    Some(OpeningLine { mounted: 1, was_shut: 1 }),
];

/// The small plant's plan with this line, after a change.
fn changed(line: Option<OpeningLine>, change: fn(&Plant, &mut Plan)) -> (Plant, Plan) {
    let plant = Plant { opening_line: line, ..small::plant() };
    let mut plan = following::plan(&plant, &small::slots());
    change(&plant, &mut plan);
    (plant, plan)
}

/// The plant and plan of a fact, with this line.
fn fact(line: Option<OpeningLine>, number: usize) -> (Plant, Plan) {
    let fact = facts::all().swap_remove(number - 1);
    let plant = Plant { opening_line: line, ..fact.plant };
    let plan = following::plan(&plant, &fact.slots.expect("the plan follows from slots"));
    (plant, plan)
}

/// The small plant's first week, with both products first and last.
fn two_orders(line: Option<OpeningLine>) -> (Plant, Plan) {
    let sizes = Sizes { weeks: 1, ..small::plant().sizes };
    let demand = vec![400_000, 100_000];
    let plant = Plant { sizes, demand, opening_line: line, ..small::plant() };
    let mut plan = Plan::zeros(sizes);
    plan.ran.fill(1);
    plan.first.fill(1);
    plan.last.fill(1);
    plan.places = vec![1, 2];
    plan.minutes = vec![5000, 2000];
    following::settle(&plant, &mut plan);
    (plant, plan)
}

fn examples(line: Option<OpeningLine>) -> [(Refusal, (Plant, Plan)); 11] {
    [
        (31, two_orders(line)),
        (
            32,
            changed(line, |plant, plan| {
                plan.changeovers.fill(0);
                following::fill_profit(plant, plan);
            }),
        ),
        (
            33,
            changed(line, |plant, plan| {
                plan.opening_changeovers.fill(0);
                following::fill_profit(plant, plan);
            }),
        ),
        (34, changed(line, |_, plan| plan.places = vec![2, 1, 2, 1])),
        (35, fact(line, 5)),
        (36, fact(line, 7)),
        (
            37,
            changed(line, |plant, plan| {
                plan.grams[3] += 1;
                following::fill_inventory(plant, plan);
                following::fill_profit(plant, plan);
            }),
        ),
        (
            38,
            changed(line, |plant, plan| {
                plan.backlog[3] -= 1;
                following::fill_profit(plant, plan);
            }),
        ),
        (
            39,
            changed(line, |plant, plan| {
                plan.inventory[2] += 1;
                following::fill_profit(plant, plan);
            }),
        ),
        (40, fact(line, 12)),
        (41, changed(line, |_, plan| plan.profit += 1)),
    ]
}

#[test]
fn each_rule_is_broken_alone() {
    for (number, (plant, plan)) in LINES.into_iter().flat_map(examples) {
        let broken: Vec<Refusal> = RULES
            .iter()
            .filter(|(_, holds)| !holds(&plant, &plan))
            .map(|&(number, _)| number)
            .collect();
        // One product is mounted, so that two first ones break 33 too.
        let is_also_33 = number == 31 && plant.mounted().is_some();
        let expected = if is_also_33 { vec![31, 33] } else { vec![number] };
        assert_eq!(broken, expected, "{:?}", plant.opening_line);
    }
}

#[test]
fn the_library_names_the_broken_rule() {
    for (number, (plant, plan)) in LINES.into_iter().flat_map(examples) {
        let (plant, plan) = (plant.encode(), plan.encode());
        assert_eq!(library::check(&plant, &plan), Err(number));
        assert_eq!(reference::check(&plant, &plan), Err(number));
        assert_eq!(library::slots(&plant, &plan, &mut [0; 1000]), Err(number));
        assert_eq!(library::roll(&plant, &plan, 1, &[], &mut [0; 1000]), Err(number));
    }
}

#[test]
fn the_small_plans_meet_every_rule() {
    for (plant, plan) in [
        (small::plant(), small::plan()),
        (small::mounted_plant(), small::mounted_plan()),
        (small::long_plant(), small::long_plan()),
    ] {
        for (number, holds) in RULES {
            assert!(holds(&plant, &plan), "{number}");
        }
    }
}

/// Asserts the first rule that the plan of four weeks breaks after a change, in
/// either implementation.
fn assert_breaks(number: Refusal, change: impl FnOnce(Sizes, &mut Plan)) {
    let (plant, mut plan) = (small::long_plant(), small::long_plan());
    change(plant.sizes, &mut plan);
    following::fill_profit(&plant, &mut plan);
    assert_eq!(rules::first_broken(&plant, &plan), Some(number));
    assert_eq!(library::check(&plant.encode(), &plan.encode()), Err(number));
}

/// Weeks 1 and 2 are shut. Each of their bytes that is not 0 breaks its own rule.
#[test]
fn what_is_left_in_a_shut_week_breaks_its_rule() {
    let sizes = small::long_plant().sizes;
    for week in [1, 2] {
        for place in sizes.week_row(week) {
            assert_breaks(31, |_, plan| plan.ran[place] = 1);
            assert_breaks(31, |_, plan| plan.first[place] = 1);
            assert_breaks(31, |_, plan| plan.last[place] = 1);
            assert_breaks(31, |_, plan| (plan.first[place], plan.last[place]) = (1, 1));
            assert_breaks(34, |_, plan| plan.places[place] = 1);
            assert_breaks(35, |_, plan| plan.minutes[place] = 1);
            assert_breaks(35, |_, plan| plan.minutes[place] = 300);
            assert_breaks(37, |_, plan| plan.grams[place] = 1);
        }
        for place in sizes.week_square(week) {
            assert_breaks(32, |_, plan| plan.changeovers[place] = 1);
            assert_breaks(33, |_, plan| plan.opening_changeovers[place] = 1);
        }
        // E, F and L of one product are a producing week, which the others do not know of.
        assert_breaks(33, |_, plan| {
            let place = sizes.week_product(week, 1);
            (plan.ran[place], plan.first[place], plan.last[place]) = (1, 1, 1);
        });
    }
}

/// Week 3 has one mark of ZF, from B, the last product of week 0, to A.
#[test]
fn opening_changeovers_go_over_shut_weeks() {
    assert_breaks(33, |sizes, plan| plan.opening_changeovers[sizes.week_square(3)].fill(0));
    assert_breaks(33, |sizes, plan| {
        // From the first product of week 0.
        plan.opening_changeovers[sizes.week_square(3)].fill(0);
        plan.opening_changeovers[sizes.week_from_to(3, 0, 0)] = 1;
    });
    for (from, to) in [(0, 0), (0, 1), (1, 1)] {
        assert_breaks(33, |sizes, plan| {
            plan.opening_changeovers[sizes.week_from_to(3, from, to)] = 1;
        });
    }
    for week in [1, 2] {
        // In a shut week instead.
        assert_breaks(33, |sizes, plan| {
            plan.opening_changeovers[sizes.week_from_to(3, 1, 0)] = 0;
            plan.opening_changeovers[sizes.week_from_to(week, 1, 0)] = 1;
        });
    }
}

/// With the first three weeks shut and nothing mounted, week 3 has no mark of ZF.
#[test]
fn the_first_producing_week_has_no_opening_changeover() {
    let plant = small::long_plant();
    let mut slots = small::long_slots();
    slots.counts = vec![0, 0, 0, 1];
    slots.slots.drain(..2);
    slots.sales = vec![0, 0, 0, 200_000, 0, 0, 0, 0];
    let right = machine::run(&plant, &slots).expect("the run never stops");
    assert_eq!(library::check(&plant.encode(), &right.encode()), Ok(right.profit));
    assert_eq!(rules::first_broken(&plant, &right), None);
    for place in plant.sizes.week_square(3) {
        let mut plan = right.clone();
        plan.opening_changeovers[place] = 1;
        following::fill_profit(&plant, &mut plan);
        assert_eq!(rules::first_broken(&plant, &plan), Some(33));
        assert_eq!(library::check(&plant.encode(), &plan.encode()), Err(33));
    }
}

/// Whatever is mounted, and with up to three shut weeks before the first run: of all
/// squares of ZF in each week up to that run only those of the machine pass.
#[test]
fn the_first_producing_week_opens_with_what_is_mounted() {
    for (line, first, product) in LINES
        .into_iter()
        .flat_map(|line| (0..4).map(move |first| (line, first)))
        .flat_map(|(line, first)| (0..2).map(move |product| (line, first, product)))
    {
        let plant = Plant { opening_line: line, ..small::long_plant() };
        let sizes = plant.sizes;
        let mut rows = vec![Vec::new(); 4];
        rows[first] = vec![Slot { product, minutes: 2000 }];
        let slots = Slots::from_rows(&rows, vec![0; plant.demand.len()]);
        let right = machine::run(&plant, &slots).expect("the run never stops");
        let mut marks = vec![0; right.opening_changeovers.len()];
        if let Some(mounted) = plant.mounted() {
            marks[sizes.week_from_to(first, mounted, product.into())] = 1;
        }
        assert_eq!(right.opening_changeovers, marks);

        for week in 0..=first {
            for square in 0u8..16 {
                let mut plan = right.clone();
                for (bit, place) in sizes.week_square(week).enumerate() {
                    plan.opening_changeovers[place] = square >> bit & 1;
                }
                following::fill_profit(&plant, &mut plan);
                let broken = (plan.opening_changeovers != marks).then_some(33);
                assert_eq!(rules::first_broken(&plant, &plan), broken);
                let expected = broken.map_or(Ok(plan.profit), Err);
                assert_eq!(library::check(&plant.encode(), &plan.encode()), expected);
            }
        }
    }
}
