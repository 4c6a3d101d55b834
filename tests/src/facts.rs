//! P1 to P13: the small plant and changes to it, as README.md lists them, each
//! with its answer. The other tables and the profit follow each change.

use crate::following;
use crate::model::{Plan, Plant, Refusal, Sizes, Slots, Storage};
use crate::samples::Sample;
use crate::small;

/// One of P1 to P13.
#[derive(Clone, Debug)]
pub struct Fact {
    pub number: u8,
    pub plant: Plant,
    pub plan: Plan,
    /// The slots that the plan follows from, if it does from any.
    pub slots: Option<Slots>,
    /// The profit, or the refusal: of the plan, and of the run of its slots.
    pub answer: Result<i64, Refusal>,
    /// What `planreport` prints.
    pub text: &'static str,
}

impl Fact {
    /// The name of its plan file.
    pub fn plan_name(&self) -> String {
        format!("p{:02}.bin", self.number)
    }

    /// The name of its plant file: that of the small plant, or one of its own.
    pub fn plant_name(&self) -> String {
        if self.plant == small::plant() {
            "plant.bin".to_string()
        } else {
            format!("p{:02}-plant.bin", self.number)
        }
    }
}

/// The files of `planreport`: the small plant, its plan, and those of the facts.
pub fn files() -> Vec<Sample> {
    let file = |name: String, number: Refusal, bytes| Sample { name, number, bytes };
    let mut files = vec![
        file("plant.bin".to_string(), 0, small::plant().encode()),
        file("plan.bin".to_string(), 0, small::plan().encode()),
    ];
    for fact in all() {
        if fact.plant != small::plant() {
            files.push(file(fact.plant_name(), 0, fact.plant.encode()));
        }
        files.push(file(fact.plan_name(), fact.answer.err().unwrap_or(0), fact.plan.encode()));
    }
    files
}

/// What `planreport` prints of the small plant and its plan.
pub const SMALL_TEXT: &str = "\
passed 8650000
1 0 0 0 5000
1 1 40 5040 7040
2 1 0 0 3000
2 0 30 3030 5030
";

/// What `planreport` prints of the small plant with B mounted, which is none of
/// the facts.
pub const MOUNTED_TEXT: &str = "\
passed 8150000
1 0 30 30 5030
1 1 40 5070 7070
2 1 0 0 3000
2 0 30 3030 5030
";

pub fn all() -> Vec<Fact> {
    vec![
        fact(1, Ok(8_650_000), SMALL_TEXT, |_, _| ()),
        Fact {
            number: 2,
            plant: small::plant(),
            plan: Plan { profit: 8_650_001, ..small::plan() },
            slots: None,
            answer: Err(41),
            text: "refused 41\n",
        },
        lone_ring(),
        fact(
            4,
            Ok(6_625_000),
            "\
passed 6625000
1 0 0 0 5000
1 1 40 5040 7040
2 1 0 0 300
2 0 30 330 2330
",
            |_, slots| set_second_run_of_b(slots, 300, 15_000),
        ),
        fact(5, Err(35), "refused 35\n", |_, slots| set_second_run_of_b(slots, 299, 14_950)),
        fact(
            6,
            Ok(8_346_000),
            "\
passed 8346000
1 0 0 0 5000
1 1 40 5040 10080
2 1 0 0 3000
2 0 30 3030 5030
",
            |_, slots| slots.slots[1].minutes = 5040,
        ),
        fact(7, Err(36), "refused 36\n", |_, slots| slots.slots[1].minutes = 5041),
        fact(8, Err(39), "refused 39\n", |_, slots| slots.sales[3] = 150_001),
        fact(9, Err(38), "refused 38\n", |_, slots| slots.sales[0] = 400_001),
        fact(10, Err(39), "refused 39\n", |_, slots| shut_second_week(slots)),
        fact(11, Ok(8_650_000), SMALL_TEXT, |plant, _| plant.storage[0].greatest = 100_000),
        fact(12, Err(40), "refused 40\n", |plant, _| plant.storage[0].greatest = 99_999),
        fact(
            13,
            Ok(4_500_000),
            "\
passed 4500000
1 0 0 0 5000
1 1 40 5040 7040
",
            |_, slots| {
                shut_second_week(slots);
                slots.sales[1] = 100_000;
                slots.sales[3] = 0;
            },
        ),
    ]
}

/// The small plant after a change, with the tables that follow.
fn fact(
    number: u8,
    answer: Result<i64, Refusal>,
    text: &'static str,
    change: fn(&mut Plant, &mut Slots),
) -> Fact {
    let (mut plant, mut slots) = (small::plant(), small::slots());
    change(&mut plant, &mut slots);
    let plan = following::plan(&plant, &slots);
    Fact { number, plant, plan, slots: Some(slots), answer, text }
}

fn set_second_run_of_b(slots: &mut Slots, minutes: u16, sale: u32) {
    slots.slots[2].minutes = minutes;
    slots.sales[3] = sale;
}

fn shut_second_week(slots: &mut Slots) {
    slots.counts[1] = 0;
    slots.slots.truncate(2);
}

/// P3: one week of three products, C with B's numbers and no changeover to or
/// from C. A is first and last; B and C follow each other.
fn lone_ring() -> Fact {
    let sizes = Sizes { products: 3, customers: 1, weeks: 1 };
    let plant = Plant {
        sizes,
        rates: vec![100, 50, 50],
        changeover_minutes: vec![0, 40, 0, 30, 0, 0, 0, 0, 0],
        changeover_cents: vec![0, 600, 0, 500, 0, 0, 0, 0, 0],
        demand: vec![400_000, 100_000, 100_000],
        prices: vec![10, 12, 12],
        backlog_costs: vec![2, 3, 3],
        inventory_costs: vec![1, 1, 1],
        storage: vec![Storage { least: 0, greatest: 2_000_000 }; 3],
        opening_inventory: vec![0; 3],
        opening_backlog: vec![0; 3],
        ..small::plant()
    };
    let mut plan = Plan::zeros(sizes);
    plan.ran.fill(1);
    plan.first[0] = 1;
    plan.last[0] = 1;
    plan.changeovers[sizes.week_from_to(0, 1, 2)] = 1;
    plan.changeovers[sizes.week_from_to(0, 2, 1)] = 1;
    plan.places = vec![1, 2, 3];
    Fact { number: 3, plant, plan, slots: None, answer: Err(34), text: "refused 34\n" }
}
