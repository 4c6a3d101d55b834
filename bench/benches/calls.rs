//! Times the four calls of the library beside those of the second implementation, and prints ratios as Markdown tables. Batches of
//! the two take turns, so that whatever else the machine does falls on both. No time is printed: a ratio can be compared with that
//! of another machine.

use std::hint::black_box;
use std::time::{Duration, Instant};

use doxkarin_tests::model::{Plant, Sizes, Slot, Slots, Storage};
use doxkarin_tests::rolls::rate_list;
use doxkarin_tests::{library, machine, reference, samples, small};

/// Pairs of batches for each ratio.
const PAIRS: usize = 401;
/// Rounds over all sizes for each growth.
const ROUNDS: usize = 201;
/// How long a batch takes at least: short, so that few are interrupted.
const BATCH: Duration = Duration::from_micros(100);

/// The files of one plant. All calls succeed on them.
struct Case {
    plant: Vec<u8>,
    plan: Vec<u8>,
    slots: Vec<u8>,
    /// Half of the weeks, after which the plant is rolled on with its own rates.
    k: u64,
    rates: Vec<u8>,
    /// The length of the plant file of the weeks that remain.
    rolled_length: usize,
    out: Vec<u8>,
}

impl Case {
    fn new(plant: &Plant, slots: &Slots) -> Case {
        let plan = machine::run(plant, slots).expect("the run never stops").encode();
        let (k, rates) = (plant.sizes.weeks as u64 / 2, rate_list(&plant.rates));
        let plant = plant.encode();
        let rolled = reference::rolled_plant_file(&plant, &plan, k, &rates);
        let rolled_length = rolled.expect("weeks remain").len();
        let out = vec![0; plan.len().max(rolled_length)];
        Case { plant, plan, slots: slots.encode(), k, rates, rolled_length, out }
    }

    fn small() -> Case {
        Case::new(&small::plant(), &small::slots())
    }

    /// A plant in which all products run every week, each week in another order.
    fn of_sizes(products: usize, customers: usize, weeks: usize) -> Case {
        let sizes = Sizes { products, customers, weeks };
        let mut plant = samples::least_plant(sizes);
        plant.week_minutes = 10_080;
        plant.shortest_run = 60;
        plant.storage.fill(Storage { least: 0, greatest: 4_000_000_000 });
        plant.prices.fill(12);
        plant.backlog_costs.fill(3);
        plant.inventory_costs.fill(1);
        for from in 0..products {
            plant.rates[from] = 100 + 10 * from as u32;
            for to in (0..products).filter(|&to| to != from) {
                plant.changeover_minutes[sizes.from_to(from, to)] = 20;
                plant.changeover_cents[sizes.from_to(from, to)] = 500;
            }
        }
        let minutes = plant.week_minutes / products as u16 - 20;
        plant.demand.fill(100 * u32::from(minutes) / customers as u32);
        let sales = plant.demand.iter().map(|demand| demand / 10 * 9).collect();
        let rows: Vec<Vec<Slot>> = (0..weeks)
            .map(|week| {
                let product = |place| ((place + week) % products) as u8;
                (0..products).map(|place| Slot { product: product(place), minutes }).collect()
            })
            .collect();
        Case::new(&plant, &Slots::from_rows(&rows, sales))
    }
}

/// One of the four calls, of either implementation.
struct Call {
    name: &'static str,
    library: fn(&mut Case) -> i64,
    reference: fn(&mut Case) -> i64,
    /// The bytes that the call reads and writes.
    bytes: fn(&Case) -> usize,
}

const CALLS: [Call; 4] = [
    Call {
        name: "check",
        library: |case| library::check(&case.plant, &case.plan).expect("the plan passes"),
        reference: |case| reference::check(&case.plant, &case.plan).expect("the plan passes"),
        bytes: |case| case.plant.len() + case.plan.len(),
    },
    Call {
        name: "slots",
        library: |case| {
            let out = &mut case.out[..case.slots.len()];
            library::slots(&case.plant, &case.plan, out).expect("the output has room") as i64
        },
        reference: |case| {
            let out = &mut case.out[..case.slots.len()];
            reference::slots(&case.plant, &case.plan, out).expect("the output has room") as i64
        },
        bytes: |case| case.plant.len() + case.plan.len() + case.slots.len(),
    },
    Call {
        name: "plan",
        library: |case| {
            let out = &mut case.out[..case.plan.len()];
            library::plan(&case.plant, &case.slots, out).expect("the output has room") as i64
        },
        reference: |case| {
            let out = &mut case.out[..case.plan.len()];
            reference::plan(&case.plant, &case.slots, out).expect("the output has room") as i64
        },
        bytes: |case| case.plant.len() + case.slots.len() + case.plan.len(),
    },
    Call {
        name: "roll",
        library: |case| {
            let Case { plant, plan, k, rates, rolled_length, out, .. } = case;
            let length = library::roll(plant, plan, *k, rates, &mut out[..*rolled_length]);
            length.expect("the output has room") as i64
        },
        reference: |case| {
            let Case { plant, plan, k, rates, rolled_length, out, .. } = case;
            let length = reference::roll(plant, plan, *k, rates, &mut out[..*rolled_length]);
            length.expect("the output has room") as i64
        },
        bytes: |case| case.plant.len() + case.plan.len() + case.rates.len() + case.rolled_length,
    },
];

/// How long a batch of one call takes.
fn time(call: fn(&mut Case) -> i64, case: &mut Case, turns: u32) -> Duration {
    let start = Instant::now();
    for _ in 0..turns {
        black_box(call(black_box(case)));
    }
    start.elapsed()
}

/// How many turns make a batch.
fn turns(call: fn(&mut Case) -> i64, case: &mut Case) -> u32 {
    let mut turns = 1;
    while time(call, case, turns) < BATCH {
        turns *= 2;
    }
    turns
}

/// What the middle half of some numbers lies between, and the middle one.
struct Spread {
    lower: f64,
    median: f64,
    upper: f64,
}

impl Spread {
    fn new(mut numbers: Vec<f64>) -> Spread {
        numbers.sort_by(f64::total_cmp);
        let at = |quarter: usize| numbers[(numbers.len() - 1) * quarter / 4];
        Spread { lower: at(1), median: at(2), upper: at(3) }
    }

    fn cell(&self) -> String {
        format!("{:.2} ({:.2} to {:.2})", self.median, self.lower, self.upper)
    }
}

/// One implementation of a call in one case, with the turns of a batch.
struct Batch {
    call: fn(&mut Case) -> i64,
    turns: u32,
}

impl Batch {
    fn new(call: fn(&mut Case) -> i64, case: &mut Case) -> Batch {
        Batch { call, turns: turns(call, case) }
    }

    /// The seconds of one turn.
    fn seconds(&self, case: &mut Case) -> f64 {
        time(self.call, case, self.turns).as_secs_f64() / f64::from(self.turns)
    }
}

/// The ratio of the two implementations.
fn ratio(call: &Call, case: &mut Case) -> Spread {
    let library = Batch::new(call.library, case);
    let reference = Batch::new(call.reference, case);
    Spread::new((0..PAIRS).map(|_| library.seconds(case) / reference.seconds(case)).collect())
}

/// The time in each case / that in the first. Every round times all cases, so
/// that both times of a ratio are from the same round.
fn growth(call: fn(&mut Case) -> i64, cases: &mut [Case]) -> Vec<Spread> {
    let batches: Vec<Batch> = cases.iter_mut().map(|case| Batch::new(call, case)).collect();
    let mut ratios = vec![Vec::new(); cases.len()];
    for _ in 0..ROUNDS {
        let seconds: Vec<f64> =
            batches.iter().zip(&mut *cases).map(|(batch, case)| batch.seconds(case)).collect();
        for (ratios, time) in ratios.iter_mut().zip(&seconds) {
            ratios.push(time / seconds[0]);
        }
    }
    ratios.into_iter().map(Spread::new).collect()
}

fn print_ratios() {
    println!("Time of the library / time of the second implementation: median (quartiles) of {PAIRS} pairs of");
    println!("batches that take turns. Outputs are exactly as long as the result and not cleared between calls. A plant is");
    println!("rolled on after half of its weeks, with its own rates.");
    println!();
    println!("| Plant | Files, bytes | {} |", CALLS.map(|call| call.name).join(" | "));
    println!("|---|---|---|---|---|---|");
    let cases = [
        ("small: 2 products, 1 customer, 2 weeks", Case::small()),
        ("10 products, 8 customers, 8 weeks", Case::of_sizes(10, 8, 8)),
        ("16 products, 8 customers, 26 weeks", Case::of_sizes(16, 8, 26)),
    ];
    for (name, mut case) in cases {
        let ratios = CALLS.map(|call| ratio(&call, &mut case).cell());
        let bytes = case.plant.len() + case.plan.len() + case.slots.len();
        println!("| {name} | {bytes} | {} |", ratios.join(" | "));
    }
}

fn print_growth() {
    const WEEKS: [usize; 5] = [2, 4, 8, 16, 26];
    println!("Growth with the bytes that a call reads and writes, 16 products and 8 customers. Each number is that of the row");
    println!("/ that of 2 weeks: median (quartiles) of {ROUNDS} rounds over all rows.");
    println!();
    println!("| Call | Weeks | Bytes | Time of the library | Time of the second implementation |");
    println!("|---|---|---|---|---|");
    let mut cases = WEEKS.map(|weeks| Case::of_sizes(16, 8, weeks));
    for call in CALLS {
        let bytes = cases.each_ref().map(|case| (call.bytes)(case) as f64);
        let library = growth(call.library, &mut cases);
        let reference = growth(call.reference, &mut cases);
        for (row, weeks) in WEEKS.iter().enumerate().skip(1) {
            let times = [library[row].cell(), reference[row].cell()].join(" | ");
            println!("| {} | {weeks} | {:.2} | {times} |", call.name, bytes[row] / bytes[0]);
        }
    }
}

fn main() {
    print_ratios();
    println!();
    print_growth();
}
