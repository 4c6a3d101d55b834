//! The library's calls against those of the second implementation, on random
//! files. A case is one call: its number, its profit or length, and every byte
//! of its output are compared, with bytes around the output as well.

use std::collections::BTreeMap;
use std::fmt;

use crate::layout::Parts;
use crate::model::{Kind, Plan, Plant, Refusal, Sizes, Slots};
use crate::mutants;
use crate::random::Random;
use crate::rolls::{any_k, any_rates, rate_list, Roll, ROLL_SORTS};
use crate::scenario::{self, Scenario, SORTS};
use crate::{following, library, machine, reference};

/// The four calls.
#[derive(Clone, Copy, Debug, PartialEq, Eq, PartialOrd, Ord)]
pub enum Call {
    Check,
    Slots,
    Plan,
    Roll,
}

pub const CALLS: [Call; 4] = [Call::Check, Call::Slots, Call::Plan, Call::Roll];

impl Call {
    /// The numbers that this call can return, 0 for no refusal.
    pub fn numbers(self) -> Vec<Refusal> {
        let plant = 0..=5;
        match self {
            Call::Check => plant.chain(11..=14).chain(31..=41).collect(),
            Call::Slots => plant.chain(11..=14).chain(31..=41).chain([51]).collect(),
            Call::Plan => plant.chain(21..=25).chain([35, 36, 38, 39, 40, 51]).collect(),
            Call::Roll => plant.chain(11..=14).chain(31..=41).chain([51, 61, 62]).collect(),
        }
    }
}

/// How often each call returned each number.
#[derive(Clone, Debug, Default)]
pub struct Counts {
    pub cases: u64,
    by_number: BTreeMap<(Refusal, Call), u64>,
    /// Sizes with which a plan passed.
    passed: Vec<Sizes>,
    /// How often a plan of each sort passed.
    passed_sorts: [u64; SORTS.len()],
    /// How many rolls there were of each sort.
    roll_sorts: [u64; ROLL_SORTS.len()],
}

impl Counts {
    pub fn of(&self, call: Call, number: Refusal) -> u64 {
        self.by_number.get(&(number, call)).copied().unwrap_or(0)
    }

    /// The numbers that a call returned.
    pub fn numbers(&self, call: Call) -> Vec<Refusal> {
        self.by_number.keys().filter(|key| key.1 == call).map(|key| key.0).collect()
    }

    /// Whether a plan of such sizes passed.
    pub fn has_passed(&self, wanted: impl Fn(Sizes) -> bool) -> bool {
        self.passed.iter().any(|&sizes| wanted(sizes))
    }

    /// How often a plan of each sort passed.
    pub fn passed_sorts(&self) -> impl Iterator<Item = (&'static str, u64)> + '_ {
        SORTS.iter().zip(self.passed_sorts).map(|(&(name, _), count)| (name, count))
    }

    /// How many rolls there were of each sort, each with outputs of several lengths.
    pub fn roll_sorts(&self) -> impl Iterator<Item = (&'static str, u64)> + '_ {
        ROLL_SORTS.iter().zip(self.roll_sorts).map(|(&(name, _), count)| (name, count))
    }

    fn add(&mut self, call: Call, number: Refusal) {
        self.cases += 1;
        *self.by_number.entry((number, call)).or_default() += 1;
    }

    fn add_passed(&mut self, plant: &Plant, slots: &Slots) {
        if !self.passed.contains(&plant.sizes) {
            self.passed.push(plant.sizes);
        }
        for ((_, is_sort), count) in SORTS.iter().zip(&mut self.passed_sorts) {
            *count += u64::from(is_sort(plant, slots));
        }
    }

    fn add_roll(&mut self, roll: &Roll) {
        for ((_, is_sort), count) in ROLL_SORTS.iter().zip(&mut self.roll_sorts) {
            *count += u64::from(is_sort(roll));
        }
    }
}

impl fmt::Display for Counts {
    fn fmt(&self, formatter: &mut fmt::Formatter<'_>) -> fmt::Result {
        writeln!(formatter, "number   check   slots    plan    roll")?;
        let mut numbers: Vec<Refusal> = self.by_number.keys().map(|key| key.0).collect();
        numbers.dedup();
        for number in numbers {
            write!(formatter, "{number:6}")?;
            for call in CALLS {
                write!(formatter, " {:7}", self.of(call, number))?;
            }
            writeln!(formatter)?;
        }
        write!(formatter, "{} cases", self.cases)
    }
}

/// What a call reads. Each allocation is as long as its bytes.
#[derive(Clone, Debug)]
pub struct Input {
    pub plant: Box<[u8]>,
    /// The plan or slot file.
    pub file: Box<[u8]>,
    /// What a roll reads beside them.
    pub rolling: Option<Rolling>,
}

/// How many weeks have run, and a list of rates.
#[derive(Clone, Debug)]
pub struct Rolling {
    pub k: u64,
    pub rates: Box<[u8]>,
}

impl Input {
    fn new(plant: &[u8], file: &[u8]) -> Input {
        Input { plant: plant.into(), file: file.into(), rolling: None }
    }
}

impl fmt::Display for Input {
    fn fmt(&self, formatter: &mut fmt::Formatter<'_>) -> fmt::Result {
        let (plant, file) = (self.plant.len(), self.file.len());
        write!(formatter, "a plant of {plant} bytes and a file of {file} bytes")?;
        match &self.rolling {
            None => Ok(()),
            Some(Rolling { k, rates }) => {
                write!(formatter, ", after {k} weeks with rates of {} bytes", rates.len())
            }
        }
    }
}

/// A call that the two implementations answer differently.
#[derive(Clone, Debug)]
pub struct Difference {
    pub seed: u64,
    pub call: Call,
    pub input: Input,
    pub library: Answer,
    pub reference: Answer,
}

impl fmt::Display for Difference {
    fn fmt(&self, formatter: &mut fmt::Formatter<'_>) -> fmt::Result {
        let Difference { seed, call, input, library, reference } = self;
        write!(
            formatter,
            "{call:?} of {input}, in the scenario of seed {seed}: \
             library {library}, second implementation {reference}",
        )
    }
}

/// What a call returned and left behind.
#[derive(Clone, Debug, PartialEq, Eq)]
pub struct Answer {
    pub number: Refusal,
    /// The profit or length.
    pub value: i128,
    /// The output with the bytes around it; nothing for a check.
    pub output: Vec<u8>,
}

impl fmt::Display for Answer {
    fn fmt(&self, formatter: &mut fmt::Formatter<'_>) -> fmt::Result {
        let sum = self
            .output
            .iter()
            .fold(0u32, |sum, &byte| sum.wrapping_mul(16_777_619).wrapping_add(byte.into()));
        write!(formatter, "{} {} (output {sum:08x})", self.number, self.value)
    }
}

/// Runs at least this many cases.
pub fn run(seed: u64, cases: u64) -> Result<Counts, Box<Difference>> {
    let mut counts = Counts::default();
    let mut seeds = Random::new(seed);
    while counts.cases < cases {
        run_scenario(seeds.number(), &mut counts)?;
    }
    Ok(counts)
}

/// Runs the cases of one plant.
pub fn run_scenario(seed: u64, counts: &mut Counts) -> Result<(), Box<Difference>> {
    let mut random = Random::new(seed);
    let sizes = scenario::sizes(&mut random);
    let Scenario { plant, slots } = Scenario::new(&mut random, sizes);
    let plan = following::plan(&plant, &slots);
    if let Ok(run) = machine::run(&plant, &slots) {
        assert_eq!(run, plan, "the tables that follow are those of the run");
        counts.add_passed(&plant, &slots);
    }
    let mut comparison = Comparison { seed, random, counts };
    comparison.compare_plan(&plant, &plant.encode(), &plan.encode())?;
    comparison.compare_slots(&plant.encode(), &slots.encode())?;
    for _ in 0..8 {
        comparison.compare_changed_plan(&plant, &slots, &plan)?;
    }
    for _ in 0..6 {
        comparison.compare_changed_slots(&plant, &slots)?;
    }
    let rolls = if sizes.weeks > 1 { 4 } else { 0 };
    for _ in 0..rolls {
        comparison.compare_changed_roll(&plant, &slots)?;
    }
    Ok(())
}

/// Bytes on either side of an output.
const MARGIN: usize = 16;

struct Comparison<'counts> {
    seed: u64,
    random: Random,
    counts: &'counts mut Counts,
}

impl Comparison<'_> {
    fn compare_changed_plan(
        &mut self,
        plant: &Plant,
        slots: &Slots,
        plan: &Plan,
    ) -> Result<(), Box<Difference>> {
        let (mut plant, mut plan) = (plant.clone(), plan.clone());
        let random = &mut self.random;
        let file = match random.below(16) {
            0 => {
                random.pick(&mutants::GROUND_CHANGES)(random, &mut plant);
                plan.encode()
            }
            1 | 2 => {
                let mut parts = Parts::new(Kind::Plan, 21, &plan.bodies());
                self.damage(&mut parts)
            }
            number => {
                random.pick(&mutants::PLAN_CHANGES)(random, &mut plant, slots, &mut plan);
                if number < 6 {
                    random.pick(&mutants::PLAN_CHANGES)(random, &mut plant, slots, &mut plan);
                }
                plan.encode()
            }
        };
        let plant_file = self.changed_plant(&plant);
        self.compare_plan(&plant, &plant_file, &file)
    }

    fn compare_changed_slots(
        &mut self,
        plant: &Plant,
        slots: &Slots,
    ) -> Result<(), Box<Difference>> {
        let (mut plant, mut slots) = (plant.clone(), slots.clone());
        let random = &mut self.random;
        let file = match random.below(16) {
            0 => {
                random.pick(&mutants::GROUND_CHANGES)(random, &mut plant);
                slots.encode()
            }
            1 => {
                mutants::break_slots_form(random, &plant, &mut slots);
                slots.encode()
            }
            2 | 3 => {
                let mut parts = Parts::new(Kind::Slots, 41, &slots.bodies());
                self.damage(&mut parts)
            }
            number => {
                random.pick(&mutants::SLOTS_CHANGES)(random, &mut plant, &mut slots);
                if number < 6 {
                    random.pick(&mutants::SLOTS_CHANGES)(random, &mut plant, &mut slots);
                }
                slots.encode()
            }
        };
        let plant = self.changed_plant(&plant);
        self.compare_slots(&plant, &file)
    }

    fn compare_changed_roll(
        &mut self,
        plant: &Plant,
        slots: &Slots,
    ) -> Result<(), Box<Difference>> {
        let (mut plant, mut slots) = (plant.clone(), slots.clone());
        let random = &mut self.random;
        let mut k = random.pick(&mutants::ROLL_CHANGES)(random, &mut plant, &mut slots);
        if random.one_in(8) {
            k = random.pick(&[k.saturating_sub(1), k + 1]);
        }
        let rates =
            if random.one_in(3) { any_rates(random, &plant) } else { rate_list(&plant.rates) };
        let plan = following::plan(&plant, &slots);
        self.compare_roll(&plant.encode(), &plan.encode(), k, &rates)
    }

    /// The plant's file, damaged once in a while.
    fn changed_plant(&mut self, plant: &Plant) -> Vec<u8> {
        match self.random.below(32) {
            0 => {
                let mut plant = plant.clone();
                self.random.pick(&mutants::PLANT_CHANGES)(&mut self.random, &mut plant);
                plant.encode()
            }
            1 => self.damage(&mut Parts::new(plant.kind(), 1, &plant.bodies())),
            2 => mutants::damage_line(&mut self.random, plant),
            _ => plant.encode(),
        }
    }

    /// A damaged file.
    fn damage(&mut self, parts: &mut Parts) -> Vec<u8> {
        let random = &mut self.random;
        random.pick(&mutants::DAMAGES)(random, parts);
        let mut file = parts.bytes();
        match random.below(8) {
            0 => file.truncate(random.below(file.len() + 1)),
            1 => {
                let place = random.below(file.len().min(200));
                file[place] = random.number() as u8;
            }
            _ => {}
        }
        file
    }

    /// Checks a plan, writes its slots, and rolls it on. The plant is that of the
    /// file, but for damage.
    fn compare_plan(
        &mut self,
        plant: &Plant,
        plant_file: &[u8],
        plan: &[u8],
    ) -> Result<(), Box<Difference>> {
        let input = Input::new(plant_file, plan);
        let kept = self.random.number() as i64;
        let mut profit = kept;
        let number = library::check_into(&input.plant, &input.file, &mut profit);
        let library = Answer { number, value: profit.into(), output: Vec::new() };
        let (number, value) = match reference::check(plant_file, plan) {
            Ok(profit) => (0, profit),
            Err(refusal) => (refusal, kept),
        };
        let reference = Answer { number, value: value.into(), output: Vec::new() };
        self.settle(Call::Check, &input, library, reference)?;

        let file = reference::slot_file(plant_file, plan);
        self.compare_output(Call::Slots, &input, file)?;

        let k = any_k(&mut self.random, plant.sizes.weeks);
        let rates = any_rates(&mut self.random, plant);
        self.compare_roll(plant_file, plan, k, &rates)
    }

    /// Writes the plan of a slot file.
    fn compare_slots(&mut self, plant: &[u8], slots: &[u8]) -> Result<(), Box<Difference>> {
        let file = reference::plan_file(plant, slots);
        self.compare_output(Call::Plan, &Input::new(plant, slots), file)
    }

    /// Rolls a plant on.
    fn compare_roll(
        &mut self,
        plant: &[u8],
        plan: &[u8],
        k: u64,
        rates: &[u8],
    ) -> Result<(), Box<Difference>> {
        let file = reference::rolled_plant_file(plant, plan, k, rates);
        let number = file.as_ref().err().copied().unwrap_or(0);
        if let Ok((plant, plan)) = reference::passed(plant, plan) {
            self.counts.add_roll(&Roll { plant: &plant, plan: &plan, k, rates, number });
        }
        let rolling = Some(Rolling { k, rates: rates.into() });
        let input = Input { rolling, ..Input::new(plant, plan) };
        self.compare_output(Call::Roll, &input, file)
    }

    /// Compares a call that writes, with outputs of several lengths.
    fn compare_output(
        &mut self,
        call: Call,
        input: &Input,
        file: Result<Vec<u8>, Refusal>,
    ) -> Result<(), Box<Difference>> {
        let lengths = match &file {
            Ok(file) => {
                let shorter = self.random.below(file.len());
                let longer = file.len() + 1 + self.random.below(100);
                vec![shorter, file.len() - 1, file.len(), longer]
            }
            Err(_) => vec![self.random.pick(&[0, 1, 100, 2000])],
        };
        for length in lengths {
            let kept = self.random.number();
            let filled = self.random.bytes(length + 2 * MARGIN);

            let mut output = filled.clone();
            let mut written = kept;
            let out = &mut output[MARGIN..MARGIN + length];
            let number = write_into(call, input, out, &mut written);
            let library = Answer { number, value: written.into(), output };

            let mut output = filled;
            let answer = reference::write(&file, &mut output[MARGIN..MARGIN + length]);
            let (number, value) = match answer {
                Ok(written) => (0, written as u64),
                Err(refusal) => (refusal, kept),
            };
            let reference = Answer { number, value: value.into(), output };
            self.settle(call, input, library, reference)?;
        }
        Ok(())
    }

    fn settle(
        &mut self,
        call: Call,
        input: &Input,
        library: Answer,
        reference: Answer,
    ) -> Result<(), Box<Difference>> {
        if library != reference {
            let (seed, input) = (self.seed, input.clone());
            return Err(Box::new(Difference { seed, call, input, library, reference }));
        }
        self.counts.add(call, reference.number);
        Ok(())
    }
}

/// Makes a call of the library that writes.
fn write_into(call: Call, input: &Input, out: &mut [u8], length: &mut u64) -> Refusal {
    let Input { plant, file, rolling } = input;
    match (call, rolling) {
        (_, Some(Rolling { k, rates })) => library::roll_into(plant, file, *k, rates, out, length),
        (Call::Plan, _) => library::plan_into(plant, file, out, length),
        _ => library::slots_into(plant, file, out, length),
    }
}
