//! Random weeks to roll at and lists of rates, mostly right, and the sorts of
//! rolls.

use crate::forms::most_opening_backlog;
use crate::model::{Kind, Plan, Plant, Refusal};
use crate::random::Random;

/// The rates of a plant as a list.
pub fn rate_list(rates: &[u32]) -> Vec<u8> {
    rates.iter().copied().flat_map(u32::to_le_bytes).collect()
}

/// A count of weeks that have run: mostly one after which weeks remain, else from
/// none to one more than there are, or one that is right only in fewer bits.
pub fn any_k(random: &mut Random, weeks: usize) -> u64 {
    let weeks = weeks as u64;
    let right = random.between(1, (weeks - 1).max(1));
    let any = random.between(0, weeks + 1);
    match random.below(16) {
        0 => {
            let far = [u64::MAX, (1 << 32) + 1, right + 256, right + 65_536, right + (1 << 32)];
            random.pick(&far)
        }
        1 => random.pick(&[0, weeks, weeks + 1]),
        2 | 3 => any,
        _ => right,
    }
}

/// A list of rates: the plant's own or others, mostly of the right length and in
/// their range.
pub fn any_rates(random: &mut Random, plant: &Plant) -> Vec<u8> {
    let mut rates = plant.rates.clone();
    if random.one_in(2) {
        rates.fill_with(|| random.between(1, 100_000) as u32);
    }
    if random.one_in(8) {
        let place = random.below(rates.len());
        rates[place] = random.pick(&[0, 100_001, (1 << 17) + 1, (1 << 24) + 1, u32::MAX]);
    }
    let mut list = rate_list(&rates);
    if random.one_in(8) {
        change_length(random, &mut list);
    }
    list
}

/// Cuts or stretches a list, or empties it.
fn change_length(random: &mut Random, list: &mut Vec<u8>) {
    match random.below(4) {
        0 => list.clear(),
        1 => list.truncate(random.below(list.len())),
        2 => list.truncate(list.len() - random.pick(&[1, 2, 3, 4])),
        _ => {
            let added = random.pick(&[1, 2, 3, 4, list.len(), 256, 65_536]);
            list.extend(list.clone().iter().cycle().take(added));
        }
    }
}

/// A roll of a plan that passes, and its number, 0 for no refusal.
pub struct Roll<'case> {
    pub plant: &'case Plant,
    pub plan: &'case Plan,
    pub k: u64,
    pub rates: &'case [u8],
    pub number: Refusal,
}

impl Roll<'_> {
    fn is_written(&self) -> bool {
        self.number == 0
    }

    /// Whether week `k` is shut, counted from 1. `k` is not more than the weeks.
    fn is_shut(&self, k: u64) -> bool {
        self.plan.is_shut(self.plant.sizes, k as usize - 1)
    }

    /// Whether a week up to week `k` produces.
    fn has_produced(&self) -> bool {
        (1..=self.k).any(|week| !self.is_shut(week))
    }

    /// The greatest amount that is owed after week `k`, counted from 1.
    fn most_owed(&self, k: u64) -> u32 {
        let rows = self.plan.backlog.chunks_exact(self.plant.sizes.weeks);
        rows.map(|weeks| weeks[k as usize - 1]).max().unwrap_or(0)
    }
}

/// Whether a roll is of some sort.
pub type RollSort = fn(&Roll) -> bool;

/// What a plant that is written may owe before its first week.
const LIMIT: u32 = most_opening_backlog(Kind::MountedPlant);

/// The sorts of rolls: refusals of the list and of what is owed, then rolls that
/// succeed.
pub const ROLL_SORTS: [(&str, RollSort); 16] = [
    ("4 of a list", |roll| roll.number == 4),
    ("5 of a list", |roll| roll.number == 5),
    ("61 of a plant of one week", |roll| roll.number == 61 && roll.plant.sizes.weeks == 1),
    ("62 by one gram", |roll| roll.number == 62 && roll.most_owed(roll.k) == LIMIT + 1),
    ("62 of a plant of kind 1", |roll| roll.number == 62 && roll.plant.opening_line.is_none()),
    ("from kind 1", |roll| roll.is_written() && roll.plant.opening_line.is_none()),
    ("from kind 4", |roll| roll.is_written() && roll.plant.opening_line.is_some()),
    ("other rates", |roll| roll.is_written() && roll.rates != rate_list(&roll.plant.rates)),
    ("owed at the limit", |roll| roll.is_written() && roll.most_owed(roll.k) == LIMIT),
    ("owed above the limit a week earlier", |roll| {
        roll.is_written() && roll.k > 1 && roll.most_owed(roll.k - 1) > LIMIT
    }),
    ("owed above the limit a week later", |roll| {
        roll.is_written() && roll.most_owed(roll.k + 1) > LIMIT
    }),
    ("the next week shut, and not this one", |roll| {
        roll.is_written() && !roll.is_shut(roll.k) && roll.is_shut(roll.k + 1)
    }),
    ("this week shut, and not the next one", |roll| {
        roll.is_written() && roll.is_shut(roll.k) && !roll.is_shut(roll.k + 1)
    }),
    ("mounted in an earlier week, over shut weeks", |roll| {
        roll.is_written() && roll.is_shut(roll.k) && roll.has_produced()
    }),
    ("mounted before the first week", |roll| {
        roll.is_written() && !roll.has_produced() && roll.plant.mounted().is_some()
    }),
    ("nothing mounted", |roll| {
        roll.is_written() && !roll.has_produced() && roll.plant.mounted().is_none()
    }),
];
