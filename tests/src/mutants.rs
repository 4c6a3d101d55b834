//! Changes to right plants, plans and slots, and damage to their files. Each
//! takes one thing away from what makes a plan pass or a run go on; some leave
//! a file that is still right.

mod amounts;
mod files;
mod mounted;
mod orders;
mod plans;
mod plants;
mod rolls;
mod shut_weeks;
mod slots;

use crate::layout::Parts;
use crate::model::{Plan, Plant, Slots};
use crate::random::Random;

pub use files::DAMAGES;
pub use mounted::damage_line;
pub use plans::PLAN_CHANGES;
pub use plants::{GROUND_CHANGES, PLANT_CHANGES};
pub use rolls::ROLL_CHANGES;
pub use slots::{break_slots_form, SLOTS_CHANGES};

pub type PlantChange = fn(&mut Random, &mut Plant);
pub type SlotsChange = fn(&mut Random, &mut Plant, &mut Slots);
pub type PlanChange = fn(&mut Random, &mut Plant, &Slots, &mut Plan);
/// Gives the count of weeks that have run where the plant is rolled.
pub type RollChange = fn(&mut Random, &mut Plant, &mut Slots) -> u64;
pub type Damage = fn(&mut Random, &mut Parts);
