//! Safe wrappers of the compiled library's four calls, as `include/doxkarin.h`
//! declares them. The calls take any bytes, so the wrappers test nothing.
//!
//! [`check`], [`slots`], [`plan`] and [`roll`] give an answer or the refusal. The
//! variants that end in `_into` are the calls as C has them: they return the
//! number, 0 for no refusal, and show what became of the caller's variable.

use crate::model::Refusal;

extern "C" {
    fn doxkarin_check(
        plant: *const u8,
        plant_length: usize,
        plan: *const u8,
        plan_length: usize,
        profit: *mut i64,
    ) -> u32;

    fn doxkarin_slots(
        plant: *const u8,
        plant_length: usize,
        plan: *const u8,
        plan_length: usize,
        out: *mut u8,
        out_length: usize,
        length: *mut u64,
    ) -> u32;

    fn doxkarin_plan(
        plant: *const u8,
        plant_length: usize,
        slots: *const u8,
        slots_length: usize,
        out: *mut u8,
        out_length: usize,
        length: *mut u64,
    ) -> u32;

    fn doxkarin_roll(
        plant: *const u8,
        plant_length: usize,
        plan: *const u8,
        plan_length: usize,
        k: u64,
        rates: *const u8,
        rates_length: usize,
        out: *mut u8,
        out_length: usize,
        length: *mut u64,
    ) -> u32;
}

/// Checks a plan: its profit in thousandths of a cent.
pub fn check(plant: &[u8], plan: &[u8]) -> Result<i64, Refusal> {
    let mut profit = 0;
    match check_into(plant, plan, &mut profit) {
        0 => Ok(profit),
        refusal => Err(refusal),
    }
}

/// Writes the slot file of a plan that passes to the start of `out`: its length.
pub fn slots(plant: &[u8], plan: &[u8], out: &mut [u8]) -> Result<usize, Refusal> {
    let mut length = 0;
    match slots_into(plant, plan, out, &mut length) {
        0 => Ok(as_length(length)),
        refusal => Err(refusal),
    }
}

/// Writes the plan file of a slot file's run to the start of `out`: its length.
pub fn plan(plant: &[u8], slots: &[u8], out: &mut [u8]) -> Result<usize, Refusal> {
    let mut length = 0;
    match plan_into(plant, slots, out, &mut length) {
        0 => Ok(as_length(length)),
        refusal => Err(refusal),
    }
}

/// Writes the plant file of the weeks after the first `k` of a plan that passes,
/// with these rates, to the start of `out`: its length.
pub fn roll(
    plant: &[u8],
    plan: &[u8],
    k: u64,
    rates: &[u8],
    out: &mut [u8],
) -> Result<usize, Refusal> {
    let mut length = 0;
    match roll_into(plant, plan, k, rates, out, &mut length) {
        0 => Ok(as_length(length)),
        refusal => Err(refusal),
    }
}

/// Checks a plan: 0 and its profit, or the refusal.
pub fn check_into(plant: &[u8], plan: &[u8], profit: &mut i64) -> Refusal {
    // SAFETY: both slices and `profit` are valid for the whole call, and the
    // exclusive borrow keeps `profit` apart from them. A slice's pointer is never
    // null, and the call keeps no pointer.
    unsafe { doxkarin_check(plant.as_ptr(), plant.len(), plan.as_ptr(), plan.len(), profit) }
}

/// Writes the slot file of a plan that passes: 0 and its length, or the refusal.
pub fn slots_into(plant: &[u8], plan: &[u8], out: &mut [u8], length: &mut u64) -> Refusal {
    let (plant_start, plan_start, out_start) = (plant.as_ptr(), plan.as_ptr(), out.as_mut_ptr());
    // SAFETY: as in `check_into`; `out` and `length` are borrowed exclusively, so
    // that neither overlaps an input or the other.
    unsafe {
        doxkarin_slots(
            plant_start,
            plant.len(),
            plan_start,
            plan.len(),
            out_start,
            out.len(),
            length,
        )
    }
}

/// Writes the plan file of a slot file's run: 0 and its length, or the refusal.
pub fn plan_into(plant: &[u8], slots: &[u8], out: &mut [u8], length: &mut u64) -> Refusal {
    let (plant_start, slots_start, out_start) = (plant.as_ptr(), slots.as_ptr(), out.as_mut_ptr());
    // SAFETY: as in `slots_into`.
    unsafe {
        doxkarin_plan(
            plant_start,
            plant.len(),
            slots_start,
            slots.len(),
            out_start,
            out.len(),
            length,
        )
    }
}

/// Writes the plant file of the weeks after the first `k`: 0 and its length, or
/// the refusal.
pub fn roll_into(
    plant: &[u8],
    plan: &[u8],
    k: u64,
    rates: &[u8],
    out: &mut [u8],
    length: &mut u64,
) -> Refusal {
    let (plant_start, plan_start) = (plant.as_ptr(), plan.as_ptr());
    let (rates_start, out_start) = (rates.as_ptr(), out.as_mut_ptr());
    // SAFETY: as in `slots_into`, with the list of rates as a third input.
    unsafe {
        doxkarin_roll(
            plant_start,
            plant.len(),
            plan_start,
            plan.len(),
            k,
            rates_start,
            rates.len(),
            out_start,
            out.len(),
            length,
        )
    }
}

fn as_length(length: u64) -> usize {
    usize::try_from(length).expect("a length within the address space")
}
