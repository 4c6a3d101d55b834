//! The fuzzer's program: the four calls on any bytes, each compared with the second implementation, whose branches guide the
//! fuzzer. Every file and output stands between inaccessible pages, at either end, and files cannot be written.

#![no_main]

use std::cell::RefCell;
use std::slice;

use doxkarin_fuzz::guarded::{Guarded, Side};
use doxkarin_fuzz::input::Files;
use doxkarin_tests::model::Refusal;
use doxkarin_tests::random::Random;
use doxkarin_tests::rolls::{any_k, any_rates};
use doxkarin_tests::{following, forms, library, mutants, reference};

extern "C" {
    fn LLVMFuzzerMutate(data: *mut u8, size: usize, most: usize) -> usize;
}

/// More than the greatest file and output.
const ROOM: usize = 1 << 17;

thread_local! {
    /// For the plant, the plan, the slots, the list of rates and an output.
    static MEMORY: RefCell<[Guarded; 5]> = RefCell::new([0; 5].map(|_| Guarded::new(ROOM)));
}

#[no_mangle]
extern "C" fn LLVMFuzzerTestOneInput(data: *const u8, size: usize) -> i32 {
    // SAFETY: libFuzzer gives bytes that are valid for the call. For none the
    // pointer may be null.
    let input = if size == 0 { &[] } else { unsafe { slice::from_raw_parts(data, size) } };
    let files = Files::split(input);
    MEMORY.with_borrow_mut(|memory| {
        for side in [Side::Start, Side::End] {
            compare(memory, &files, side);
        }
    });
    0
}

/// What a call leaves in the caller's variable.
const UNTOUCHED: u64 = 0x0123_4567_89ab_cdef;

fn compare(memory: &mut [Guarded; 5], files: &Files, side: Side) {
    let [plant, plan, slots, rates, output] = memory;
    let plant = plant.read_only(&files.plant, side);
    let plan = plan.read_only(&files.plan, side);
    let slots = slots.read_only(&files.slots, side);
    let rates = rates.read_only(&files.rates, side);

    let mut profit = UNTOUCHED as i64;
    let number = library::check_into(plant, plan, &mut profit);
    match reference::check(plant, plan) {
        Ok(expected) => assert_eq!((number, profit), (0, expected)),
        Err(refusal) => assert_eq!((number, profit), (refusal, UNTOUCHED as i64)),
    }

    let file = reference::slot_file(plant, plan);
    compare_output(output, side, &file, |out, length| {
        library::slots_into(plant, plan, out, length)
    });
    let file = reference::plan_file(plant, slots);
    compare_output(output, side, &file, |out, length| {
        library::plan_into(plant, slots, out, length)
    });
    let file = reference::rolled_plant_file(plant, plan, files.k, rates);
    compare_output(output, side, &file, |out, length| {
        library::roll_into(plant, plan, files.k, rates, out, length)
    });
}

/// Tries outputs that are shorter by one, exact and longer, or of a few bytes at
/// a refusal.
fn compare_output(
    output: &mut Guarded,
    side: Side,
    file: &Result<Vec<u8>, Refusal>,
    call: impl Fn(&mut [u8], &mut u64) -> Refusal,
) {
    let lengths = match file {
        Ok(file) => vec![file.len() - 1, file.len(), file.len() + 5],
        Err(_) => vec![0, 64],
    };
    for length in lengths {
        let out = output.writable(length, side);
        out.fill(0xa5);
        let mut written = UNTOUCHED;
        let number = call(out, &mut written);

        let mut expected = vec![0xa5; length];
        match reference::write(file, &mut expected) {
            Ok(length) => assert_eq!((number, written), (0, length as u64)),
            Err(refusal) => assert_eq!((number, written), (refusal, UNTOUCHED)),
        }
        assert!(*out == expected);
    }
}

/// Changes numbers of files that have the right form, or any bytes.
#[no_mangle]
extern "C" fn LLVMFuzzerCustomMutator(data: *mut u8, size: usize, most: usize, seed: u32) -> usize {
    let mut random = Random::new(seed.into());
    if !random.one_in(3) {
        // SAFETY: libFuzzer gives `most` bytes of room, of which `size` are the input.
        let room = unsafe { slice::from_raw_parts_mut(data, most) };
        if let Some(changed) = changed(&mut random, &room[..size]) {
            if let Some(start) = room.get_mut(..changed.len()) {
                start.copy_from_slice(&changed);
                return changed.len();
            }
        }
    }
    // SAFETY: this is libFuzzer's own function, called as it was itself.
    unsafe { LLVMFuzzerMutate(data, size, most) }
}

/// The input with one change, if its files have a form that can be changed.
fn changed(random: &mut Random, input: &[u8]) -> Option<Vec<u8>> {
    let mut files = Files::split(input);
    let mut plant = forms::read_plant(&files.plant).ok()?;
    let slots = forms::read_slots(&plant, &files.slots);
    let plan = forms::read_plan(&plant, &files.plan);
    match random.below(8) {
        0 => random.pick(&mutants::GROUND_CHANGES)(random, &mut plant),
        1 => random.pick(&mutants::PLANT_CHANGES)(random, &mut plant),
        2 => files.k = any_k(random, plant.sizes.weeks),
        3 => files.rates = any_rates(random, &plant),
        4 => {
            let mut slots = slots.ok()?;
            files.k = random.pick(&mutants::ROLL_CHANGES)(random, &mut plant, &mut slots);
            files.plan = following::plan(&plant, &slots).encode();
            files.slots = slots.encode();
        }
        5 => {
            let mut slots = slots.ok()?;
            random.pick(&mutants::SLOTS_CHANGES)(random, &mut plant, &mut slots);
            files.slots = slots.encode();
        }
        _ => {
            let (slots, mut plan) = (slots.ok()?, plan.ok()?);
            random.pick(&mutants::PLAN_CHANGES)(random, &mut plant, &slots, &mut plan);
            files.plan = plan.encode();
        }
    }
    files.plant = plant.encode();
    Some(files.join())
}
