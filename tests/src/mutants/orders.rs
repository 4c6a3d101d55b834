//! Changes to a plan's orders: rings, places, first and last products, and
//! changeovers between weeks.

use crate::following;
use crate::model::{Plan, Plant, Sizes, Slots};
use crate::random::Random;

/// Draws one week's Z anew: a chain from the week's first product and a ring of
/// the others, so that all sums agree. L and ZF of the next producing week follow.
/// A shut week has no chain and gets no L.
fn draw_chain_and_ring(
    sizes: Sizes,
    plan: &mut Plan,
    week: usize,
    chain: &[usize],
    ring: &[usize],
) {
    for from in 0..sizes.products {
        plan.last[sizes.week_product(week, from)] = 0;
        for to in 0..sizes.products {
            plan.changeovers[sizes.week_from_to(week, from, to)] = 0;
        }
    }
    for pair in chain.windows(2) {
        plan.changeovers[sizes.week_from_to(week, pair[0], pair[1])] = 1;
    }
    for (place, &from) in ring.iter().enumerate() {
        let to = ring[(place + 1) % ring.len()];
        plan.changeovers[sizes.week_from_to(week, from, to)] = 1;
    }
    if let Some(&last) = chain.last() {
        plan.last[sizes.week_product(week, last)] = 1;
        move_opening_from(sizes, plan, week, Some(last));
    }
}

/// Lets ZF of the next producing week after this one begin at this product, or
/// have no mark.
pub(super) fn move_opening_from(sizes: Sizes, plan: &mut Plan, week: usize, last: Option<usize>) {
    let Some(week) = (week + 1..sizes.weeks).find(|&later| !plan.is_shut(sizes, later)) else {
        return;
    };
    for to in 0..sizes.products {
        for from in 0..sizes.products {
            let follows = Some(from) == last && plan.first[sizes.week_product(week, to)] == 1;
            plan.opening_changeovers[sizes.week_from_to(week, from, to)] = u8::from(follows);
        }
    }
}

/// The products of one week in running order.
fn order(slots: &Slots, week: usize) -> Vec<usize> {
    slots.rows()[week].iter().map(|slot| slot.product.into()).collect()
}

/// A lone ring. Where the week has too few products, or none, it takes two that
/// do not run, at the shortest run.
pub(super) fn make_ring(random: &mut Random, plant: &mut Plant, slots: &Slots, plan: &mut Plan) {
    let sizes = plant.sizes;
    let week = random.below(sizes.weeks);
    let mut products = order(slots, week);
    let mut idle: Vec<usize> =
        (0..sizes.products).filter(|product| !products.contains(product)).collect();
    random.shuffle(&mut idle);
    let chain_length = if products.len() >= 3 && random.one_in(2) {
        random.between(1, products.len() as u64 - 2) as usize
    } else if idle.len() >= 2 {
        products.len()
    } else {
        return;
    };
    if chain_length == products.len() {
        for product in idle.into_iter().take(2) {
            products.push(product);
            let index = sizes.week_product(week, product);
            plan.ran[index] = 1;
            plan.places[index] = products.len() as u8;
            plan.minutes[index] = plant.shortest_run;
        }
    }
    let (chain, ring) = products.split_at(chain_length);
    draw_chain_and_ring(sizes, plan, week, chain, ring);
    match random.below(4) {
        0 => {
            for &product in ring {
                plan.places[sizes.week_product(week, product)] = products.len() as u8;
            }
        }
        1 => shuffle_week_places(random, sizes, plan, week),
        _ => {}
    }
    following::settle(plant, plan);
}

/// A product that follows itself within the week, so that only the diagonal is wrong.
pub(super) fn make_self_ring(
    random: &mut Random,
    plant: &mut Plant,
    slots: &Slots,
    plan: &mut Plan,
) {
    let week = random.below(plant.sizes.weeks);
    let mut chain = order(slots, week);
    if chain.len() >= 2 {
        let alone = chain.remove(random.between(1, chain.len() as u64 - 1) as usize);
        draw_chain_and_ring(plant.sizes, plan, week, &chain, &[alone]);
        following::settle(plant, plan);
    }
}

fn shuffle_week_places(random: &mut Random, sizes: Sizes, plan: &mut Plan, week: usize) {
    let ran: Vec<usize> = (0..sizes.products)
        .map(|product| sizes.week_product(week, product))
        .filter(|&index| plan.ran[index] == 1)
        .collect();
    let mut places: Vec<u8> = ran.iter().map(|&index| plan.places[index]).collect();
    random.shuffle(&mut places);
    for (index, place) in ran.into_iter().zip(places) {
        plan.places[index] = place;
    }
}

pub(super) fn shuffle_places(random: &mut Random, plant: &mut Plant, _: &Slots, plan: &mut Plan) {
    let week = random.below(plant.sizes.weeks);
    shuffle_week_places(random, plant.sizes, plan, week);
}

pub(super) fn change_place(random: &mut Random, plant: &mut Plant, _: &Slots, plan: &mut Plan) {
    let place = random.below(plan.places.len());
    let products = plant.sizes.products as u8;
    let old = plan.places[place];
    plan.places[place] =
        random.pick(&[0, 1, products, products + 1, 255, old.wrapping_add(1), old.wrapping_sub(1)]);
}

/// Moves a week's mark to another product.
fn move_mark(random: &mut Random, sizes: Sizes, marks: &mut [u8], week: usize) -> usize {
    let marks = &mut marks[sizes.week_row(week)];
    marks.fill(0);
    let product = random.below(marks.len());
    marks[product] = 1;
    product
}

pub(super) fn move_first(random: &mut Random, plant: &mut Plant, _: &Slots, plan: &mut Plan) {
    let week = random.below(plant.sizes.weeks);
    move_mark(random, plant.sizes, &mut plan.first, week);
}

/// Moves L, and half of the time ZF of the next producing week and the profit
/// with it.
pub(super) fn move_last(random: &mut Random, plant: &mut Plant, _: &Slots, plan: &mut Plan) {
    let week = random.below(plant.sizes.weeks);
    let last = move_mark(random, plant.sizes, &mut plan.last, week);
    if random.one_in(2) {
        move_opening_from(plant.sizes, plan, week, Some(last));
        following::fill_profit(plant, plan);
    }
}

pub(super) fn double_first_or_last(random: &mut Random, _: &mut Plant, _: &Slots, plan: &mut Plan) {
    let marks = if random.one_in(2) { &mut plan.first } else { &mut plan.last };
    let place = random.below(marks.len());
    marks[place] = 1;
}

/// A mark in ZF of week 0 or elsewhere, with the profit following.
pub(super) fn mark_opening(random: &mut Random, plant: &mut Plant, _: &Slots, plan: &mut Plan) {
    let sizes = plant.sizes;
    let any_week = random.below(sizes.weeks);
    let week = random.pick(&[0, any_week]);
    let index =
        sizes.week_from_to(week, random.below(sizes.products), random.below(sizes.products));
    plan.opening_changeovers[index] = 1;
    following::fill_profit(plant, plan);
}

/// Moves the mark of ZF in one week along its row or column, with the profit following.
pub(super) fn move_opening(random: &mut Random, plant: &mut Plant, _: &Slots, plan: &mut Plan) {
    let sizes = plant.sizes;
    let week = random.below(sizes.weeks);
    for from in 0..sizes.products {
        for to in 0..sizes.products {
            let index = sizes.week_from_to(week, from, to);
            if plan.opening_changeovers[index] == 1 {
                let moved = random.below(sizes.products);
                let (from, to) = if random.one_in(2) { (moved, to) } else { (from, moved) };
                plan.opening_changeovers[index] = 0;
                plan.opening_changeovers[sizes.week_from_to(week, from, to)] = 1;
                following::fill_profit(plant, plan);
                return;
            }
        }
    }
}
