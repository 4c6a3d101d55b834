//! The reader of the file forms against the layout, row by row.

use doxkarin_tests::forms::{read_plan, read_plant, read_rates, read_slots};
use doxkarin_tests::layout::Parts;
use doxkarin_tests::model::{Kind, OpeningLine, Plant, Refusal, Sizes, Slot, Slots, Storage};
use doxkarin_tests::rolls::rate_list;
use doxkarin_tests::{samples, small};

/// One kind of file: its first section, its right bodies, and the refusal of a
/// file read with the small plant.
struct Form {
    kind: Kind,
    first: u8,
    bodies: Vec<Vec<u8>>,
    wrong_contents: Refusal,
    refusal: fn(&[u8]) -> Option<Refusal>,
}

fn forms() -> [Form; 4] {
    [
        Form {
            kind: Kind::Plant,
            first: 1,
            bodies: small::plant().bodies(),
            wrong_contents: 1,
            refusal: |file| read_plant(file).err(),
        },
        Form {
            kind: Kind::MountedPlant,
            first: 1,
            bodies: small::mounted_plant().bodies(),
            wrong_contents: 1,
            refusal: |file| read_plant(file).err(),
        },
        Form {
            kind: Kind::Plan,
            first: 21,
            bodies: small::plan().bodies(),
            wrong_contents: 11,
            refusal: |file| read_plan(&small::plant(), file).err(),
        },
        Form {
            kind: Kind::Slots,
            first: 41,
            bodies: small::slots().bodies(),
            wrong_contents: 21,
            refusal: |file| read_slots(&small::plant(), file).err(),
        },
    ]
}

#[test]
fn reading_undoes_encoding() {
    let plant = small::plant();
    assert_eq!(read_plant(&plant.encode()), Ok(plant.clone()));
    let mounted = small::mounted_plant();
    assert_eq!(read_plant(&mounted.encode()), Ok(mounted));
    let greatest = samples::greatest_plant();
    assert_eq!(read_plant(&greatest.encode()), Ok(greatest));
    let least = samples::least_plant(Sizes { products: 1, customers: 1, weeks: 1 });
    assert_eq!(read_plant(&least.encode()), Ok(least));

    let mut plan = small::plan();
    assert_eq!(read_plan(&plant, &plan.encode()), Ok(plan.clone()));
    plan.places.fill(255);
    plan.minutes.fill(u16::MAX);
    plan.grams.fill(u32::MAX);
    plan.profit = -1;
    assert_eq!(read_plan(&plant, &plan.encode()), Ok(plan));

    let mut slots = small::slots();
    assert_eq!(read_slots(&plant, &slots.encode()), Ok(slots.clone()));
    slots.slots[0] = slots.slots[1];
    slots.slots[1].minutes = u16::MAX;
    slots.sales.fill(u32::MAX);
    assert_eq!(read_slots(&plant, &slots.encode()), Ok(slots));
}

#[test]
fn a_cut_file_lacks_contents_or_a_body() {
    for form in forms() {
        let parts = Parts::new(form.kind, form.first, &form.bodies);
        let file = parts.bytes();
        for length in 0..file.len() {
            let misplaced = u32::from(length >= parts.contents_end());
            let expected = Some(form.wrong_contents + misplaced);
            assert_eq!((form.refusal)(&file[..length]), expected, "{} {length}", form.kind);
        }
    }
}

#[test]
fn every_byte_of_the_contents_counts() {
    for form in forms() {
        let parts = Parts::new(form.kind, form.first, &form.bodies);
        for place in 0..parts.contents_end() {
            let mut file = parts.bytes();
            file[place] ^= 128;
            let is_place = place >= 2 && (place - 2) % 9 > 0;
            let expected = Some(form.wrong_contents + u32::from(is_place));
            assert_eq!((form.refusal)(&file), expected, "{} {place}", form.kind);
        }
    }
}

#[test]
fn every_body_has_its_length() {
    for form in forms() {
        for section in 0..form.bodies.len() {
            let expected = Some(match (form.kind, section) {
                (Kind::Plant | Kind::MountedPlant, 0) => 2,
                (Kind::Plant | Kind::MountedPlant, _) => 4,
                (Kind::Plan, _) => 13,
                (Kind::Slots, _) => 23,
            });
            let mut longer = form.bodies.clone();
            longer[section].push(0);
            let longer = Parts::new(form.kind, form.first, &longer).bytes();
            assert_eq!((form.refusal)(&longer), expected, "{} {section}", form.kind);

            let mut shorter = form.bodies.clone();
            shorter[section].pop();
            let shorter = Parts::new(form.kind, form.first, &shorter).bytes();
            assert_eq!((form.refusal)(&shorter), expected, "{} {section}", form.kind);
        }
    }
}

#[test]
fn the_first_broken_row_refuses() {
    type Damage = fn(&mut [Vec<u8>]);
    let damages: [&[(Refusal, Damage)]; 4] = [
        &[
            (5, |bodies| bodies[1].fill(0)),
            (4, |bodies| bodies[2].push(0)),
            (3, |bodies| bodies[0][0] = 0),
        ],
        &[
            (5, |bodies| bodies[11][0] = 2),
            (4, |bodies| bodies[11].push(0)),
            (3, |bodies| bodies[0][0] = 0),
        ],
        &[(14, |bodies| bodies[0][0] = 2), (13, |bodies| bodies[10].push(0))],
        &[(24, |bodies| bodies[1][0] = 2), (23, |bodies| bodies[2].push(0))],
    ];
    for (mut form, damages) in forms().into_iter().zip(damages) {
        for (number, damage) in damages {
            damage(&mut form.bodies);
            let file = Parts::new(form.kind, form.first, &form.bodies).bytes();
            assert_eq!((form.refusal)(&file), Some(*number));
        }
        let mut parts = Parts::new(form.kind, form.first, &form.bodies);
        parts.bodies.push(0);
        assert_eq!((form.refusal)(&parts.bytes()), Some(form.wrong_contents + 1));
        parts.kind = 0;
        assert_eq!((form.refusal)(&parts.bytes()), Some(form.wrong_contents));
    }
}

#[test]
fn every_mark_is_0_or_1() {
    let plant = small::plant();
    let right = small::plan().bodies();
    for section in 0..5 {
        for place in 0..right[section].len() {
            for (mark, expected) in [(0, None), (1, None), (2, Some(14)), (255, Some(14))] {
                let mut bodies = right.clone();
                bodies[section][place] = mark;
                let file = Parts::new(Kind::Plan, 21, &bodies).bytes();
                assert_eq!(read_plan(&plant, &file).err(), expected, "{section} {place} {mark}");
            }
        }
    }
}

#[test]
fn a_week_has_up_to_as_many_slots_as_products() {
    let plant = small::plant();
    let slot = Slot { product: 1, minutes: 0 };
    for first in 0..=4 {
        for second in 0..=4 {
            let rows = [vec![slot; first], vec![slot; second]];
            let slots = Slots::from_rows(&rows, small::slots().sales);
            let expected = if first.max(second) > 2 { Err(24) } else { Ok(slots.clone()) };
            assert_eq!(read_slots(&plant, &slots.encode()), expected, "{first} {second}");
        }
    }
}

#[test]
fn every_plant_number_has_its_range() {
    type Change = fn(&mut Plant, u32);
    let greatest: [(u32, Change); 12] = [
        (100_000, |plant, value| plant.rates[1] = value),
        (10_080, |plant, value| plant.changeover_minutes[2] = value as u16),
        (0, |plant, value| plant.changeover_minutes[0] = value as u16),
        (1_000_000, |plant, value| plant.changeover_cents[1] = value),
        (0, |plant, value| plant.changeover_cents[3] = value),
        (100_000_000, |plant, value| plant.demand[3] = value),
        (100_000, |plant, value| plant.prices[1] = value),
        (100_000, |plant, value| plant.backlog_costs[1] = value),
        (100_000, |plant, value| plant.inventory_costs[1] = value),
        (4_000_000_000, |plant, value| {
            plant.storage[1] = Storage { least: value, greatest: value }
        }),
        (4_000_000_000, |plant, value| plant.opening_inventory[1] = value),
        (10_080, |plant, value| plant.week_minutes = value as u16),
    ];
    let least: [(u32, Change); 3] = [
        (1, |plant, value| plant.rates[0] = value),
        (1, |plant, value| plant.shortest_run = value as u16),
        (300, |plant, value| plant.week_minutes = value as u16),
    ];
    for right in [small::plant(), small::mounted_plant()] {
        let number = |change: Change, value| {
            let mut plant = right.clone();
            change(&mut plant, value);
            read_plant(&plant.encode()).err()
        };
        for (place, (value, change)) in greatest.into_iter().enumerate() {
            assert_eq!(number(change, value), None, "greatest {place}");
            assert_eq!(number(change, value + 1), Some(5), "greatest {place}");
        }
        for (place, (value, change)) in least.into_iter().enumerate() {
            assert_eq!(number(change, value), None, "least {place}");
            assert_eq!(number(change, value - 1), Some(5), "least {place}");
        }
        let limits = Storage { least: 1, greatest: 0 };
        let plant = Plant { storage: vec![limits; 2], ..right };
        assert_eq!(read_plant(&plant.encode()), Err(5));
    }
}

/// Kind 4 may owe more at first than kind 1.
#[test]
fn the_opening_backlog_has_the_range_of_its_kind() {
    for (right, greatest) in
        [(small::plant(), 100_000_000), (small::mounted_plant(), 1_600_000_000)]
    {
        for place in 0..right.opening_backlog.len() {
            let number = |backlog| {
                let mut plant = right.clone();
                plant.opening_backlog[place] = backlog;
                read_plant(&plant.encode()).err()
            };
            assert_eq!(number(greatest), None, "{place}");
            assert_eq!(number(greatest + 1), Some(5), "{place}");
            assert_eq!(number(u32::MAX), Some(5), "{place}");
        }
    }
}

#[test]
fn rates_are_read() {
    let sizes = Sizes { products: 3, customers: 2, weeks: 1 };
    let list = rate_list(&[1, 65_536, 100_000]);
    assert_eq!(list, [1, 0, 0, 0, 0, 0, 1, 0, 0xa0, 0x86, 1, 0]);
    assert_eq!(read_rates(sizes, &list), Ok(vec![1, 65_536, 100_000]));
    for length in 0..12 {
        assert_eq!(read_rates(sizes, &list[..length]), Err(4), "{length}");
    }
    assert_eq!(read_rates(sizes, &[&list[..], &[0]].concat()), Err(4));
    // The length goes before the range.
    assert_eq!(read_rates(sizes, &[0; 11]), Err(4));
    assert_eq!(read_rates(sizes, &[0; 12]), Err(5));
    for place in 0..3 {
        for (rate, expected) in [(0, Some(5)), (1, None), (100_000, None), (100_001, Some(5))] {
            let mut rates = [7; 3];
            rates[place] = rate;
            assert_eq!(read_rates(sizes, &rate_list(&rates)).err(), expected, "{place} {rate}");
        }
    }
}

/// Kind 4 has section 12 and kind 1 has not; there are no other plants.
#[test]
fn the_kind_tells_the_count_of_sections() {
    for plant in [small::plant(), small::mounted_plant()] {
        for kind in 0..=255 {
            let mut file = plant.encode();
            file[0] = kind;
            let expected = (kind != plant.kind().byte()).then_some(1);
            assert_eq!(read_plant(&file).err(), expected, "{kind}");
        }
        for count in 0..=255 {
            let mut file = plant.encode();
            file[1] = count;
            let expected = (usize::from(count) != plant.bodies().len()).then_some(1);
            assert_eq!(read_plant(&file).err(), expected, "{count}");
        }
    }
    let (without, with) = (small::plant().bodies(), small::mounted_plant().bodies());
    assert_eq!(read_plant(&Parts::new(Kind::Plant, 1, &with).bytes()), Err(1));
    assert_eq!(read_plant(&Parts::new(Kind::MountedPlant, 1, &without).bytes()), Err(1));
}

#[test]
fn section_12_has_two_numbers() {
    for length in [0, 1, 2, 3, 4, 255] {
        let mut bodies = small::mounted_plant().bodies();
        bodies[11] = vec![0; length];
        let file = Parts::new(Kind::MountedPlant, 1, &bodies).bytes();
        assert_eq!(read_plant(&file).err(), (length != 2).then_some(4), "{length}");
    }
}

#[test]
fn section_12_has_a_product_or_none() {
    for products in 1..=16 {
        let least = samples::least_plant(Sizes { products, customers: 1, weeks: 1 });
        for mounted in 0..=255 {
            for was_shut in [0, 1, 2, 255] {
                let opening_line = Some(OpeningLine { mounted, was_shut });
                let plant = Plant { opening_line, ..least.clone() };
                let is_known = usize::from(mounted) < products || mounted == 255;
                let expected = if is_known && was_shut <= 1 { Ok(plant.clone()) } else { Err(5) };
                assert_eq!(read_plant(&plant.encode()), expected, "{products} {mounted}");
            }
        }
    }
}

/// Kind 1 reads as nothing mounted.
#[test]
fn what_is_mounted_is_read() {
    let mounted = |line| Plant { opening_line: line, ..small::plant() }.mounted();
    assert_eq!(mounted(None), None);
    for was_shut in [0, 1] {
        assert_eq!(mounted(Some(OpeningLine { mounted: 255, was_shut })), None);
        assert_eq!(mounted(Some(OpeningLine { mounted: 0, was_shut })), Some(0));
        assert_eq!(mounted(Some(OpeningLine { mounted: 1, was_shut })), Some(1));
    }
}
