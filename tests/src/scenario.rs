//! Random plants of every size, each with slots and sales that mostly run
//! without a stop. In three of ten weeks are shut; half are of kind 4, mostly with
//! a product mounted, and half of these may owe more at first than kind 1 may.

use std::ops::RangeInclusive;

use crate::forms::most_opening_backlog;
use crate::model::{Kind, OpeningLine, Plant, Sizes, Slot, Slots, Storage};
use crate::random::Random;
use crate::samples;

const MOST_PRODUCTS: u64 = 16;
const MOST_CUSTOMERS: u64 = 8;
const MOST_WEEKS: u64 = 26;
const MOST_MINUTES: u16 = 10_080;
const MOST_STORAGE: u64 = 4_000_000_000;

#[derive(Clone, Debug)]
pub struct Scenario {
    pub plant: Plant,
    pub slots: Slots,
}

impl Scenario {
    pub fn new(random: &mut Random, sizes: Sizes) -> Scenario {
        let mut plant = plant(random, sizes);
        let shut = shut_weeks(random, sizes.weeks);
        let mut schedule = Schedule::new(&plant);
        for (week, is_shut) in shut.into_iter().enumerate() {
            if is_shut {
                schedule.slots.counts.push(0);
            } else {
                schedule.add_slots(random);
            }
            schedule.sell(random, week);
        }
        let Schedule { slots, least_inventory, greatest_inventory, .. } = schedule;
        plant.storage = least_inventory
            .into_iter()
            .zip(greatest_inventory)
            .map(|(least, greatest)| storage(random, least, greatest))
            .collect();
        Scenario { plant, slots }
    }
}

/// Whether a plant and its slots are of some sort.
pub type Sort = fn(&Plant, &Slots) -> bool;

/// The sorts of shut weeks: which they are, what is made before and after, and
/// sales. Then those of the line before week 0: the plant's kind, what is mounted,
/// and what runs first.
pub const SORTS: [(&str, Sort); 17] = [
    ("shut: the first week and not all", |_, slots| {
        slots.counts[0] == 0 && !producing_weeks(slots).is_empty()
    }),
    ("shut: the last week and not all", |_, slots| {
        slots.counts.last() == Some(&0) && !producing_weeks(slots).is_empty()
    }),
    ("shut: one between producing weeks", |_, slots| {
        passages(slots).iter().any(|passage| passage.shut == 1)
    }),
    ("shut: several in a row between producing weeks", |_, slots| {
        passages(slots).iter().any(|passage| passage.shut > 1)
    }),
    ("shut: all of several weeks", |_, slots| {
        slots.counts.len() > 1 && producing_weeks(slots).is_empty()
    }),
    ("shut: between runs of one product", |_, slots| {
        passages(slots).iter().any(|passage| passage.shut > 0 && passage.from == passage.to)
    }),
    ("shut: between runs of two products", |_, slots| {
        passages(slots).iter().any(|passage| passage.shut > 0 && passage.from != passage.to)
    }),
    ("shut: with sales", |_, slots| {
        let weeks = slots.counts.len();
        slots.sales.iter().enumerate().any(|(place, &sale)| {
            let week = place % weeks;
            slots.counts[week] == 0 && sale > 0
        })
    }),
    ("kind 1", |plant, _| plant.opening_line.is_none()),
    ("kind 4: nothing mounted", |plant, _| {
        plant.opening_line.is_some() && plant.mounted().is_none()
    }),
    ("kind 4: the mounted product first", |plant, slots| {
        plant.mounted().is_some() && plant.mounted() == first_product(slots)
    }),
    ("kind 4: another than the mounted product first", |plant, slots| {
        let first = first_product(slots);
        first.is_some() && plant.mounted().is_some_and(|mounted| first != Some(mounted))
    }),
    ("kind 4: shut weeks between what is mounted and the first product", |plant, slots| {
        plant.mounted().is_some() && slots.counts[0] == 0 && !producing_weeks(slots).is_empty()
    }),
    ("kind 4: something mounted and all weeks shut", |plant, slots| {
        plant.mounted().is_some() && producing_weeks(slots).is_empty()
    }),
    ("kind 4: after a week that was not shut", |plant, _| {
        plant.opening_line.is_some_and(|line| line.was_shut == 0)
    }),
    ("kind 4: after a shut week", |plant, _| {
        plant.opening_line.is_some_and(|line| line.was_shut == 1)
    }),
    ("kind 4: more owed at first than in kind 1", |plant, _| {
        plant.opening_backlog.iter().any(|&owed| owed > most_opening_backlog(Kind::Plant))
    }),
];

/// The first product of the first producing week, if there is one.
fn first_product(slots: &Slots) -> Option<usize> {
    slots.slots.first().map(|slot| slot.product.into())
}

/// From one producing week to the next.
struct Passage {
    /// The shut weeks between them.
    shut: usize,
    /// The last product of the one.
    from: u8,
    /// The first product of the other.
    to: u8,
}

fn producing_weeks(slots: &Slots) -> Vec<usize> {
    (0..slots.counts.len()).filter(|&week| slots.counts[week] > 0).collect()
}

fn passages(slots: &Slots) -> Vec<Passage> {
    let rows = slots.rows();
    producing_weeks(slots)
        .windows(2)
        .map(|pair| {
            let (earlier, later) = (&rows[pair[0]], &rows[pair[1]]);
            Passage {
                shut: pair[1] - pair[0] - 1,
                from: earlier[earlier.len() - 1].product,
                to: later[0].product,
            }
        })
        .collect()
}

/// Mostly small sizes, and each limit often enough.
pub fn sizes(random: &mut Random) -> Sizes {
    const MOST: [u64; 3] = [MOST_PRODUCTS, MOST_CUSTOMERS, MOST_WEEKS];
    let mut usual = random.pick(&[[3, 2, 3], [6, 3, 5]]);
    let chosen = random.below(3);
    let mut least = [1; 3];
    match random.below(32) {
        0 => return greatest_sizes(),
        1 => usual = MOST,
        2..=4 => usual[chosen] = MOST[chosen],
        5..=7 => (least[chosen], usual[chosen]) = (MOST[chosen], MOST[chosen]),
        _ => {}
    }
    let mut size = |place: usize| random.between(least[place], usual[place]) as usize;
    Sizes { products: size(0), customers: size(1), weeks: size(2) }
}

/// The greatest sizes, all at once.
pub fn greatest_sizes() -> Sizes {
    let [products, customers, weeks] =
        [MOST_PRODUCTS, MOST_CUSTOMERS, MOST_WEEKS].map(|size| size as usize);
    Sizes { products, customers, weeks }
}

/// How the numbers of one table lie in their range.
#[derive(Clone, Copy)]
enum Spread {
    Least,
    Greatest,
    Edges,
    Low,
    Any,
}

const SPREADS: [Spread; 8] = [
    Spread::Least,
    Spread::Greatest,
    Spread::Edges,
    Spread::Low,
    Spread::Low,
    Spread::Any,
    Spread::Any,
    Spread::Any,
];

impl Spread {
    fn number(self, random: &mut Random, range: &RangeInclusive<u32>) -> u32 {
        let (&least, &greatest) = (range.start(), range.end());
        match self {
            Spread::Least => least,
            Spread::Greatest => greatest,
            Spread::Edges => random.pick(&[least, least + 1, greatest - 1, greatest]),
            Spread::Low => random.between(least.into(), (greatest / 1000 + least).into()) as u32,
            Spread::Any => random.between(least.into(), greatest.into()) as u32,
        }
    }
}

fn numbers(random: &mut Random, count: usize, range: RangeInclusive<u32>) -> Vec<u32> {
    let spread = random.pick(&SPREADS);
    (0..count).map(|_| spread.number(random, &range)).collect()
}

/// A square by product from and product to with a diagonal of 0.
fn square(random: &mut Random, sizes: Sizes, greatest: u32) -> Vec<u32> {
    let mut square = numbers(random, sizes.products * sizes.products, 0..=greatest);
    for product in 0..sizes.products {
        square[sizes.from_to(product, product)] = 0;
    }
    square
}

/// A plant whose storage is not set yet.
fn plant(random: &mut Random, sizes: Sizes) -> Plant {
    let by_customer = sizes.customers * sizes.products;
    let any_week = random.between(1, MOST_MINUTES.into()) as u16;
    let week_minutes = random.pick(&[1, 2, 300, any_week, any_week, MOST_MINUTES, MOST_MINUTES]);
    let any_run = random.between(1, week_minutes.into()) as u16;
    let short_run = (week_minutes / 30).max(1);
    let shortest_run =
        random.pick(&[1, short_run, short_run, short_run, short_run, any_run, week_minutes]);
    let most_changeover = u32::from(random.pick(&[
        2,
        week_minutes.max(2) / 2 + 2,
        week_minutes / 20 + 2,
        week_minutes / 20 + 2,
        MOST_MINUTES,
    ]));
    let changeover_minutes = square(random, sizes, most_changeover.min(MOST_MINUTES.into()));
    let opening_line = opening_line(random, sizes);
    let most_owed = most_owed(random, opening_line);
    Plant {
        rates: numbers(random, sizes.products, 1..=100_000),
        changeover_minutes: changeover_minutes.iter().map(|&minutes| minutes as u16).collect(),
        changeover_cents: square(random, sizes, 1_000_000),
        demand: numbers(random, by_customer * sizes.weeks, 0..=100_000_000),
        prices: numbers(random, by_customer, 0..=100_000),
        backlog_costs: numbers(random, by_customer, 0..=100_000),
        inventory_costs: numbers(random, sizes.products, 0..=100_000),
        opening_inventory: numbers(random, sizes.products, 0..=MOST_STORAGE as u32),
        opening_backlog: numbers(random, by_customer, 0..=most_owed),
        shortest_run,
        week_minutes,
        opening_line,
        ..samples::least_plant(sizes)
    }
}

/// What may be owed before week 0. Half of the plants of kind 4 owe as much as one
/// of kind 1 may.
fn most_owed(random: &mut Random, opening_line: Option<OpeningLine>) -> u32 {
    let kinds = match opening_line {
        None => [Kind::Plant; 2],
        Some(_) => [Kind::Plant, Kind::MountedPlant],
    };
    most_opening_backlog(random.pick(&kinds))
}

/// Section 12 in half of the plants, mostly with a product mounted.
fn opening_line(random: &mut Random, sizes: Sizes) -> Option<OpeningLine> {
    random.one_in(2).then(|| OpeningLine {
        mounted: if random.one_in(5) { 255 } else { random.below(sizes.products) as u8 },
        was_shut: random.below(2) as u8,
    })
}

/// Which weeks are shut: none in most plants, else some at the beginning, at the
/// end or between, all of them, or any.
fn shut_weeks(random: &mut Random, weeks: usize) -> Vec<bool> {
    let mut shut = vec![false; weeks];
    match random.below(20) {
        0 => shut[..=random.below(weeks)].fill(true),
        1 => shut[random.below(weeks)..].fill(true),
        2 => shut.fill(true),
        3..=5 if weeks > 2 => {
            let start = random.between(1, weeks as u64 - 2) as usize;
            let end = random.between(start as u64, weeks as u64 - 2) as usize;
            shut[start..=end].fill(true);
        }
        6 | 7 => shut.fill_with(|| random.one_in(3)),
        _ => {}
    }
    shut
}

/// Limits that hold these numbers, where storage can be so great.
fn storage(random: &mut Random, least_inventory: u64, greatest_inventory: u64) -> Storage {
    let (least_inventory, greatest_inventory) =
        (least_inventory.min(MOST_STORAGE), greatest_inventory.min(MOST_STORAGE));
    let any_least = random.between(0, least_inventory);
    let any_greatest = random.between(greatest_inventory, MOST_STORAGE);
    Storage {
        least: random.pick(&[0, any_least, least_inventory]) as u32,
        greatest: random.pick(&[greatest_inventory, any_greatest, MOST_STORAGE]) as u32,
    }
}

/// Slots and sales, week by week.
struct Schedule<'plant> {
    plant: &'plant Plant,
    mounted: Option<usize>,
    inventory: Vec<u64>,
    backlog: Vec<u64>,
    least_inventory: Vec<u64>,
    greatest_inventory: Vec<u64>,
    slots: Slots,
}

impl<'plant> Schedule<'plant> {
    fn new(plant: &'plant Plant) -> Self {
        let sizes = plant.sizes;
        Schedule {
            plant,
            mounted: plant.mounted(),
            inventory: plant.opening_inventory.iter().copied().map(u64::from).collect(),
            backlog: plant.opening_backlog.iter().copied().map(u64::from).collect(),
            least_inventory: vec![u64::MAX; sizes.products],
            greatest_inventory: vec![0; sizes.products],
            slots: Slots {
                counts: Vec::new(),
                slots: Vec::new(),
                sales: vec![0; sizes.customers * sizes.products * sizes.weeks],
            },
        }
    }

    /// Adds the slots of a producing week.
    fn add_slots(&mut self, random: &mut Random) {
        let mut products: Vec<usize> = (0..self.plant.sizes.products).collect();
        random.shuffle(&mut products);
        let most = random.between(1, products.len() as u64) as usize;
        if random.one_in(3) {
            // The week begins with what is mounted.
            if let Some(place) = products.iter().position(|&product| Some(product) == self.mounted)
            {
                products.swap(0, place);
            }
        }
        let mut clock = 0;
        let mut count = 0;
        for &product in products.iter().take(most) {
            count += u8::from(self.add_slot(random, product, &mut clock));
        }
        if count == 0 {
            // What is mounted needs no changeover, and the shortest run fits a week.
            let product = self.mounted.unwrap_or(products[0]);
            count += u8::from(self.add_slot(random, product, &mut clock));
        }
        self.slots.counts.push(count);
    }

    /// Adds a slot if the week has room for it.
    fn add_slot(&mut self, random: &mut Random, product: usize, clock: &mut u64) -> bool {
        let plant = self.plant;
        let changeover = self.mounted.map_or(0, |from| {
            u64::from(plant.changeover_minutes[plant.sizes.from_to(from, product)])
        });
        let shortest = u64::from(plant.shortest_run);
        let Some(room) = u64::from(plant.week_minutes).checked_sub(*clock + changeover) else {
            return false;
        };
        if room < shortest {
            return false;
        }
        let any = random.between(shortest, room);
        let some = random.between(shortest, shortest.max(room / 4));
        let mut minutes = random.pick(&[shortest, some, some, some, any, room]);
        let made = |minutes| u64::from(plant.rates[product]) * minutes;
        if self.inventory[product] + made(minutes) > MOST_STORAGE {
            minutes = shortest;
        }
        *clock += changeover + minutes;
        self.inventory[product] += made(minutes);
        self.mounted = Some(product);
        self.slots.slots.push(Slot { product: product as u8, minutes: minutes as u16 });
        true
    }

    /// Sells what is asked for and in stock, or part of it.
    fn sell(&mut self, random: &mut Random, week: usize) {
        let sizes = self.plant.sizes;
        for customer in 0..sizes.customers {
            for product in 0..sizes.products {
                let place = sizes.customer_product_week(customer, product, week);
                let pair = sizes.customer_product(customer, product);
                let asked = self.backlog[pair] + u64::from(self.plant.demand[place]);
                let most = asked.min(self.inventory[product]);
                let any = random.between(0, most);
                let sale = random.pick(&[0, any, any, most, most]);
                self.backlog[pair] = asked - sale;
                self.inventory[product] -= sale;
                self.slots.sales[place] = sale as u32;
            }
        }
        for product in 0..sizes.products {
            let inventory = self.inventory[product];
            self.least_inventory[product] = self.least_inventory[product].min(inventory);
            self.greatest_inventory[product] = self.greatest_inventory[product].max(inventory);
        }
    }
}
