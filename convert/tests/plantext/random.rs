//! Plants and slots with numbers anywhere in their ranges, many of them 0, and
//! half of the weeks shut; the plants are of both kinds.

use std::ops::RangeInclusive;

use plantext::limits;
use plantext::model::{Plant, Sizes, Slot, Slots, Storage, WeekBefore};

/// A sequence of numbers that look random and are the same in every test run.
pub struct Random(u64);

impl Random {
    pub fn new(seed: u64) -> Random {
        Random(seed.wrapping_mul(0x9e37_79b9_7f4a_7c15) | 1)
    }

    fn next(&mut self) -> u64 {
        self.0 ^= self.0 << 13;
        self.0 ^= self.0 >> 7;
        self.0 ^= self.0 << 17;
        self.0 >> 16
    }

    /// A number of the range: its least, its greatest or any other, each often.
    fn within(&mut self, range: RangeInclusive<u64>) -> u32 {
        let (least, greatest) = (*range.start(), *range.end());
        let number = match self.next() % 4 {
            0 | 1 => least,
            2 => greatest,
            _ => least + self.next() % (greatest - least + 1),
        };
        u32::try_from(number).expect("ranges end below 2^32")
    }

    fn many(&mut self, count: usize, range: RangeInclusive<u64>) -> Vec<u32> {
        (0..count).map(|_| self.within(range.clone())).collect()
    }

    fn size(&mut self, range: RangeInclusive<u64>) -> usize {
        self.within(range) as usize
    }

    fn minutes(&mut self, range: RangeInclusive<u64>) -> u16 {
        u16::try_from(self.within(range)).expect("minutes of two bytes")
    }

    pub fn plant(&mut self) -> Plant {
        let sizes = Sizes {
            products: self.size(limits::PRODUCTS),
            customers: self.size(limits::CUSTOMERS),
            weeks: self.size(limits::WEEKS),
        };
        let pairs = sizes.customers * sizes.products;
        let mut changeover_minutes = Vec::new();
        let mut changeover_cents = Vec::new();
        for from in 0..sizes.products {
            for to in 0..sizes.products {
                let same = from == to;
                let minutes = self.minutes(limits::CHANGEOVER_MINUTES);
                let cents = self.within(limits::CHANGEOVER_CENTS);
                changeover_minutes.push(if same { 0 } else { minutes });
                changeover_cents.push(if same { 0 } else { cents });
            }
        }
        let week_minutes = self.minutes(limits::WEEK_MINUTES);
        let week_before = self.week_before(sizes.products);
        Plant {
            sizes,
            rates: self.many(sizes.products, limits::RATE),
            changeover_minutes,
            changeover_cents,
            demand: self.many(pairs * sizes.weeks, limits::DEMAND),
            prices: self.many(pairs, limits::UNIT_COST),
            backlog_costs: self.many(pairs, limits::UNIT_COST),
            inventory_costs: self.many(sizes.products, limits::UNIT_COST),
            storage: (0..sizes.products)
                .map(|_| {
                    let greatest = self.within(limits::STORAGE);
                    Storage { least: self.within(0..=greatest.into()), greatest }
                })
                .collect(),
            opening_inventory: self.many(sizes.products, limits::OPENING_INVENTORY),
            opening_backlog: self.many(pairs, limits::opening_backlog(week_before.is_some())),
            shortest_run: self.minutes(1..=week_minutes.into()),
            week_minutes,
            week_before,
        }
    }

    /// Nothing in plants of kind 1.
    fn week_before(&mut self, products: usize) -> Option<WeekBefore> {
        let values = week_befores(products);
        let place = self.size(0..=values.len() as u64);
        values.get(place).copied()
    }

    pub fn rates(&mut self, products: usize) -> Vec<u32> {
        self.many(products, limits::RATE)
    }

    /// Slots that have the form, though hardly any run without a stop.
    pub fn slots(&mut self, sizes: Sizes) -> Slots {
        let weeks = (0..sizes.weeks).map(|_| {
            let count = self.size(0..=sizes.products as u64);
            let slots = (0..count).map(|_| Slot {
                product: u8::try_from(self.size(0..=sizes.products as u64 - 1)).expect("a byte"),
                minutes: self.minutes(limits::RUN),
            });
            slots.collect()
        });
        Slots {
            weeks: weeks.collect(),
            sales: self.many(sizes.customers * sizes.products * sizes.weeks, limits::SALE),
        }
    }
}

/// A plant of so many products, of kind 1.
pub fn plant_of(products: usize) -> Plant {
    let plants = (0..).map(|seed| Random::new(seed).plant());
    let mut of_kind_1 = plants.filter(|plant| plant.week_before.is_none());
    of_kind_1.find(|plant| plant.sizes.products == products).expect("one of the seeds")
}

/// All values of section 12 in a plant of so many products.
pub fn week_befores(products: usize) -> Vec<WeekBefore> {
    let products = u8::try_from(products).expect("at most 16 products");
    let mounted = (0..products).map(Some).chain([None]);
    mounted.flat_map(|mounted| [false, true].map(|shut| WeekBefore { mounted, shut })).collect()
}
