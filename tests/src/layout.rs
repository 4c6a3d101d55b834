//! From numbers to bytes: kind, count of sections, contents, bodies end to end.

use crate::model::{Kind, Plan, Plant, Slots};

/// Bytes of one contents entry.
const ENTRY_LENGTH: usize = 9;

/// What the contents say of one section.
#[derive(Clone, Copy, Debug, PartialEq, Eq)]
pub struct Entry {
    pub number: u8,
    pub offset: u32,
    pub length: u32,
}

/// A file in its parts, each of which can be changed apart from the others.
#[derive(Clone, Debug, PartialEq, Eq)]
pub struct Parts {
    pub kind: u8,
    pub count: u8,
    pub contents: Vec<Entry>,
    /// Everything after the contents.
    pub bodies: Vec<u8>,
}

impl Parts {
    /// Lays out the bodies of the sections numbered from `first` on.
    pub fn new(kind: Kind, first: u8, bodies: &[Vec<u8>]) -> Parts {
        let mut offset = 2 + ENTRY_LENGTH * bodies.len();
        let mut contents = Vec::new();
        for (number, body) in (first..).zip(bodies) {
            contents.push(Entry {
                number,
                offset: u32::try_from(offset).expect("a file below 4 GiB"),
                length: u32::try_from(body.len()).expect("a file below 4 GiB"),
            });
            offset += body.len();
        }
        Parts {
            kind: kind.byte(),
            count: u8::try_from(bodies.len()).expect("at most 255 sections"),
            contents,
            bodies: bodies.concat(),
        }
    }

    /// Where the contents end.
    pub fn contents_end(&self) -> usize {
        2 + ENTRY_LENGTH * self.contents.len()
    }

    pub fn bytes(&self) -> Vec<u8> {
        let mut bytes = vec![self.kind, self.count];
        for entry in &self.contents {
            bytes.push(entry.number);
            bytes.extend(entry.offset.to_le_bytes());
            bytes.extend(entry.length.to_le_bytes());
        }
        bytes.extend(&self.bodies);
        bytes
    }
}

impl Plant {
    pub fn encode(&self) -> Vec<u8> {
        Parts::new(self.kind(), 1, &self.bodies()).bytes()
    }

    /// The bodies of sections 1 to 11, and in kind 4 of section 12.
    pub fn bodies(&self) -> Vec<Vec<u8>> {
        let sizes = [self.sizes.products, self.sizes.customers, self.sizes.weeks];
        let storage = self.storage.iter().flat_map(|limits| [limits.least, limits.greatest]);
        let openings = self.opening_inventory.iter().chain(&self.opening_backlog).copied();
        let mut bodies = vec![
            sizes.map(|size| u8::try_from(size).expect("a size of one byte")).to_vec(),
            by_four(self.rates.iter().copied()),
            by_two(self.changeover_minutes.iter().copied()),
            by_four(self.changeover_cents.iter().copied()),
            by_four(self.demand.iter().copied()),
            by_four(self.prices.iter().copied()),
            by_four(self.backlog_costs.iter().copied()),
            by_four(self.inventory_costs.iter().copied()),
            by_four(storage),
            by_four(openings),
            by_two([self.shortest_run, self.week_minutes]),
        ];
        bodies.extend(self.opening_line.map(|line| vec![line.mounted, line.was_shut]));
        bodies
    }
}

impl Plan {
    pub fn encode(&self) -> Vec<u8> {
        Parts::new(Kind::Plan, 21, &self.bodies()).bytes()
    }

    /// The bodies of sections 21 to 32.
    pub fn bodies(&self) -> Vec<Vec<u8>> {
        vec![
            self.ran.clone(),
            self.first.clone(),
            self.last.clone(),
            self.changeovers.clone(),
            self.opening_changeovers.clone(),
            self.places.clone(),
            by_two(self.minutes.iter().copied()),
            by_four(self.grams.iter().copied()),
            by_four(self.sales.iter().copied()),
            by_four(self.inventory.iter().copied()),
            by_four(self.backlog.iter().copied()),
            self.profit.to_le_bytes().to_vec(),
        ]
    }
}

impl Slots {
    pub fn encode(&self) -> Vec<u8> {
        Parts::new(Kind::Slots, 41, &self.bodies()).bytes()
    }

    /// The bodies of sections 41 to 43.
    pub fn bodies(&self) -> Vec<Vec<u8>> {
        let slots = self.slots.iter().flat_map(|slot| {
            let [low, high] = slot.minutes.to_le_bytes();
            [slot.product, low, high]
        });
        vec![self.counts.clone(), slots.collect(), by_four(self.sales.iter().copied())]
    }
}

fn by_two(numbers: impl IntoIterator<Item = u16>) -> Vec<u8> {
    numbers.into_iter().flat_map(u16::to_le_bytes).collect()
}

fn by_four(numbers: impl IntoIterator<Item = u32>) -> Vec<u8> {
    numbers.into_iter().flat_map(u32::to_le_bytes).collect()
}
