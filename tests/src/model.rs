//! The numbers of plants, plans and slot files, in the order of the files.

use std::fmt;
use std::ops::Range;

/// A number of the refusal table: the row that turns a file or run down.
pub type Refusal = u32;

/// The kinds of file, each with its kind byte.
#[derive(Clone, Copy, Debug, PartialEq, Eq)]
pub enum Kind {
    Plant = 1,
    Plan = 2,
    Slots = 3,
    /// A plant with section 12.
    MountedPlant = 4,
}

impl Kind {
    pub fn byte(self) -> u8 {
        self as u8
    }
}

impl fmt::Display for Kind {
    fn fmt(&self, formatter: &mut fmt::Formatter<'_>) -> fmt::Result {
        formatter.write_str(match self {
            Kind::Plant | Kind::MountedPlant => "plant",
            Kind::Plan => "plan",
            Kind::Slots => "slots",
        })
    }
}

/// How many products, customers and weeks there are, and from that the place
/// of a number in each table.
#[derive(Clone, Copy, Debug, PartialEq, Eq)]
pub struct Sizes {
    pub products: usize,
    pub customers: usize,
    pub weeks: usize,
}

impl Sizes {
    /// Place in a table by product from and product to.
    pub fn from_to(&self, from: usize, to: usize) -> usize {
        from * self.products + to
    }

    /// Place in a table by customer and product.
    pub fn customer_product(&self, customer: usize, product: usize) -> usize {
        customer * self.products + product
    }

    /// Place in a table by customer, product and week.
    pub fn customer_product_week(&self, customer: usize, product: usize, week: usize) -> usize {
        self.customer_product(customer, product) * self.weeks + week
    }

    /// Place in a table by week and product.
    pub fn week_product(&self, week: usize, product: usize) -> usize {
        week * self.products + product
    }

    /// Place in a table by week, product from and product to.
    pub fn week_from_to(&self, week: usize, from: usize, to: usize) -> usize {
        week * self.products * self.products + self.from_to(from, to)
    }

    /// A week's places in a table by week and product.
    pub fn week_row(&self, week: usize) -> Range<usize> {
        self.week_product(week, 0)..self.week_product(week + 1, 0)
    }

    /// A week's places in a table by week, product from and product to.
    pub fn week_square(&self, week: usize) -> Range<usize> {
        self.week_from_to(week, 0, 0)..self.week_from_to(week + 1, 0, 0)
    }
}

/// The limits of a product's inventory, in grams.
#[derive(Clone, Copy, Debug, PartialEq, Eq)]
pub struct Storage {
    pub least: u32,
    pub greatest: u32,
}

/// The line before week 0.
#[derive(Clone, Copy, Debug, PartialEq, Eq)]
pub struct OpeningLine {
    /// The product that is mounted, or 255 for none.
    pub mounted: u8,
    /// 1 if the week before was shut, else 0.
    pub was_shut: u8,
}

#[derive(Clone, Debug, PartialEq, Eq)]
pub struct Plant {
    pub sizes: Sizes,
    /// Grams per minute, by product.
    pub rates: Vec<u32>,
    /// By product from and product to.
    pub changeover_minutes: Vec<u16>,
    /// By product from and product to.
    pub changeover_cents: Vec<u32>,
    /// Grams, by customer, product and week.
    pub demand: Vec<u32>,
    /// Cents per kilogram, by customer and product.
    pub prices: Vec<u32>,
    /// Cents per kilogram, by customer and product.
    pub backlog_costs: Vec<u32>,
    /// Cents per kilogram, by product.
    pub inventory_costs: Vec<u32>,
    /// By product.
    pub storage: Vec<Storage>,
    /// Grams, by product.
    pub opening_inventory: Vec<u32>,
    /// Grams, by customer and product.
    pub opening_backlog: Vec<u32>,
    pub shortest_run: u16,
    pub week_minutes: u16,
    /// Section 12, which kind 4 has and kind 1 has not.
    pub opening_line: Option<OpeningLine>,
}

impl Plant {
    pub fn kind(&self) -> Kind {
        match self.opening_line {
            None => Kind::Plant,
            Some(_) => Kind::MountedPlant,
        }
    }

    /// The product that is mounted before week 0: none in kind 1.
    pub fn mounted(&self) -> Option<usize> {
        self.opening_line.filter(|line| line.mounted != 255).map(|line| line.mounted.into())
    }
}

#[derive(Clone, Debug, PartialEq, Eq)]
pub struct Plan {
    /// E: 1 where the product ran, by week and product.
    pub ran: Vec<u8>,
    /// F: 1 for the week's first product, by week and product.
    pub first: Vec<u8>,
    /// L: 1 for the week's last product, by week and product.
    pub last: Vec<u8>,
    /// Z: 1 for neighbours within the week, by week, product from and product to.
    pub changeovers: Vec<u8>,
    /// ZF: 1 from the last product of the producing week before, or from what is
    /// mounted before week 0, to the first of this one, by week, product from and
    /// product to.
    pub opening_changeovers: Vec<u8>,
    /// O: the place in the week from 1, or 0, by week and product.
    pub places: Vec<u8>,
    /// T: minutes run, by week and product.
    pub minutes: Vec<u16>,
    /// P: grams made, by week and product.
    pub grams: Vec<u32>,
    /// S: grams sold, by customer, product and week.
    pub sales: Vec<u32>,
    /// V: inventory in grams after the week, by week and product.
    pub inventory: Vec<u32>,
    /// Δ: backlog in grams after the week, by customer, product and week.
    pub backlog: Vec<u32>,
    /// In thousandths of a cent.
    pub profit: i64,
}

impl Plan {
    /// The plan of these sizes with 0 everywhere.
    pub fn zeros(sizes: Sizes) -> Plan {
        let by_product = sizes.weeks * sizes.products;
        let by_square = by_product * sizes.products;
        let by_customer = by_product * sizes.customers;
        Plan {
            ran: vec![0; by_product],
            first: vec![0; by_product],
            last: vec![0; by_product],
            changeovers: vec![0; by_square],
            opening_changeovers: vec![0; by_square],
            places: vec![0; by_product],
            minutes: vec![0; by_product],
            grams: vec![0; by_product],
            sales: vec![0; by_customer],
            inventory: vec![0; by_product],
            backlog: vec![0; by_customer],
            profit: 0,
        }
    }

    /// Whether a week is shut: it has no E, F or L. Any other is a producing week.
    pub fn is_shut(&self, sizes: Sizes, week: usize) -> bool {
        let mut marks = [&self.ran, &self.first, &self.last]
            .into_iter()
            .flat_map(|marks| &marks[sizes.week_row(week)]);
        marks.all(|&mark| mark == 0)
    }
}

/// One run of one product.
#[derive(Clone, Copy, Debug, PartialEq, Eq)]
pub struct Slot {
    pub product: u8,
    pub minutes: u16,
}

#[derive(Clone, Debug, PartialEq, Eq)]
pub struct Slots {
    /// Slots in each week, 0 in a shut one.
    pub counts: Vec<u8>,
    /// The slots of all weeks, in running order.
    pub slots: Vec<Slot>,
    /// Grams sold, by customer, product and week.
    pub sales: Vec<u32>,
}

impl Slots {
    /// Lays out slots week by week.
    pub fn from_rows(rows: &[Vec<Slot>], sales: Vec<u32>) -> Slots {
        let counts = rows.iter().map(|row| u8::try_from(row.len()).expect("a count of one byte"));
        Slots { counts: counts.collect(), slots: rows.concat(), sales }
    }

    /// The slots of each week.
    pub fn rows(&self) -> Vec<Vec<Slot>> {
        let mut slots = self.slots.iter().copied();
        self.counts.iter().map(|&count| slots.by_ref().take(count.into()).collect()).collect()
    }
}
