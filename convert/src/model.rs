//! The numbers of a plant and of its slots, in the order of the files.

/// How many products, customers and weeks there are, and from that the place
/// of a number in each table.
#[derive(Clone, Copy, Debug, PartialEq, Eq)]
pub struct Sizes {
    pub products: usize,
    pub customers: usize,
    pub weeks: usize,
}

impl Sizes {
    /// Place in a table by product from and product to.
    pub fn from_to(&self, from: usize, to: usize) -> usize {
        from * self.products + to
    }

    /// Place in a table by customer and product.
    pub fn customer_product(&self, customer: usize, product: usize) -> usize {
        customer * self.products + product
    }

    /// Place in a table by customer, product and week.
    pub fn customer_product_week(&self, customer: usize, product: usize, week: usize) -> usize {
        self.customer_product(customer, product) * self.weeks + week
    }
}

/// The limits of a product's inventory, in grams.
#[derive(Clone, Copy, Debug, PartialEq, Eq)]
pub struct Storage {
    pub least: u32,
    pub greatest: u32,
}

/// How the week before the first one left the line (request 2026-02).
#[derive(Clone, Copy, Debug, PartialEq, Eq)]
pub struct WeekBefore {
    /// The product, if any is mounted.
    pub mounted: Option<u8>,
    pub shut: bool,
}

#[derive(Clone, Debug, PartialEq, Eq)]
pub struct Plant {
    pub sizes: Sizes,
    /// Grams per minute, by product.
    pub rates: Vec<u32>,
    /// By product from and product to.
    pub changeover_minutes: Vec<u16>,
    /// By product from and product to.
    pub changeover_cents: Vec<u32>,
    /// Grams, by customer, product and week.
    pub demand: Vec<u32>,
    /// Cents per kilogram, by customer and product.
    pub prices: Vec<u32>,
    /// Cents per kilogram, by customer and product.
    pub backlog_costs: Vec<u32>,
    /// Cents per kilogram, by product.
    pub inventory_costs: Vec<u32>,
    /// By product.
    pub storage: Vec<Storage>,
    /// Grams, by product.
    pub opening_inventory: Vec<u32>,
    /// Grams, by customer and product.
    pub opening_backlog: Vec<u32>,
    pub shortest_run: u16,
    pub week_minutes: u16,
    /// A plant file has it in kind 4 and not in kind 1.
    pub week_before: Option<WeekBefore>,
}

impl Plant {
    /// Whether the customer ever wants the product.
    pub fn wants(&self, customer: usize, product: usize) -> bool {
        let pair = self.sizes.customer_product(customer, product);
        let weeks = pair * self.sizes.weeks..(pair + 1) * self.sizes.weeks;
        self.opening_backlog[pair] > 0 || self.demand[weeks].iter().any(|&grams| grams > 0)
    }
}

/// One run of one product.
#[derive(Clone, Copy, Debug, PartialEq, Eq)]
pub struct Slot {
    pub product: u8,
    pub minutes: u16,
}

#[derive(Clone, Debug, PartialEq, Eq)]
pub struct Slots {
    /// The slots of each week, in running order; none in a shut week.
    pub weeks: Vec<Vec<Slot>>,
    /// Grams sold, by customer, product and week.
    pub sales: Vec<u32>,
}

/// What the planner calls products and customers, in the order of their
/// numbers in the files.
#[derive(Clone, Debug, PartialEq, Eq)]
pub struct Names {
    pub products: Vec<String>,
    pub customers: Vec<String>,
}

impl Names {
    /// P1, P2 and on, C1, C2 and on: a plant file holds no names.
    pub fn numbered(sizes: Sizes) -> Names {
        Names {
            products: (1..=sizes.products).map(|number| format!("P{number}")).collect(),
            customers: (1..=sizes.customers).map(|number| format!("C{number}")).collect(),
        }
    }
}
