//! The plant machine, and the tables of its run.

use crate::model::{Plan, Plant, Refusal, Sizes, Slot, Slots};

/// The machine's state. Numbers are wide enough for every plant and every slot
/// file that the forms let through.
#[derive(Clone, Debug, PartialEq, Eq)]
pub struct Machine<'plant> {
    plant: &'plant Plant,
    pub mounted: Option<usize>,
    pub clock: u64,
    /// Whether each product ran this week.
    pub ran: Vec<bool>,
    /// Grams, by product.
    pub inventory: Vec<u64>,
    /// Grams, by customer and product.
    pub backlog: Vec<u64>,
    /// In thousandths of a cent.
    pub profit: i64,
}

impl<'plant> Machine<'plant> {
    pub fn new(plant: &'plant Plant) -> Self {
        Machine {
            plant,
            mounted: plant.mounted(),
            clock: 0,
            ran: vec![false; plant.sizes.products],
            inventory: plant.opening_inventory.iter().copied().map(u64::from).collect(),
            backlog: plant.opening_backlog.iter().copied().map(u64::from).collect(),
            profit: 0,
        }
    }

    pub fn begin_week(&mut self) {
        self.clock = 0;
        self.ran.fill(false);
    }

    /// Runs one slot, or stops with 25, 35 or 36.
    pub fn run_slot(&mut self, slot: Slot) -> Result<(), Refusal> {
        let product = usize::from(slot.product);
        if self.ran[product] {
            return Err(25);
        }
        if slot.minutes < self.plant.shortest_run {
            return Err(35);
        }
        if let Some(mounted) = self.mounted {
            let place = self.plant.sizes.from_to(mounted, product);
            self.clock += u64::from(self.plant.changeover_minutes[place]);
            self.profit -= 1000 * i64::from(self.plant.changeover_cents[place]);
        }
        self.clock += u64::from(slot.minutes);
        if self.clock > u64::from(self.plant.week_minutes) {
            return Err(36);
        }
        self.inventory[product] += u64::from(self.plant.rates[product]) * u64::from(slot.minutes);
        self.ran[product] = true;
        self.mounted = Some(product);
        Ok(())
    }

    /// Sells, and settles the week's costs, or stops with 38, 39 or 40. The
    /// sales are those of all weeks, by customer, product and week.
    pub fn end_week(&mut self, week: usize, sales: &[u32]) -> Result<(), Refusal> {
        let plant = self.plant;
        let Sizes { products, customers, .. } = plant.sizes;

        for customer in 0..customers {
            for product in 0..products {
                let place = plant.sizes.customer_product_week(customer, product, week);
                let pair = plant.sizes.customer_product(customer, product);
                let sale = u64::from(sales[place]);
                let asked = self.backlog[pair] + u64::from(plant.demand[place]);
                if sale > asked {
                    return Err(38);
                }
                self.backlog[pair] = asked - sale;
                self.profit += worth(plant.prices[pair], sale);
                self.profit -= worth(plant.backlog_costs[pair], self.backlog[pair]);
            }
        }
        for product in 0..products {
            let sold: u64 = (0..customers)
                .map(|customer| plant.sizes.customer_product_week(customer, product, week))
                .map(|place| u64::from(sales[place]))
                .sum();
            if sold > self.inventory[product] {
                return Err(39);
            }
            self.inventory[product] -= sold;
        }
        for product in 0..products {
            let limits = plant.storage[product];
            let inventory = self.inventory[product];
            if inventory < u64::from(limits.least) || inventory > u64::from(limits.greatest) {
                return Err(40);
            }
            self.profit -= worth(plant.inventory_costs[product], inventory);
        }
        Ok(())
    }
}

/// Cents per kilogram times grams, in thousandths of a cent.
fn worth(cents: u32, grams: u64) -> i64 {
    i64::from(cents) * i64::try_from(grams).expect("grams far below 2^63")
}

/// Runs slots that the forms let through: the plan, or the first stop.
pub fn run(plant: &Plant, slots: &Slots) -> Result<Plan, Refusal> {
    let mut machine = Machine::new(plant);
    let mut plan = Plan::zeros(plant.sizes);
    plan.sales.clone_from(&slots.sales);

    let mut later = slots.slots.as_slice();
    for (week, &count) in slots.counts.iter().enumerate() {
        let (row, rest) = later.split_at(count.into());
        later = rest;

        let mounted = machine.mounted;
        machine.begin_week();
        for &slot in row {
            machine.run_slot(slot)?;
        }
        machine.end_week(week, &slots.sales)?;
        record_slots(&mut plan, plant, week, mounted, row);
        record_balance(&mut plan, &machine, week);
    }
    plan.profit = machine.profit;
    Ok(plan)
}

/// Fills E, F, L, Z, ZF, O, T and P of a week that began with `mounted`. A shut
/// week has none of them.
fn record_slots(plan: &mut Plan, plant: &Plant, week: usize, mounted: Option<usize>, row: &[Slot]) {
    let sizes = plant.sizes;
    let mut before = None;
    for (slot, place) in row.iter().zip(1..) {
        let product = usize::from(slot.product);
        let index = sizes.week_product(week, product);
        plan.ran[index] = 1;
        plan.places[index] = place;
        plan.minutes[index] = slot.minutes;
        plan.grams[index] = plant.rates[product] * u32::from(slot.minutes);
        if let Some(before) = before {
            plan.changeovers[sizes.week_from_to(week, before, product)] = 1;
        } else {
            plan.first[index] = 1;
            if let Some(mounted) = mounted {
                plan.opening_changeovers[sizes.week_from_to(week, mounted, product)] = 1;
            }
        }
        before = Some(product);
    }
    if let Some(last) = before {
        plan.last[sizes.week_product(week, last)] = 1;
    }
}

/// Fills V and Δ of a week that has ended.
fn record_balance(plan: &mut Plan, machine: &Machine, week: usize) {
    let sizes = machine.plant.sizes;
    for product in 0..sizes.products {
        plan.inventory[sizes.week_product(week, product)] = four_bytes(machine.inventory[product]);
        for customer in 0..sizes.customers {
            let backlog = machine.backlog[sizes.customer_product(customer, product)];
            plan.backlog[sizes.customer_product_week(customer, product, week)] =
                four_bytes(backlog);
        }
    }
}

/// Inventory is within storage, and backlog is at most 1,600,000,000 and 26 times
/// 100,000,000.
fn four_bytes(grams: u64) -> u32 {
    u32::try_from(grams).expect("grams of four bytes")
}
