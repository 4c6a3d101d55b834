//! The text of a plant: its products and customers by name, and one fact a
//! line.

use std::fmt::Write;

use crate::limits;
use crate::lines::{self, Facts, Fault, Line, Words};
use crate::model::{Names, Plant, Sizes, Storage, WeekBefore};
use crate::quantities::{read_count, Quantity, Unit};

/// How each line is written.
const FORMS: [&str; 16] = [
    "weeks NUMBER",
    "week-minutes NUMBER minutes",
    "shortest-run NUMBER minutes",
    "product NAME",
    "customer NAME",
    "mounted PRODUCT",
    "week-before shut or producing",
    RATE_FORM,
    "changeover PRODUCT PRODUCT NUMBER minutes NUMBER cents",
    "inventory-cost PRODUCT NUMBER cents per kilogram",
    "storage PRODUCT LEAST GREATEST grams",
    "opening-inventory PRODUCT NUMBER grams",
    "price CUSTOMER PRODUCT NUMBER cents per kilogram",
    "backlog-cost CUSTOMER PRODUCT NUMBER cents per kilogram",
    "opening-backlog CUSTOMER PRODUCT NUMBER grams",
    "demand CUSTOMER PRODUCT week NUMBER NUMBER grams",
];

/// A rate's line, which a text of rates has too.
pub(crate) const RATE_FORM: &str = "rate PRODUCT NUMBER grams per minute";

/// The words of `week-before`, by its byte in the file.
const WEEK_BEFORE: [&str; 2] = ["producing", "shut"];

const WEEK_MINUTES: Quantity =
    Quantity { name: "a week", unit: Unit::Minutes, limits: limits::WEEK_MINUTES };
const SHORTEST_RUN: Quantity =
    Quantity { name: "a shortest run", unit: Unit::Minutes, limits: limits::WEEK_MINUTES };
pub(crate) const RATE: Quantity =
    Quantity { name: "a rate", unit: Unit::GramsPerMinute, limits: limits::RATE };
const CHANGEOVER_MINUTES: Quantity =
    Quantity { name: "a changeover", unit: Unit::Minutes, limits: limits::CHANGEOVER_MINUTES };
const CHANGEOVER_CENTS: Quantity =
    Quantity { name: "a changeover cost", unit: Unit::Cents, limits: limits::CHANGEOVER_CENTS };
const INVENTORY_COST: Quantity =
    Quantity { name: "an inventory cost", unit: Unit::CentsPerKilogram, limits: limits::UNIT_COST };
const STORAGE: Quantity =
    Quantity { name: "a storage limit", unit: Unit::Grams, limits: limits::STORAGE };
const OPENING_INVENTORY: Quantity =
    Quantity { name: "an opening inventory", unit: Unit::Grams, limits: limits::OPENING_INVENTORY };
const PRICE: Quantity =
    Quantity { name: "a price", unit: Unit::CentsPerKilogram, limits: limits::UNIT_COST };
const BACKLOG_COST: Quantity =
    Quantity { name: "a backlog cost", unit: Unit::CentsPerKilogram, limits: limits::UNIT_COST };
const DEMAND: Quantity = Quantity { name: "a demand", unit: Unit::Grams, limits: limits::DEMAND };

/// Its limits go by the plant's kind.
fn opening_backlog(with_week_before: bool) -> Quantity {
    let limits = limits::opening_backlog(with_week_before);
    Quantity { name: "an opening backlog", unit: Unit::Grams, limits }
}

/// Reads the text of a plant, or tells its faults, lines rising.
pub fn read(text: &[u8]) -> Result<(Plant, Names), Vec<Fault>> {
    let text = lines::split(text)?;
    let mut faults = Vec::new();
    let declarations = Declarations::read(&text.lines, text.last, &mut faults);
    // Without a plant's names nothing can be said of the other lines.
    let plant = declarations.sizes().and_then(|sizes| {
        let mut reader = Reader::new(&declarations, sizes);
        for line in &text.lines {
            if let Err(message) = reader.read_line(line) {
                faults.push(Fault { line: line.number, message });
            }
        }
        reader.plant(text.last, &mut faults)
    });
    match plant {
        Some(plant) if faults.is_empty() => Ok((plant, declarations.names)),
        _ => {
            faults.sort_by_key(|fault| fault.line);
            Err(faults)
        }
    }
}

/// The names, with their lines, the count of weeks, and the kind.
struct Declarations {
    names: Names,
    product_lines: Vec<usize>,
    customer_lines: Vec<usize>,
    weeks: Facts<usize>,
    /// Whether a line, even a faulty one, is about the week before: it makes kind 4.
    with_week_before: bool,
}

impl Declarations {
    fn read(lines: &[Line], last: usize, faults: &mut Vec<Fault>) -> Declarations {
        let mut declarations = Declarations {
            names: Names { products: Vec::new(), customers: Vec::new() },
            product_lines: Vec::new(),
            customer_lines: Vec::new(),
            weeks: Facts::default(),
            with_week_before: false,
        };
        for line in lines {
            if let Err(message) = declarations.read_line(line) {
                faults.push(Fault { line: line.number, message });
            }
        }
        for (kind, lines, limit) in [
            ("product", &declarations.product_lines, limits::PRODUCTS),
            ("customer", &declarations.customer_lines, limits::CUSTOMERS),
        ] {
            let count = lines.len() as u64;
            if count < *limit.start() {
                let message = format!("there is no {kind}; expected a line: {kind} NAME");
                faults.push(Fault { line: last, message });
            } else if count > *limit.end() {
                let greatest = limit.end();
                let message = format!("there are {count} {kind}s; expected at most {greatest}");
                faults.push(Fault { line: lines[*greatest as usize], message });
            }
        }
        if declarations.weeks.get(0).is_none() {
            let message =
                "the count of weeks is missing; expected a line: weeks NUMBER".to_string();
            faults.push(Fault { line: last, message });
        }
        declarations
    }

    fn read_line(&mut self, line: &Line) -> Result<(), String> {
        let form = lines::form_of(line.words[0], &FORMS)?;
        let mut words = Words::after_first(line, form);
        match line.words[0] {
            "product" => {
                declare(&mut self.names.products, &mut self.product_lines, line, &mut words)
            }
            "customer" => {
                declare(&mut self.names.customers, &mut self.customer_lines, line, &mut words)
            }
            "weeks" => {
                let weeks = read_count(&mut words, "a count of weeks", limits::WEEKS);
                let weeks = weeks.and_then(|weeks| words.end().map(|()| weeks));
                self.weeks.give(0, line.number, weeks, || "the count of weeks".to_string())
            }
            "mounted" | "week-before" => {
                self.with_week_before = true;
                Ok(())
            }
            _ => Ok(()),
        }
    }

    /// The plant's sizes, if the products and customers are within limits.
    fn sizes(&self) -> Option<Sizes> {
        let (products, customers) = (self.names.products.len(), self.names.customers.len());
        let within_limits = limits::PRODUCTS.contains(&(products as u64))
            && limits::CUSTOMERS.contains(&(customers as u64));
        // A missing count of weeks has its own fault, and must not give others.
        let weeks = self.weeks.value(0).unwrap_or(*limits::WEEKS.end() as usize);
        within_limits.then_some(Sizes { products, customers, weeks })
    }
}

/// Takes one name into its list.
fn declare(
    names: &mut Vec<String>,
    name_lines: &mut Vec<usize>,
    line: &Line,
    words: &mut Words,
) -> Result<(), String> {
    let kind = line.words[0];
    let name = words.word()?;
    if let Some(place) = names.iter().position(|known| known == name) {
        let first = name_lines[place];
        return Err(format!("{kind} {name} is given twice; expected once, as on line {first}"));
    }
    names.push(name.to_string());
    name_lines.push(line.number);
    words.end()
}

/// Reads the facts about products and customers that are known by name.
struct Reader<'names> {
    declarations: &'names Declarations,
    sizes: Sizes,
    week_minutes: Facts<u64>,
    shortest_run: Facts<u64>,
    mounted: Facts<usize>,
    week_before_shut: Facts<bool>,
    rates: Facts<u64>,
    /// Minutes and cents.
    changeovers: Facts<(u64, u64)>,
    inventory_costs: Facts<u64>,
    /// Least and greatest.
    storage: Facts<[u64; 2]>,
    opening_inventory: Facts<u64>,
    prices: Facts<u64>,
    backlog_costs: Facts<u64>,
    opening_backlog: Facts<u64>,
    demand: Facts<u64>,
}

impl<'names> Reader<'names> {
    fn new(declarations: &'names Declarations, sizes: Sizes) -> Self {
        Reader {
            declarations,
            sizes,
            week_minutes: Facts::default(),
            shortest_run: Facts::default(),
            mounted: Facts::default(),
            week_before_shut: Facts::default(),
            rates: Facts::default(),
            changeovers: Facts::default(),
            inventory_costs: Facts::default(),
            storage: Facts::default(),
            opening_inventory: Facts::default(),
            prices: Facts::default(),
            backlog_costs: Facts::default(),
            opening_backlog: Facts::default(),
            demand: Facts::default(),
        }
    }

    fn read_line(&mut self, line: &Line) -> Result<(), String> {
        // An unknown word is told with the declarations.
        let Ok(form) = lines::form_of(line.words[0], &FORMS) else {
            return Ok(());
        };
        let words = &mut Words::after_first(line, form);
        let number = line.number;
        match line.words[0] {
            "week-minutes" => {
                let value = WEEK_MINUTES.read(words);
                self.week_minutes.give(0, number, value, || "week-minutes".to_string())
            }
            "shortest-run" => {
                let value = SHORTEST_RUN.read(words);
                self.shortest_run.give(0, number, value, || "shortest-run".to_string())
            }
            "mounted" => {
                let product = self.read_product(words).map(|(product, _)| product);
                let product = product.and_then(|product| words.end().map(|()| product));
                self.mounted.give(0, number, product, || "mounted".to_string())
            }
            "week-before" => {
                let word = words.word();
                let place = word.and_then(|word| lines::find_name("word", word, &WEEK_BEFORE));
                let shut = place.and_then(|place| words.end().map(|()| place == 1));
                self.week_before_shut.give(0, number, shut, || "week-before".to_string())
            }
            "rate" => self.read_product_fact(line, words, &RATE, |reader| &mut reader.rates),
            "inventory-cost" => self.read_product_fact(line, words, &INVENTORY_COST, |reader| {
                &mut reader.inventory_costs
            }),
            "opening-inventory" => {
                self.read_product_fact(line, words, &OPENING_INVENTORY, |reader| {
                    &mut reader.opening_inventory
                })
            }
            "price" => self.read_pair_fact(line, words, &PRICE, |reader| &mut reader.prices),
            "backlog-cost" => {
                self.read_pair_fact(line, words, &BACKLOG_COST, |reader| &mut reader.backlog_costs)
            }
            "opening-backlog" => {
                let quantity = opening_backlog(self.declarations.with_week_before);
                self.read_pair_fact(line, words, &quantity, |reader| &mut reader.opening_backlog)
            }
            "changeover" => self.read_changeover(number, words),
            "storage" => self.read_storage(number, words),
            "demand" => self.read_demand(number, words),
            _ => Ok(()),
        }
    }

    /// A fact of a product with one number.
    fn read_product_fact(
        &mut self,
        line: &Line,
        words: &mut Words,
        quantity: &Quantity,
        facts: impl FnOnce(&mut Self) -> &mut Facts<u64>,
    ) -> Result<(), String> {
        let (product, name) = self.read_product(words)?;
        let value = quantity.read(words);
        facts(self).give(product, line.number, value, || format!("{} {name}", line.words[0]))
    }

    /// A fact of a customer and a product with one number.
    fn read_pair_fact(
        &mut self,
        line: &Line,
        words: &mut Words,
        quantity: &Quantity,
        facts: impl FnOnce(&mut Self) -> &mut Facts<u64>,
    ) -> Result<(), String> {
        let (customer, customer_name) = self.read_customer(words)?;
        let (product, product_name) = self.read_product(words)?;
        let value = quantity.read(words);
        let place = self.sizes.customer_product(customer, product);
        facts(self).give(place, line.number, value, || {
            format!("{} {customer_name} {product_name}", line.words[0])
        })
    }

    fn read_changeover(&mut self, line: usize, words: &mut Words) -> Result<(), String> {
        let (from, from_name) = self.read_product(words)?;
        let (to, to_name) = self.read_product(words)?;
        if from == to {
            return Err(format!(
                "a changeover from {from_name} to itself; expected two different products"
            ));
        }
        let value = CHANGEOVER_MINUTES
            .read_with_unit(words)
            .and_then(|minutes| Ok((minutes, CHANGEOVER_CENTS.read_with_unit(words)?)))
            .and_then(|value| words.end().map(|()| value));
        let place = self.sizes.from_to(from, to);
        self.changeovers.give(place, line, value, || format!("changeover {from_name} {to_name}"))
    }

    fn read_storage(&mut self, line: usize, words: &mut Words) -> Result<(), String> {
        let (product, name) = self.read_product(words)?;
        let value = STORAGE.read_two(words).and_then(|[least, greatest]| {
            if least <= greatest {
                return Ok([least, greatest]);
            }
            Err(format!(
                "the least storage of {least} grams is above the greatest of {greatest} grams; \
                 expected the least first"
            ))
        });
        self.storage.give(product, line, value, || format!("storage {name}"))
    }

    fn read_demand(&mut self, line: usize, words: &mut Words) -> Result<(), String> {
        let (customer, customer_name) = self.read_customer(words)?;
        let (product, product_name) = self.read_product(words)?;
        words.fixed("week")?;
        let week = read_count(words, "a week of the plant", 1..=self.sizes.weeks as u64)?;
        let value = DEMAND.read(words);
        let place = self.sizes.customer_product_week(customer, product, week - 1);
        self.demand.give(place, line, value, || {
            format!("demand {customer_name} {product_name} week {week}")
        })
    }

    fn read_product(&self, words: &mut Words) -> Result<(usize, &'names str), String> {
        let names = &self.declarations.names.products;
        let product = lines::find_name("product", words.word()?, names)?;
        Ok((product, &names[product]))
    }

    fn read_customer(&self, words: &mut Words) -> Result<(usize, &'names str), String> {
        let names = &self.declarations.names.customers;
        let customer = lines::find_name("customer", words.word()?, names)?;
        Ok((customer, &names[customer]))
    }

    /// The plant, or nothing and the facts that are missing.
    fn plant(&self, last: usize, faults: &mut Vec<Fault>) -> Option<Plant> {
        self.tell_missing_times(last, faults);
        self.tell_missing_of_products(faults);
        self.tell_missing_of_pairs(faults);
        if !faults.is_empty() {
            return None;
        }

        let sizes = self.sizes;
        let squares = 0..sizes.products * sizes.products;
        let pairs = 0..sizes.customers * sizes.products;
        let changeover = |place| self.changeovers.value(place).unwrap_or_default();
        let storage = |product| self.storage.value(product).unwrap_or_default();
        Some(Plant {
            sizes,
            rates: values(&self.rates, sizes.products),
            changeover_minutes: squares
                .clone()
                .map(|place| two_bytes(changeover(place).0))
                .collect(),
            changeover_cents: squares.map(|place| four_bytes(changeover(place).1)).collect(),
            demand: values(&self.demand, pairs.len() * sizes.weeks),
            prices: values(&self.prices, pairs.len()),
            backlog_costs: values(&self.backlog_costs, pairs.len()),
            inventory_costs: values(&self.inventory_costs, sizes.products),
            storage: (0..sizes.products)
                .map(|product| storage(product).map(four_bytes))
                .map(|[least, greatest]| Storage { least, greatest })
                .collect(),
            opening_inventory: values(&self.opening_inventory, sizes.products),
            opening_backlog: values(&self.opening_backlog, pairs.len()),
            shortest_run: two_bytes(self.shortest_run.value(0)?),
            week_minutes: two_bytes(self.week_minutes.value(0)?),
            week_before: self.week_before(),
        })
    }

    /// Nothing if no line is about it.
    fn week_before(&self) -> Option<WeekBefore> {
        let (mounted, shut) = (self.mounted.value(0), self.week_before_shut.value(0));
        let given = mounted.is_some() || shut.is_some();
        given.then(|| WeekBefore {
            mounted: mounted.map(|product| u8::try_from(product).expect("at most 16 products")),
            shut: shut.unwrap_or_default(),
        })
    }

    fn tell_missing_times(&self, last: usize, faults: &mut Vec<Fault>) {
        for (facts, name) in
            [(&self.week_minutes, "week-minutes"), (&self.shortest_run, "shortest-run")]
        {
            if facts.get(0).is_none() {
                let message = format!("{name} is missing; expected a line: {name} NUMBER minutes");
                faults.push(Fault { line: last, message });
            }
        }
        if let (Some(week), Some(shortest), Some(given)) =
            (self.week_minutes.value(0), self.shortest_run.value(0), self.shortest_run.get(0))
        {
            if shortest > week {
                let message = format!(
                    "the shortest run of {shortest} minutes is longer than the week; expected at \
                     most week-minutes, {week}"
                );
                faults.push(Fault { line: given.line, message });
            }
        }
    }

    fn tell_missing_of_products(&self, faults: &mut Vec<Fault>) {
        let names = &self.declarations.names.products;
        for (product, name) in names.iter().enumerate() {
            let line = self.declarations.product_lines[product];
            let mut tell = |message| faults.push(Fault { line, message });
            if self.rates.get(product).is_none() {
                tell(no_rate(name));
            }
            if self.inventory_costs.get(product).is_none() {
                tell(format!(
                    "product {name} has no inventory cost; expected a line: inventory-cost {name} \
                     NUMBER cents per kilogram"
                ));
            }
            if self.storage.get(product).is_none() {
                tell(format!(
                    "product {name} has no storage limits; expected a line: storage {name} LEAST \
                     GREATEST grams"
                ));
            }
            let missing: Vec<&str> = (0..self.sizes.products)
                .filter(|&to| to != product)
                .filter(|&to| self.changeovers.get(self.sizes.from_to(product, to)).is_none())
                .map(|to| names[to].as_str())
                .collect();
            if let Some(to) = missing.first() {
                tell(format!(
                    "product {name} has no changeover to {}; expected for each a line as: \
                     changeover {name} {to} NUMBER minutes NUMBER cents",
                    missing.join(", ")
                ));
            }
        }
    }

    /// A price and a backlog cost are missing only where something is wanted.
    fn tell_missing_of_pairs(&self, faults: &mut Vec<Fault>) {
        let names = &self.declarations.names;
        for (customer, customer_name) in names.customers.iter().enumerate() {
            for (product, product_name) in names.products.iter().enumerate() {
                let pair = self.sizes.customer_product(customer, product);
                let Some(line) = self.line_of_want(pair) else {
                    continue;
                };
                for (facts, word) in
                    [(&self.prices, "price"), (&self.backlog_costs, "backlog-cost")]
                {
                    if facts.get(pair).is_none() {
                        let message = format!(
                            "customer {customer_name} wants {product_name}, which has no {word}; \
                             expected a line: {word} {customer_name} {product_name} NUMBER cents \
                             per kilogram"
                        );
                        faults.push(Fault { line, message });
                    }
                }
            }
        }
    }

    /// The first line with an opening backlog or a demand above 0.
    fn line_of_want(&self, pair: usize) -> Option<usize> {
        let weeks = pair * self.sizes.weeks..(pair + 1) * self.sizes.weeks;
        let demand = weeks.filter_map(|place| self.demand.get(place));
        let wants = self.opening_backlog.get(pair).into_iter().chain(demand);
        wants
            .filter(|given| given.value.is_some_and(|grams| grams > 0))
            .map(|given| given.line)
            .min()
    }
}

/// What is told of a product without a rate.
pub(crate) fn no_rate(name: &str) -> String {
    format!("product {name} has no rate; expected a line: rate {name} NUMBER grams per minute")
}

/// The values at the places below `count`, 0 where none is given.
pub(crate) fn values(facts: &Facts<u64>, count: usize) -> Vec<u32> {
    (0..count).map(|place| four_bytes(facts.value(place).unwrap_or_default())).collect()
}

fn two_bytes(number: u64) -> u16 {
    u16::try_from(number).expect("a number within its limits")
}

fn four_bytes(number: u64) -> u32 {
    u32::try_from(number).expect("a number within its limits")
}

/// The text of a plant, without the facts that are 0 where nothing is said.
pub fn write(plant: &Plant, names: &Names) -> String {
    let mut text = String::new();
    write_lines(&mut text, plant, names).expect("a text has room");
    text
}

fn write_lines(text: &mut String, plant: &Plant, names: &Names) -> std::fmt::Result {
    writeln!(text, "weeks {}", plant.sizes.weeks)?;
    writeln!(text, "week-minutes {}", WEEK_MINUTES.unit.amount(plant.week_minutes))?;
    writeln!(text, "shortest-run {}", SHORTEST_RUN.unit.amount(plant.shortest_run))?;
    writeln!(text)?;
    for name in &names.products {
        writeln!(text, "product {name}")?;
    }
    writeln!(text)?;
    for name in &names.customers {
        writeln!(text, "customer {name}")?;
    }
    if let Some(WeekBefore { mounted, shut }) = plant.week_before {
        writeln!(text)?;
        if let Some(product) = mounted {
            writeln!(text, "mounted {}", names.products[usize::from(product)])?;
        }
        writeln!(text, "week-before {}", WEEK_BEFORE[usize::from(shut)])?;
    }
    for product in 0..plant.sizes.products {
        write_product(text, plant, names, product)?;
    }
    for customer in 0..plant.sizes.customers {
        for product in 0..plant.sizes.products {
            write_pair(text, plant, names, customer, product)?;
        }
    }
    Ok(())
}

fn write_product(
    text: &mut String,
    plant: &Plant,
    names: &Names,
    product: usize,
) -> std::fmt::Result {
    let name = &names.products[product];
    let Storage { least, greatest } = plant.storage[product];
    let (rate, cost) = (plant.rates[product], plant.inventory_costs[product]);
    let opening = plant.opening_inventory[product];
    writeln!(text)?;
    writeln!(text, "{}", rate_line(name, rate))?;
    writeln!(text, "inventory-cost {name} {}", INVENTORY_COST.unit.amount(cost))?;
    writeln!(text, "storage {name} {least} {}", STORAGE.unit.amount(greatest))?;
    if opening > 0 {
        writeln!(text, "opening-inventory {name} {}", OPENING_INVENTORY.unit.amount(opening))?;
    }
    for (to, to_name) in names.products.iter().enumerate().filter(|&(to, _)| to != product) {
        let place = plant.sizes.from_to(product, to);
        let minutes = CHANGEOVER_MINUTES.unit.amount(plant.changeover_minutes[place]);
        let cents = CHANGEOVER_CENTS.unit.amount(plant.changeover_cents[place]);
        writeln!(text, "changeover {name} {to_name} {minutes} {cents}")?;
    }
    Ok(())
}

pub(crate) fn rate_line(name: &str, rate: u32) -> String {
    format!("rate {name} {}", RATE.unit.amount(rate))
}

fn write_pair(
    text: &mut String,
    plant: &Plant,
    names: &Names,
    customer: usize,
    product: usize,
) -> std::fmt::Result {
    let name = format!("{} {}", names.customers[customer], names.products[product]);
    let pair = plant.sizes.customer_product(customer, product);
    let (price, cost) = (plant.prices[pair], plant.backlog_costs[pair]);
    let opening = plant.opening_backlog[pair];
    if price > 0 || cost > 0 || plant.wants(customer, product) {
        writeln!(text)?;
        writeln!(text, "price {name} {}", PRICE.unit.amount(price))?;
        writeln!(text, "backlog-cost {name} {}", BACKLOG_COST.unit.amount(cost))?;
    }
    if opening > 0 {
        let unit = opening_backlog(plant.week_before.is_some()).unit;
        writeln!(text, "opening-backlog {name} {}", unit.amount(opening))?;
    }
    for week in 0..plant.sizes.weeks {
        let grams = plant.demand[plant.sizes.customer_product_week(customer, product, week)];
        if grams > 0 {
            writeln!(text, "demand {name} week {} {}", week + 1, DEMAND.unit.amount(grams))?;
        }
    }
    Ok(())
}
