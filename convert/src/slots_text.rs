//! The text of a plant's slots: week by week what runs, in running order, and
//! what is sold. A week without runs is shut.

use std::fmt::Write;

use crate::limits;
use crate::lines::{self, Facts, Fault, Line, Words};
use crate::model::{Names, Sizes, Slot, Slots};
use crate::quantities::{read_count, Quantity, Unit};

/// How each line is written.
const FORMS: [&str; 3] =
    ["week NUMBER", "run PRODUCT NUMBER minutes", "sell CUSTOMER PRODUCT NUMBER grams"];

const RUN: Quantity = Quantity { name: "a run", unit: Unit::Minutes, limits: limits::RUN };
const SALE: Quantity = Quantity { name: "a sale", unit: Unit::Grams, limits: limits::SALE };

/// Reads the text of slots of a plant, or tells its faults, lines rising.
pub fn read(sizes: Sizes, names: &Names, text: &[u8]) -> Result<Slots, Vec<Fault>> {
    let text = lines::split(text)?;
    let mut reader = Reader {
        sizes,
        names,
        week: Week::NoneYet,
        week_lines: Facts::default(),
        weeks: vec![Vec::new(); sizes.weeks],
        sales: Facts::default(),
    };
    let mut faults = Vec::new();
    for line in &text.lines {
        if let Err(message) = reader.read_line(line) {
            faults.push(Fault { line: line.number, message });
        }
    }
    reader.tell_missing(text.last, &mut faults);
    if faults.is_empty() {
        Ok(reader.slots())
    } else {
        faults.sort_by_key(|fault| fault.line);
        Err(faults)
    }
}

/// The week that a line belongs to.
#[derive(Clone, Copy)]
enum Week {
    NoneYet,
    /// Its line has a fault.
    Unknown,
    /// Counted from 0.
    Known(usize),
}

struct Reader<'names> {
    sizes: Sizes,
    names: &'names Names,
    week: Week,
    week_lines: Facts<()>,
    /// The runs of each week; nothing for a run with a fault.
    weeks: Vec<Vec<Option<Slot>>>,
    sales: Facts<u64>,
}

impl Reader<'_> {
    fn read_line(&mut self, line: &Line) -> Result<(), String> {
        let form = lines::form_of(line.words[0], &FORMS)?;
        let mut words = Words::after_first(line, form);
        if line.words[0] == "week" {
            return self.read_week(line.number, &mut words);
        }
        if let Week::NoneYet = self.week {
            let word = line.words[0];
            return Err(format!("\"{word}\" stands before the first week; expected: week 1"));
        }
        match line.words[0] {
            "run" => self.read_run(&mut words),
            _ => self.read_sale(line.number, &mut words),
        }
    }

    fn read_week(&mut self, line: usize, words: &mut Words) -> Result<(), String> {
        let before = std::mem::replace(&mut self.week, Week::Unknown);
        let number = read_count(words, "a week of the plant", 1..=self.sizes.weeks as u64)?;
        words.end()?;
        let week = number - 1;
        self.week_lines.give(week, line, Ok(()), || format!("week {number}"))?;
        self.week = Week::Known(week);
        match before {
            Week::Known(before) if before > week => Err(format!(
                "week {number} stands after week {}; expected the weeks in rising order",
                before + 1
            )),
            _ => Ok(()),
        }
    }

    fn read_run(&mut self, words: &mut Words) -> Result<(), String> {
        let slot = self.read_slot(words);
        let Week::Known(week) = self.week else {
            return slot.map(|_| ());
        };
        self.weeks[week].push(slot.as_ref().ok().copied());
        slot?;
        if self.weeks[week].len() > self.sizes.products {
            let (week, products) = (week + 1, self.sizes.products);
            return Err(format!(
                "week {week} has more runs than there are products; expected at most {products}"
            ));
        }
        Ok(())
    }

    fn read_slot(&self, words: &mut Words) -> Result<Slot, String> {
        let product = lines::find_name("product", words.word()?, &self.names.products)?;
        let minutes = RUN.read(words)?;
        Ok(Slot {
            product: u8::try_from(product).expect("at most 16 products"),
            minutes: u16::try_from(minutes).expect("a run within its limits"),
        })
    }

    fn read_sale(&mut self, line: usize, words: &mut Words) -> Result<(), String> {
        let names = self.names;
        let customer = lines::find_name("customer", words.word()?, &names.customers)?;
        let product = lines::find_name("product", words.word()?, &names.products)?;
        let grams = SALE.read(words);
        let Week::Known(week) = self.week else {
            return grams.map(|_| ());
        };
        let place = self.sizes.customer_product_week(customer, product, week);
        self.sales.give(place, line, grams, || {
            let (customer, product) = (&names.customers[customer], &names.products[product]);
            format!("sell {customer} {product} in week {}", week + 1)
        })
    }

    fn tell_missing(&self, last: usize, faults: &mut Vec<Fault>) {
        let weeks = self.sizes.weeks;
        for week in (0..weeks).filter(|&week| self.week_lines.get(week).is_none()) {
            let number = week + 1;
            let message = format!("week {number} is missing; expected the plant's {weeks} weeks");
            faults.push(Fault { line: last, message });
        }
    }

    fn slots(&self) -> Slots {
        let count = self.sizes.customers * self.sizes.products * self.sizes.weeks;
        let sale = |place| self.sales.value(place).unwrap_or_default();
        Slots {
            weeks: self.weeks.iter().map(|week| week.iter().flatten().copied().collect()).collect(),
            sales: (0..count)
                .map(|place| u32::try_from(sale(place)).expect("a sale within its limits"))
                .collect(),
        }
    }
}

/// The text of slots, without the sales of 0.
pub fn write(sizes: Sizes, names: &Names, slots: &Slots) -> String {
    let mut text = String::new();
    write_lines(&mut text, sizes, names, slots).expect("a text has room");
    text
}

fn write_lines(text: &mut String, sizes: Sizes, names: &Names, slots: &Slots) -> std::fmt::Result {
    for (week, runs) in slots.weeks.iter().enumerate() {
        if week > 0 {
            writeln!(text)?;
        }
        writeln!(text, "week {}", week + 1)?;
        for run in runs {
            let name = &names.products[usize::from(run.product)];
            writeln!(text, "run {name} {}", RUN.unit.amount(run.minutes))?;
        }
        for (customer, customer_name) in names.customers.iter().enumerate() {
            for (product, product_name) in names.products.iter().enumerate() {
                let grams = slots.sales[sizes.customer_product_week(customer, product, week)];
                if grams > 0 {
                    let grams = SALE.unit.amount(grams);
                    writeln!(text, "sell {customer_name} {product_name} {grams}")?;
                }
            }
        }
    }
    Ok(())
}
