//! The text of a plant's rates alone: the rate lines of a plant's text, one for
//! each product.

use crate::lines::{self, Facts, Fault, Line, Words};
use crate::model::Names;
use crate::plant_text::{self, RATE, RATE_FORM};

/// Reads the rates of a plant's products, or tells the text's faults, lines rising.
///
/// A text with a product line is a plant's: it must be a good one, and of its lines
/// only the rates count.
pub fn read(names: &Names, text: &[u8]) -> Result<Vec<u32>, Vec<Fault>> {
    let split = lines::split(text)?;
    let is_plant = split.lines.iter().any(|line| line.words[0] == "product");
    if is_plant {
        plant_text::read(text)?;
    }
    let mut rates = Facts::default();
    let mut faults = Vec::new();
    for line in split.lines.iter().filter(|line| !is_plant || line.words[0] == "rate") {
        if let Err(message) = read_line(line, names, &mut rates) {
            faults.push(Fault { line: line.number, message });
        }
    }
    for (product, name) in names.products.iter().enumerate() {
        if rates.get(product).is_none() {
            faults.push(Fault { line: split.last, message: plant_text::no_rate(name) });
        }
    }
    if faults.is_empty() {
        Ok(plant_text::values(&rates, names.products.len()))
    } else {
        Err(faults)
    }
}

fn read_line(line: &Line, names: &Names, rates: &mut Facts<u64>) -> Result<(), String> {
    let form = lines::form_of(line.words[0], &[RATE_FORM])?;
    let mut words = Words::after_first(line, form);
    let product = lines::find_name("product", words.word()?, &names.products)?;
    let rate = RATE.read(&mut words);
    rates.give(product, line.number, rate, || format!("rate {}", names.products[product]))
}

/// The text of rates, a line each.
pub fn write(names: &Names, rates: &[u32]) -> String {
    let lines = names.products.iter().zip(rates);
    lines.map(|(name, &rate)| plant_text::rate_line(name, rate) + "\n").collect()
}
