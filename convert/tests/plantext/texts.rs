//! The small plant, its slots and new rates as texts, each fact on a line of its own.

use plantext::lines::Fault;

pub const PLANT: [&str; 24] = [
    "weeks 2",
    "week-minutes 10080",
    "shortest-run 300",
    "product A",
    "product B",
    "customer C1",
    "rate A 100",
    "rate B 50",
    "changeover A B 40 minutes 600 cents",
    "changeover B A 30 minutes 500 cents",
    "inventory-cost A 1",
    "inventory-cost B 1",
    "storage A 0 2000000",
    "storage B 0 2000000",
    "price C1 A 10",
    "price C1 B 12",
    "backlog-cost C1 A 2",
    "backlog-cost C1 B 3",
    "opening-inventory A 0",
    "opening-backlog C1 A 0",
    "demand C1 A week 1 400000",
    "demand C1 A week 2 300000",
    "demand C1 B week 1 100000",
    "demand C1 B week 2 200000",
];

pub const SLOTS: [&str; 10] = [
    "week 1",
    "run A 5000",
    "run B 2000",
    "sell C1 A 400000",
    "sell C1 B 100000",
    "week 2",
    "run B 3000",
    "run A 2000",
    "sell C1 A 300000",
    "sell C1 B 150000",
];

pub const RATES: [&str; 2] = ["rate A 125", "rate B 80"];

/// The text with other words on some lines, which count from 1.
pub fn changed(lines: &[&str], changes: &[(usize, &str)]) -> String {
    let mut lines = lines.to_vec();
    for &(number, line) in changes {
        lines[number - 1] = line;
    }
    lines.join("\n") + "\n"
}

/// The facts of a text, a line each, with kilograms as grams.
pub fn facts(text: &str) -> Vec<String> {
    let lines = text.lines().map(|line| line.split('#').next().unwrap_or_default().trim());
    let in_grams = |line: &str| line.replace(" kilograms", "000 grams");
    lines.filter(|line| !line.is_empty()).map(in_grams).collect()
}

/// Faults as "LINE: MESSAGE".
pub fn told<Good>(result: Result<Good, Vec<Fault>>) -> Vec<String> {
    let faults = result.err().unwrap_or_default();
    faults.iter().map(|fault| format!("{}: {}", fault.line, fault.message)).collect()
}
