//! Every fault of a text is told with its line and what is expected.

use plantext::model::Names;
use plantext::{plant_text, rates_text, slots_text};

use crate::texts::{changed, told, PLANT, RATES, SLOTS};

/// What is told of the small plant's text after changes.
fn plant_faults(changes: &[(usize, &str)]) -> Vec<String> {
    told(plant_text::read(changed(&PLANT, changes).as_bytes()))
}

/// What is told of the small plant's slots after changes.
fn slots_faults(changes: &[(usize, &str)]) -> Vec<String> {
    let (plant, names) = plant_text::read(changed(&PLANT, &[]).as_bytes()).expect("a good text");
    told(slots_text::read(plant.sizes, &names, changed(&SLOTS, changes).as_bytes()))
}

/// What is told of new rates of the small plant after changes.
fn rates_faults(changes: &[(usize, &str)]) -> Vec<String> {
    told(rates_text::read(&small_names(), changed(&RATES, changes).as_bytes()))
}

fn small_names() -> Names {
    Names { products: vec!["A".to_string(), "B".to_string()], customers: vec!["C1".to_string()] }
}

#[test]
fn unknown_words() {
    assert_eq!(
        plant_faults(&[(19, "stock A 0")]),
        ["19: unknown word \"stock\"; expected one of weeks, week-minutes, shortest-run, product, \
          customer, mounted, week-before, rate, changeover, inventory-cost, storage, \
          opening-inventory, price, backlog-cost, opening-backlog, demand"]
    );
    assert_eq!(
        plant_faults(&[(19, "week-before open")]),
        ["19: unknown word \"open\"; expected one of producing, shut"]
    );
    assert_eq!(
        plant_faults(&[(21, "demand C1 A day 1 400000")]),
        ["21: \"day\" stands in place of \"week\"; expected: demand CUSTOMER PRODUCT week NUMBER \
          NUMBER grams"]
    );
    assert_eq!(
        slots_faults(&[(4, "sale C1 A 400000")]),
        ["4: unknown word \"sale\"; expected one of week, run, sell"]
    );
    assert_eq!(
        rates_faults(&[(2, "rate B 80\nstorage A 0 5000")]),
        ["3: unknown word \"storage\"; expected one of rate"]
    );
}

#[test]
fn unknown_names() {
    assert_eq!(
        plant_faults(&[(19, "opening-inventory D 0")]),
        ["19: unknown product \"D\"; expected one of A, B"]
    );
    assert_eq!(
        plant_faults(&[(19, "mounted D")]),
        ["19: unknown product \"D\"; expected one of A, B"]
    );
    assert_eq!(
        plant_faults(&[(20, "opening-backlog C2 A 0")]),
        ["20: unknown customer \"C2\"; expected one of C1"]
    );
    assert_eq!(
        plant_faults(&[(20, "opening-backlog C1 a 0")]),
        ["20: unknown product \"a\"; expected one of A, B"]
    );
    assert_eq!(
        slots_faults(&[(2, "run D 5000")]),
        ["2: unknown product \"D\"; expected one of A, B"]
    );
    assert_eq!(
        slots_faults(&[(4, "sell C2 A 400000")]),
        ["4: unknown customer \"C2\"; expected one of C1"]
    );
    assert_eq!(
        slots_faults(&[(4, "sell C1 D 400000")]),
        ["4: unknown product \"D\"; expected one of A, B"]
    );
    assert_eq!(
        rates_faults(&[(2, "rate B 80\nrate D 80")]),
        ["3: unknown product \"D\"; expected one of A, B"]
    );
}

#[test]
fn words_too_few_or_too_many() {
    assert_eq!(
        plant_faults(&[(19, "opening-inventory A")]),
        ["19: the line ends after \"opening-inventory A\"; expected: opening-inventory PRODUCT \
          NUMBER grams"]
    );
    assert_eq!(
        plant_faults(&[(9, "changeover A B 40 minutes 600")]),
        ["9: the line ends after \"changeover A B 40 minutes 600\"; expected: changeover PRODUCT \
          PRODUCT NUMBER minutes NUMBER cents"]
    );
    assert_eq!(
        plant_faults(&[(1, "weeks 2 long")]),
        ["1: \"long\" is too much; expected: weeks NUMBER"]
    );
    assert_eq!(
        plant_faults(&[(5, "product B green")]),
        ["5: \"green\" is too much; expected: product NAME"]
    );
    assert_eq!(
        plant_faults(&[(15, "price C1 A 10 cents per kilogram net")]),
        ["15: \"net\" is too much; expected: price CUSTOMER PRODUCT NUMBER cents per kilogram"]
    );
    assert_eq!(
        plant_faults(&[(9, "changeover A B 40 minutes 600 cents each")]),
        ["9: \"each\" is too much; expected: changeover PRODUCT PRODUCT NUMBER minutes NUMBER cents"]
    );
    for (line, fault) in [
        ("mounted", "the line ends after \"mounted\"; expected: mounted PRODUCT"),
        ("mounted A B", "\"B\" is too much; expected: mounted PRODUCT"),
        (
            "week-before",
            "the line ends after \"week-before\"; expected: week-before shut or producing",
        ),
        ("week-before shut long", "\"long\" is too much; expected: week-before shut or producing"),
    ] {
        assert_eq!(plant_faults(&[(19, line)]), [format!("19: {fault}")]);
    }
    assert_eq!(
        slots_faults(&[(2, "run A 5000 minutes fast")]),
        ["2: \"fast\" is too much; expected: run PRODUCT NUMBER minutes"]
    );
    assert_eq!(
        slots_faults(&[(9, "sell C1")]),
        ["9: the line ends after \"sell C1\"; expected: sell CUSTOMER PRODUCT NUMBER grams"]
    );
    for (line, fault) in [
        ("rate A", "the line ends after \"rate A\""),
        ("rate A 125 grams per minute net", "\"net\" is too much"),
    ] {
        let form = "rate PRODUCT NUMBER grams per minute";
        assert_eq!(rates_faults(&[(1, line)]), [format!("1: {fault}; expected: {form}")]);
    }
}

#[test]
fn numbers_not_in_digits() {
    for number in ["ten", "-1", "+1", "1,000", "1_000", ".5", "5.", "1.2.3", "0x10", "１"] {
        assert_eq!(
            plant_faults(&[(15, &format!("price C1 A {number}"))]),
            [format!(
                "15: \"{number}\" is not a number in digits; expected a price of 0 to 100000 cents \
                 per kilogram"
            )]
        );
    }
    assert_eq!(
        plant_faults(&[(15, "price C1 A 1.5")]),
        ["15: 1.5 cents per kilogram is not a whole number of cents per kilogram; expected a price \
          of 0 to 100000 cents per kilogram"]
    );
    assert_eq!(
        plant_faults(&[(19, "opening-inventory A 0.0005 kilograms")]),
        ["19: 0.0005 kilograms is not a whole number of grams; expected an opening inventory of 0 \
          to 4000000000 grams"]
    );
    let rate = "expected a rate of 1 to 100000 grams per minute";
    assert_eq!(
        rates_faults(&[(1, "rate A fast"), (2, "rate B 80.5")]),
        [
            format!("1: \"fast\" is not a number in digits; {rate}"),
            format!("2: 80.5 grams per minute is not a whole number of grams per minute; {rate}"),
        ]
    );
}

#[test]
fn wrong_units() {
    for (line, text, message) in [
        (
            3,
            "shortest-run 5 hours",
            "\"hours\" is not the unit here; expected a shortest run in minutes",
        ),
        (
            7,
            "rate A 100 minutes",
            "\"minutes\" is not the unit here; expected a rate in grams per minute",
        ),
        (
            7,
            "rate A 100 grams",
            "\"grams\" is not the unit here; expected a rate in grams per minute",
        ),
        (
            9,
            "changeover A B 40 600",
            "\"600\" is not the unit here; expected a changeover in minutes",
        ),
        (
            9,
            "changeover A B 600 cents 40 minutes",
            "\"cents\" is not the unit here; expected a changeover in minutes",
        ),
        (
            9,
            "changeover A B 40 minutes 600 grams",
            "\"grams\" is not the unit here; expected a changeover cost in cents",
        ),
        (
            15,
            "price C1 A 10 cents",
            "\"cents\" is not the unit here; expected a price in cents per kilogram",
        ),
        (
            21,
            "demand C1 A week 1 4 tons",
            "\"tons\" is not the unit here; expected a demand in grams or kilograms",
        ),
    ] {
        assert_eq!(plant_faults(&[(line, text)]), [format!("{line}: {message}")]);
    }
    assert_eq!(
        slots_faults(&[(2, "run A 5000 grams")]),
        ["2: \"grams\" is not the unit here; expected a run in minutes"]
    );
    assert_eq!(
        slots_faults(&[(4, "sell C1 A 5000 minutes")]),
        ["4: \"minutes\" is not the unit here; expected a sale in grams or kilograms"]
    );
    for unit in ["minutes", "grams", "kilograms", "kilograms per minute", "percent"] {
        let word = unit.split(' ').next().unwrap_or_default();
        assert_eq!(
            rates_faults(&[(1, &format!("rate A 125 {unit}"))]),
            [format!("1: \"{word}\" is not the unit here; expected a rate in grams per minute")]
        );
    }
}

/// A line's number, the line around its number, and what the number may be.
type Limit = (usize, &'static str, &'static str, u64, u64, &'static str);

/// Tries a line's limits, and one number beyond each.
fn try_limits(faults: fn(&[(usize, &str)]) -> Vec<String>, limit: Limit) {
    let (line, before, after, least, greatest, expected) = limit;
    let tried = |number: u64| faults(&[(line, &format!("{before} {number} {after}"))]);
    assert_eq!(tried(least), [] as [String; 0], "{before} {least}");
    assert_eq!(tried(greatest), [] as [String; 0], "{before} {greatest}");
    let below = least.checked_sub(1);
    for number in below.into_iter().chain([greatest + 1, u64::MAX]) {
        let told = tried(number);
        let whole = format!(" is out of limits; expected {expected}");
        assert_eq!(told.len(), 1, "{told:?}");
        assert!(told[0].starts_with(&format!("{line}: {number} ")), "{told:?}");
        assert!(told[0].ends_with(&whole), "{told:?}");
    }
}

#[test]
fn numbers_out_of_limits() {
    let rate = "a rate of 1 to 100000 grams per minute";
    let minutes = "a changeover of 0 to 10080 minutes";
    let cents = "a changeover cost of 0 to 1000000 cents";
    let inventory_cost = "an inventory cost of 0 to 100000 cents per kilogram";
    let storage = "a storage limit of 0 to 4000000000 grams";
    let price = "a price of 0 to 100000 cents per kilogram";
    let backlog_cost = "a backlog cost of 0 to 100000 cents per kilogram";
    let inventory = "an opening inventory of 0 to 4000000000 grams";
    let backlog = "an opening backlog of 0 to 100000000 grams";
    let demand = "a demand of 0 to 100000000 grams";
    try_limits(plant_faults, (7, "rate A", "", 1, 100_000, rate));
    try_limits(plant_faults, (9, "changeover A B", "minutes 0 cents", 0, 10_080, minutes));
    try_limits(plant_faults, (9, "changeover A B 0 minutes", "cents", 0, 1_000_000, cents));
    try_limits(plant_faults, (11, "inventory-cost A", "", 0, 100_000, inventory_cost));
    try_limits(plant_faults, (13, "storage A 0", "", 0, 4_000_000_000, storage));
    try_limits(plant_faults, (15, "price C1 A", "", 0, 100_000, price));
    try_limits(plant_faults, (17, "backlog-cost C1 A", "", 0, 100_000, backlog_cost));
    try_limits(plant_faults, (19, "opening-inventory A", "", 0, 4_000_000_000, inventory));
    try_limits(plant_faults, (20, "opening-backlog C1 A", "", 0, 100_000_000, backlog));
    try_limits(plant_faults, (21, "demand C1 A week 1", "", 0, 100_000_000, demand));
    try_limits(
        plant_faults,
        (3, "shortest-run", "", 1, 10_080, "a shortest run of 1 to 10080 minutes"),
    );
    try_limits(slots_faults, (2, "run A", "", 0, 65_535, "a run of 0 to 65535 minutes"));
    try_limits(
        slots_faults,
        (4, "sell C1 A", "", 0, 4_294_967_295, "a sale of 0 to 4294967295 grams"),
    );
    try_limits(rates_faults, (2, "rate B", "", 1, 100_000, rate));
}

/// A plant of kind 4 may owe more at first (request 2026-03).
#[test]
fn the_opening_backlogs_limit_goes_by_the_kind() {
    let limit = "an opening backlog of 0 to 1600000000 grams";
    // The line that makes the kind may stand before or after.
    for kind_4 in [
        (19, "mounted B"),
        (19, "week-before producing"),
        (23, "week-before shut"),
        (24, "mounted A"),
    ] {
        let faults =
            |grams: &str| plant_faults(&[kind_4, (20, &format!("opening-backlog C1 A {grams}"))]);
        for good in ["0", "100000001", "1600000000", "1600000 kilograms"] {
            assert_eq!(faults(good), [] as [String; 0], "{kind_4:?} {good}");
        }
        for (grams, told) in [
            ("1600000001", "1600000001 grams"),
            ("1600000.001 kilograms", "1600000.001 kilograms"),
            ("4294967296", "4294967296 grams"),
        ] {
            let told = format!("20: {told} is out of limits; expected {limit}");
            assert_eq!(faults(grams), [told], "{kind_4:?}");
        }
    }
    // A faulty line makes the kind too.
    assert_eq!(
        plant_faults(&[(19, "mounted D"), (20, "opening-backlog C1 A 1600000000")]),
        ["19: unknown product \"D\"; expected one of A, B"]
    );
    assert_eq!(
        plant_faults(&[(19, "week-before"), (20, "opening-backlog C1 A 1600000001")]),
        [
            "19: the line ends after \"week-before\"; expected: week-before shut or producing"
                .to_string(),
            format!("20: 1600000001 grams is out of limits; expected {limit}"),
        ]
    );
    // A product of that name does not.
    let text = changed(&PLANT, &[(20, "opening-backlog C1 A 100000001")]);
    assert_eq!(
        told(plant_text::read(text.replace('B', "mounted").as_bytes())),
        ["20: 100000001 grams is out of limits; expected an opening backlog of 0 to 100000000 \
          grams"]
    );
}

#[test]
fn kilograms_out_of_limits() {
    let limit = "a demand of 0 to 100000000 grams";
    assert_eq!(plant_faults(&[(21, "demand C1 A week 1 100000 kilograms")]), [] as [String; 0]);
    assert_eq!(
        plant_faults(&[(21, "demand C1 A week 1 100000.001 kilograms")]),
        [format!("21: 100000.001 kilograms is out of limits; expected {limit}")]
    );
    let long = "9".repeat(40);
    assert_eq!(
        plant_faults(&[(21, &format!("demand C1 A week 1 {long} kilograms"))]),
        [format!("21: {long} kilograms is out of limits; expected {limit}")]
    );
}

#[test]
fn times_out_of_limits() {
    assert_eq!(plant_faults(&[(2, "week-minutes 300")]), [] as [String; 0]);
    assert_eq!(plant_faults(&[(2, "week-minutes 1"), (3, "shortest-run 1")]), [] as [String; 0]);
    assert_eq!(
        plant_faults(&[(2, "week-minutes 10081")]),
        ["2: 10081 minutes is out of limits; expected a week of 1 to 10080 minutes"]
    );
    assert_eq!(
        plant_faults(&[(2, "week-minutes 0")]),
        ["2: 0 minutes is out of limits; expected a week of 1 to 10080 minutes"]
    );
    assert_eq!(
        plant_faults(&[(2, "week-minutes 299")]),
        ["3: the shortest run of 300 minutes is longer than the week; expected at most \
          week-minutes, 299"]
    );
}

#[test]
fn storage_and_changeovers_that_cannot_be() {
    assert_eq!(
        plant_faults(&[(13, "storage A 2 1 kilograms")]),
        ["13: the least storage of 2000 grams is above the greatest of 1000 grams; expected the \
          least first"]
    );
    assert_eq!(
        plant_faults(&[(9, "changeover A A 0 minutes 0 cents")]),
        [
            "4: product A has no changeover to B; expected for each a line as: changeover A B \
             NUMBER minutes NUMBER cents",
            "9: a changeover from A to itself; expected two different products",
        ]
    );
}

#[test]
fn counts_out_of_limits() {
    for weeks in ["0", "27", "two", "+2", "2.0"] {
        assert_eq!(
            plant_faults(&[(1, &format!("weeks {weeks}"))]),
            [format!("1: \"{weeks}\" is not a count of weeks; expected 1 to 26")]
        );
    }
    let products: Vec<String> = (1..=15).map(|number| format!("product X{number}")).collect();
    assert_eq!(
        plant_faults(&[(19, &products.join("\n"))]),
        ["33: there are 17 products; expected at most 16"]
    );
    let customers: Vec<String> = (1..=8).map(|number| format!("customer X{number}")).collect();
    assert_eq!(
        plant_faults(&[(19, &customers.join("\n"))]),
        ["26: there are 9 customers; expected at most 8"]
    );
    assert_eq!(
        plant_faults(&[(4, ""), (5, "")]),
        ["24: there is no product; expected a line: product NAME"]
    );
    assert_eq!(
        plant_faults(&[(6, "")]),
        ["24: there is no customer; expected a line: customer NAME"]
    );
}

#[test]
fn weeks_that_the_plant_has_not() {
    for week in ["0", "3", "first"] {
        assert_eq!(
            plant_faults(&[(22, &format!("demand C1 A week {week} 5"))]),
            [format!("22: \"{week}\" is not a week of the plant; expected 1 to 2")]
        );
        assert_eq!(
            slots_faults(&[(6, &format!("week {week}"))]),
            [
                format!("6: \"{week}\" is not a week of the plant; expected 1 to 2"),
                "10: week 2 is missing; expected the plant's 2 weeks".to_string(),
            ]
        );
    }
}

#[test]
fn missing_facts() {
    for (line, faults) in [
        (1, vec!["24: the count of weeks is missing; expected a line: weeks NUMBER"]),
        (2, vec!["24: week-minutes is missing; expected a line: week-minutes NUMBER minutes"]),
        (3, vec!["24: shortest-run is missing; expected a line: shortest-run NUMBER minutes"]),
        (8, vec!["5: product B has no rate; expected a line: rate B NUMBER grams per minute"]),
        (
            9,
            vec![
                "4: product A has no changeover to B; expected for each a line as: changeover A B \
                 NUMBER minutes NUMBER cents",
            ],
        ),
        (
            11,
            vec![
                "4: product A has no inventory cost; expected a line: inventory-cost A NUMBER \
                 cents per kilogram",
            ],
        ),
        (
            14,
            vec![
                "5: product B has no storage limits; expected a line: storage B LEAST GREATEST \
                 grams",
            ],
        ),
        (
            15,
            vec![
                "21: customer C1 wants A, which has no price; expected a line: price C1 A NUMBER \
                 cents per kilogram",
            ],
        ),
        (
            18,
            vec![
                "23: customer C1 wants B, which has no backlog-cost; expected a line: backlog-cost \
                 C1 B NUMBER cents per kilogram",
            ],
        ),
    ] {
        assert_eq!(plant_faults(&[(line, "")]), faults, "without line {line}");
    }
    // An opening backlog is a want too.
    assert_eq!(
        plant_faults(&[(15, ""), (20, "opening-backlog C1 A 1"), (21, ""), (22, "")]),
        ["20: customer C1 wants A, which has no price; expected a line: price C1 A NUMBER cents \
          per kilogram"]
    );
}

/// Told at the text's last line, which may be empty or a comment.
#[test]
fn missing_rates() {
    let no_rate = |line: usize, name: &str| {
        format!(
            "{line}: product {name} has no rate; expected a line: rate {name} NUMBER grams per \
             minute"
        )
    };
    assert_eq!(rates_faults(&[(1, "")]), [no_rate(2, "A")]);
    assert_eq!(rates_faults(&[(2, "\n# none of B")]), [no_rate(3, "B")]);
    assert_eq!(rates_faults(&[(1, ""), (2, "")]), [no_rate(2, "A"), no_rate(2, "B")]);
    assert_eq!(told(rates_text::read(&small_names(), b"")), [no_rate(1, "A"), no_rate(1, "B")]);
    assert_eq!(
        rates_faults(&[(1, "rate D 125")]),
        ["1: unknown product \"D\"; expected one of A, B".to_string(), no_rate(2, "A")]
    );
}

/// A text with a product line is a plant's, and told as one.
#[test]
fn rates_of_a_plants_text() {
    let faults =
        |changes| told(rates_text::read(&small_names(), changed(&PLANT, changes).as_bytes()));
    assert_eq!(faults(&[]), [] as [String; 0]);
    assert_eq!(
        faults(&[(3, ""), (8, ""), (13, "storage A 0 2 tons")]),
        [
            "5: product B has no rate; expected a line: rate B NUMBER grams per minute",
            "13: \"tons\" is not the unit here; expected a storage limit in grams or kilograms",
            "24: shortest-run is missing; expected a line: shortest-run NUMBER minutes",
        ]
    );
    // A good text of another plant.
    let text = changed(&PLANT, &[]).replace('B', "D");
    assert_eq!(
        told(rates_text::read(&small_names(), text.as_bytes())),
        [
            "8: unknown product \"D\"; expected one of A, B",
            "24: product B has no rate; expected a line: rate B NUMBER grams per minute",
        ]
    );
    let names = Names { products: vec!["A".to_string()], ..small_names() };
    assert_eq!(
        told(rates_text::read(&names, changed(&PLANT, &[]).as_bytes())),
        ["8: unknown product \"B\"; expected one of A"]
    );
}

#[test]
fn missing_weeks() {
    assert_eq!(
        slots_faults(&[(6, ""), (7, ""), (8, ""), (9, ""), (10, "")]),
        ["10: week 2 is missing; expected the plant's 2 weeks"]
    );
    assert_eq!(
        slots_faults(&[(1, ""), (3, ""), (4, ""), (5, "")]),
        [
            "2: \"run\" stands before the first week; expected: week 1",
            "10: week 1 is missing; expected the plant's 2 weeks",
        ]
    );
}

#[test]
fn facts_given_twice() {
    for (line, text, fault) in [
        (19, "weeks 2", "the count of weeks is given twice; expected once, as on line 1"),
        (19, "week-minutes 5", "week-minutes is given twice; expected once, as on line 2"),
        (19, "shortest-run 5", "shortest-run is given twice; expected once, as on line 3"),
        (19, "product A", "product A is given twice; expected once, as on line 4"),
        (19, "customer C1", "customer C1 is given twice; expected once, as on line 6"),
        (19, "rate A 100", "rate A is given twice; expected once, as on line 7"),
        (
            19,
            "changeover A B 1 minute 1 cent",
            "changeover A B is given twice; expected once, as on line 9",
        ),
        (19, "inventory-cost A 1", "inventory-cost A is given twice; expected once, as on line 11"),
        (19, "storage B 0 0", "storage B is given twice; expected once, as on line 14"),
        (19, "price C1 B 1", "price C1 B is given twice; expected once, as on line 16"),
        (
            19,
            "backlog-cost C1 B 1",
            "backlog-cost C1 B is given twice; expected once, as on line 18",
        ),
        (
            20,
            "opening-inventory A 1",
            "opening-inventory A is given twice; expected once, as on line 19",
        ),
        (
            22,
            "demand C1 A week 1 0",
            "demand C1 A week 1 is given twice; expected once, as on line 21",
        ),
        (
            21,
            "opening-backlog C1 A 0",
            "opening-backlog C1 A is given twice; expected once, as on line 20",
        ),
    ] {
        assert_eq!(plant_faults(&[(line, text)]), [format!("{line}: {fault}")]);
    }
    for (first, second, word) in [
        ("mounted A", "mounted B", "mounted"),
        ("week-before shut", "week-before shut", "week-before"),
    ] {
        assert_eq!(
            plant_faults(&[(19, first), (20, second)]),
            [format!("20: {word} is given twice; expected once, as on line 19")]
        );
    }
    assert_eq!(
        slots_faults(&[(5, "sell C1 A 0")]),
        ["5: sell C1 A in week 1 is given twice; expected once, as on line 4"]
    );
    assert_eq!(
        slots_faults(&[(6, "week 1")]),
        [
            "6: week 1 is given twice; expected once, as on line 1",
            "10: week 2 is missing; expected the plant's 2 weeks",
        ]
    );
    assert_eq!(
        rates_faults(&[(2, "rate B 80\nrate A 125")]),
        ["3: rate A is given twice; expected once, as on line 1"]
    );
}

#[test]
fn weeks_out_of_order() {
    assert_eq!(
        slots_faults(&[(1, "week 2"), (6, "week 1")]),
        ["6: week 1 stands after week 2; expected the weeks in rising order"]
    );
}

#[test]
fn more_runs_than_products() {
    assert_eq!(
        slots_faults(&[(4, "run A 300")]),
        ["4: week 1 has more runs than there are products; expected at most 2"]
    );
}

#[test]
fn all_faults_are_told_at_once() {
    assert_eq!(
        plant_faults(&[(7, "rate A 0"), (16, "price C1 D 12"), (19, "opening-inventory A many")]),
        [
            "7: 0 grams per minute is out of limits; expected a rate of 1 to 100000 grams per \
             minute",
            "16: unknown product \"D\"; expected one of A, B",
            "19: \"many\" is not a number in digits; expected an opening inventory of 0 to \
             4000000000 grams",
            "23: customer C1 wants B, which has no price; expected a line: price C1 B NUMBER cents \
             per kilogram",
        ]
    );
    assert_eq!(
        slots_faults(&[(2, "run A"), (4, "sell C1 A all"), (6, "week 3"), (9, "sell C1 D 1")]),
        [
            "2: the line ends after \"run A\"; expected: run PRODUCT NUMBER minutes",
            "4: \"all\" is not a number in digits; expected a sale of 0 to 4294967295 grams",
            "6: \"3\" is not a week of the plant; expected 1 to 2",
            "9: unknown product \"D\"; expected one of A, B",
            "10: week 2 is missing; expected the plant's 2 weeks",
        ]
    );
    assert_eq!(
        rates_faults(&[(1, "rates A 125\nrate A 100001"), (2, "rate A 125\nrate D 80")]),
        [
            "1: unknown word \"rates\"; expected one of rate",
            "2: 100001 grams per minute is out of limits; expected a rate of 1 to 100000 grams per \
             minute",
            "3: rate A is given twice; expected once, as on line 2",
            "4: unknown product \"D\"; expected one of A, B",
            "4: product B has no rate; expected a line: rate B NUMBER grams per minute",
        ]
    );
}
