//! The small plant: products A (0) and B (1), one customer, two weeks; the same
//! with B mounted; and the same over four weeks, two of which are shut.

use crate::machine;
use crate::model::{OpeningLine, Plan, Plant, Sizes, Slot, Slots, Storage};

pub fn plant() -> Plant {
    Plant {
        sizes: Sizes { products: 2, customers: 1, weeks: 2 },
        rates: vec![100, 50],
        changeover_minutes: vec![0, 40, 30, 0],
        changeover_cents: vec![0, 600, 500, 0],
        demand: vec![400_000, 300_000, 100_000, 200_000],
        prices: vec![10, 12],
        backlog_costs: vec![2, 3],
        inventory_costs: vec![1, 1],
        storage: vec![Storage { least: 0, greatest: 2_000_000 }; 2],
        opening_inventory: vec![0, 0],
        opening_backlog: vec![0, 0],
        shortest_run: 300,
        week_minutes: 10_080,
        opening_line: None,
    }
}

pub fn slots() -> Slots {
    Slots {
        counts: vec![2, 2],
        slots: vec![
            Slot { product: 0, minutes: 5000 },
            Slot { product: 1, minutes: 2000 },
            Slot { product: 1, minutes: 3000 },
            Slot { product: 0, minutes: 2000 },
        ],
        sales: vec![400_000, 300_000, 100_000, 150_000],
    }
}

pub fn plan() -> Plan {
    machine::run(&plant(), &slots()).expect("the small plant's run never stops")
}

/// The small plant with B mounted before week 0.
pub fn mounted_plant() -> Plant {
    Plant { opening_line: Some(OpeningLine { mounted: 1, was_shut: 0 }), ..plant() }
}

/// The plan of the same slots.
pub fn mounted_plan() -> Plan {
    machine::run(&mounted_plant(), &slots()).expect("the run with B mounted never stops")
}

/// The small plant over four weeks.
pub fn long_plant() -> Plant {
    Plant {
        sizes: Sizes { products: 2, customers: 1, weeks: 4 },
        demand: vec![400_000, 100_000, 0, 200_000, 100_000, 0, 0, 0],
        ..plant()
    }
}

/// Slots of the four weeks: A and B, two shut weeks with sales, then A.
pub fn long_slots() -> Slots {
    Slots {
        counts: vec![2, 0, 0, 1],
        slots: vec![
            Slot { product: 0, minutes: 5000 },
            Slot { product: 1, minutes: 2000 },
            Slot { product: 0, minutes: 2000 },
        ],
        sales: vec![400_000, 50_000, 50_000, 200_000, 50_000, 50_000, 0, 0],
    }
}

pub fn long_plan() -> Plan {
    machine::run(&long_plant(), &long_slots()).expect("the run over four weeks never stops")
}
