//! Sheets whose tables have to tell one value of the inputs from all others, for
//! every mask of inputs that a process with one output can have.

use crate::sheet::{lowest_of, variables_of, Edge, Process, Sheet, MOST_INPUTS};

/// The environment sets these variables, the detector this one, and a process
/// without inputs the others.
const ENVIRONMENT: u8 = 0x0F;
const DETECTED: u8 = 0x40;
const OTHERS: u8 = 0xB0;

/// The masks of at most four variables that the detector does not set itself.
pub fn input_masks() -> impl Iterator<Item = u8> {
    let fits = |mask: &u8| mask & DETECTED == 0 && mask.count_ones() <= MOST_INPUTS;
    (0..=255).filter(fits)
}

/// From the second label on the detector's variable is on exactly when its
/// lowest input is off and the others are on. The process without inputs has to
/// keep its variables so, and those that are not read on.
pub fn detector(inputs: u8) -> Sheet {
    let (opening, watching, violated) = (0, 1, 2);
    let off = lowest_of(inputs);
    let on = inputs & !off;
    let missed = Edge::new(
        watching,
        violated,
        on & ENVIRONMENT,
        off & ENVIRONMENT | DETECTED,
    );
    let mut edges = vec![
        Edge::new(opening, watching, 0, 0),
        Edge::new(watching, watching, 0, 0),
        Edge::new(violated, violated, 0, 0),
        missed,
    ];
    for variable in variables_of(inputs & ENVIRONMENT) {
        let wrong = 1 << variable;
        edges.push(Edge::new(
            watching,
            violated,
            wrong & off | DETECTED,
            wrong & on,
        ));
    }
    for variable in variables_of(OTHERS) {
        let wrong = 1 << variable;
        edges.push(Edge::new(watching, violated, wrong & off, wrong & !off));
    }
    Sheet {
        variables: 8,
        environment: 4,
        processes: vec![
            Process::new(inputs, DETECTED, 2),
            Process::new(0, OTHERS, 1),
        ],
        states: 3,
        initial: opening,
        rejecting: 1 << violated,
        edges,
        ..Sheet::default()
    }
}
