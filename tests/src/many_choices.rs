//! Sheets with ten million choices and more.

use crate::bench_cases::case_a;
use crate::sheet::{Edge, Process, Sheet};

/// Three clients at two controllers. The environment asks by variables 0 to 2,
/// and 3 to 5 grant; the first controller has two of the grants. It takes turns
/// of three steps by both or, if the other grants every second step, of four by
/// the first: there are none with bounds 3 and 2, but with one more in either.
pub fn three_clients(first: u8, second: u8) -> Sheet {
    let mut edges = vec![Edge::new(0, 0, 0, 0), Edge::new(4, 4, 0, 0)];
    for client in 0..3 {
        let (asks, grants) = (1 << client, 8 << client);
        edges.push(Edge::new(0, client + 1, asks, 0));
        edges.push(Edge::new(client + 1, client + 1, 0, grants));
    }
    for both in [0x18, 0x28, 0x30] {
        edges.push(Edge::new(0, 4, both, 0));
    }
    Sheet {
        variables: 6,
        environment: 3,
        processes: vec![
            Process::new(0x01, 0x18, first),
            Process::new(0x06, 0x20, second),
        ],
        states: 5,
        rejecting: 0x1E,
        edges,
        ..Sheet::default()
    }
}

/// What the environment says by variable 0 has to be said by variable 2 two
/// steps later. The first controller hears it, and the second one hears the
/// first by variable 1. Three states in each are not enough, but four in either.
pub fn relay(first: u8, second: u8) -> Sheet {
    Sheet {
        variables: 3,
        environment: 1,
        processes: vec![
            Process::new(0x01, 0x02, first),
            Process::new(0x02, 0x04, second),
        ],
        states: 6,
        rejecting: 0x20,
        edges: vec![
            Edge::new(0, 0, 0, 0),
            Edge::new(0, 1, 0x01, 0),
            Edge::new(1, 2, 0, 0),
            Edge::new(2, 5, 0, 0x04),
            Edge::new(0, 3, 0, 0x01),
            Edge::new(3, 4, 0, 0),
            Edge::new(4, 5, 0x04, 0),
            Edge::new(5, 5, 0, 0),
        ],
        ..Sheet::default()
    }
}

/// The same where the second controller hears the first promptly, and so brings
/// no delay of its own: four states in one of them are not enough, but in both.
pub fn prompt_relay(first: u8, second: u8) -> Sheet {
    let mut sheet = relay(first, second);
    sheet.processes[1].prompt_mask = Some(0x02);
    sheet
}

/// Case A's controller with one state more, which has to open with both grants
/// and then to have exactly one at any time: no choice keeps the sheet whose
/// first entry is not the greatest.
pub fn opening(bound: u8) -> Sheet {
    let case_a = case_a();
    let mut edges = vec![
        Edge::new(4, 3, 0, 0x04),
        Edge::new(4, 3, 0, 0x08),
        Edge::new(4, 0, 0, 0),
        Edge::new(0, 3, 0, 0x0C),
    ];
    edges.extend(&case_a.edges);
    Sheet {
        processes: vec![Process::new(0x03, 0x0C, bound)],
        states: 5,
        initial: 4,
        edges,
        ..case_a
    }
}

/// Two controllers with one table and two clients each. The environment asks by
/// variables 0 to 3, and 4 to 7 grant, two by each. Both have to open with all of
/// their grants, then to pause with none, and then to have exactly one at any
/// time: three states are not enough, but four.
pub fn tied_openings(bound: u8) -> Sheet {
    let (opening, pause, serving, violated) = (0, 1, 2, 7);
    let mut edges = vec![
        Edge::unless(opening, violated, 0xF0, 0),
        Edge::new(opening, pause, 0, 0),
        Edge::unless(pause, violated, 0, 0xF0),
        Edge::new(pause, serving, 0, 0),
        Edge::new(serving, serving, 0, 0),
        Edge::new(violated, violated, 0, 0),
    ];
    for client in 0..4 {
        let (asks, grants) = (1 << client, 16 << client);
        let waiting = serving + 1 + client;
        edges.push(Edge::new(serving, waiting, asks, 0));
        edges.push(Edge::new(waiting, waiting, 0, grants));
    }
    for both in [0x30, 0xC0] {
        edges.push(Edge::new(serving, violated, both, 0));
        edges.push(Edge::new(serving, violated, 0, both));
    }
    Sheet {
        variables: 8,
        environment: 4,
        processes: vec![
            Process::new(0x03, 0x30, bound),
            Process::new(0x0C, 0xC0, bound),
        ],
        ties: vec![[0, 1]],
        states: 8,
        rejecting: 0x00F8,
        edges,
        ..Sheet::default()
    }
}

/// Two controllers that both count 0, 1, 2, 3 and round again, whatever the
/// environment says. Each of their entries is read, so that the search settles
/// them all, one within the other: 16 without an environment, 136 with four
/// variables.
pub fn counters(environment: u8) -> Sheet {
    let mut edges = vec![Edge::new(4, 4, 0, 0)];
    for count in 0..4 {
        edges.push(Edge::new(count, (count + 1) % 4, 0, 0));
        for bit in 0..2 {
            edges.extend(wrong_counts(environment, count, bit));
        }
    }
    let inputs = (1 << environment) - 1;
    Sheet {
        variables: environment + 4,
        environment,
        processes: vec![
            Process::new(inputs, 3 << environment, 4),
            Process::new(inputs, 12 << environment, 4),
        ],
        states: 5,
        rejecting: 0x10,
        edges,
        ..Sheet::default()
    }
}

/// The edges met where a counter does not have this bit of the count: one for
/// each of the two.
fn wrong_counts(environment: u8, count: u8, bit: u8) -> [Edge; 2] {
    let variables = [1 << environment << bit, 4 << environment << bit];
    let is_on = count >> bit & 1 == 1;
    variables.map(|variable| match is_on {
        true => Edge::new(count, 4, 0, variable),
        false => Edge::new(count, 4, variable, 0),
    })
}
