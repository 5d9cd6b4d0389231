//! Annotations for a run graph: valid ones, and such as are wrong at one vertex.

use crate::rng::Rng;
use crate::run_graph::{greatest_number, RunGraph, BLANK, GREATEST_NUMBER};

/// Annotations of all kinds for the graph, each as long as it has vertices.
pub fn of_all_kinds(rng: &mut Rng, graph: &RunGraph) -> Vec<Vec<u16>> {
    let mut all = constant(graph.len());
    all.push(low_numbers(rng, graph.len()));
    all.push(low_numbers(rng, graph.len()));
    if let Some(exact) = graph.annotation() {
        all.extend(with_changed_copies(rng, graph, &exact));
        let left = counted_when_left(graph, &exact);
        all.push(raised(&left, 1));
        all.push(left);
    }
    if let Some(wider) = numbering_more(rng, graph) {
        all.extend(with_changed_copies(rng, graph, &wider));
    }
    all
}

/// The same value at all vertices.
fn constant(length: usize) -> Vec<Vec<u16>> {
    let values = [0, 1, GREATEST_NUMBER, BLANK];
    values.iter().map(|value| vec![*value; length]).collect()
}

/// Low numbers, with a blank here and there.
fn low_numbers(rng: &mut Rng, length: usize) -> Vec<u16> {
    let limit = rng.within(1, 6);
    let blanks = rng.within(2, 8);
    let number = |rng: &mut Rng| match rng.one_in(blanks) {
        true => BLANK,
        false => rng.below(limit) as u16,
    };
    (0..length).map(|_| number(rng)).collect()
}

/// A valid annotation that also numbers vertices that are not reached.
fn numbering_more(rng: &mut Rng, graph: &RunGraph) -> Option<Vec<u16>> {
    let mut starts = vec![graph.initial];
    for _ in 0..rng.within(1, 3) {
        starts.push(rng.below(graph.len()));
    }
    graph.numbers(&starts)
}

/// The mistake that the specification's case H shows: a rejecting vertex counts
/// as it is left, and not as it is entered.
fn counted_when_left(graph: &RunGraph, exact: &[u16]) -> Vec<u16> {
    with_numbers(exact, |vertex, number| {
        number - u16::from(graph.rejecting[vertex])
    })
}

/// The annotation itself, raised copies, and copies changed at one vertex.
fn with_changed_copies(rng: &mut Rng, graph: &RunGraph, annotation: &[u16]) -> Vec<Vec<u16>> {
    let room = GREATEST_NUMBER - greatest_number(annotation);
    let mut all = vec![
        annotation.to_vec(),
        raised(annotation, 1),
        raised(annotation, rng.within(0, room as usize) as u16),
        raised(annotation, room),
        // The greatest numbers become blanks.
        raised(annotation, room + 1),
    ];
    all.extend(changed_at_numbers(rng, graph, annotation, room));
    all.extend(changed_at_blanks(rng, annotation));
    all
}

/// Copies changed at a vertex that is numbered.
fn changed_at_numbers(
    rng: &mut Rng,
    graph: &RunGraph,
    annotation: &[u16],
    room: u16,
) -> Vec<Vec<u16>> {
    let numbered = vertices(annotation, |number| number != BLANK);
    let vertex = *rng.pick(&numbered);
    let mut all = vec![
        changed(annotation, vertex, annotation[vertex] + 1),
        changed(annotation, *rng.pick(&numbered), BLANK),
        changed(annotation, *rng.pick(&numbered), GREATEST_NUMBER),
        changed(annotation, *rng.pick(&numbered), rng.draw() as u16),
        changed(annotation, graph.initial, BLANK),
        changed(&raised(annotation, room), *rng.pick(&numbered), BLANK),
    ];
    let above_zero = vertices(annotation, |number| number != BLANK && number > 0);
    if !above_zero.is_empty() {
        let vertex = *rng.pick(&above_zero);
        all.push(changed(annotation, vertex, annotation[vertex] - 1));
    }
    all
}

/// Copies with a number at a vertex that is blank.
fn changed_at_blanks(rng: &mut Rng, annotation: &[u16]) -> Vec<Vec<u16>> {
    let blanks = vertices(annotation, |number| number == BLANK);
    if blanks.is_empty() {
        return Vec::new();
    }
    let number = rng.below(4) as u16;
    vec![
        changed(annotation, *rng.pick(&blanks), number),
        changed(annotation, *rng.pick(&blanks), GREATEST_NUMBER),
    ]
}

/// The vertices whose numbers fit, rising.
fn vertices(annotation: &[u16], fits: impl Fn(u16) -> bool) -> Vec<usize> {
    let all = 0..annotation.len();
    all.filter(|vertex| fits(annotation[*vertex])).collect()
}

/// Other numbers in place of these, the blanks left.
fn with_numbers(annotation: &[u16], other: impl Fn(usize, u16) -> u16) -> Vec<u16> {
    let numbers = annotation.iter().enumerate();
    numbers
        .map(|(vertex, number)| match *number {
            BLANK => BLANK,
            number => other(vertex, number),
        })
        .collect()
}

/// All numbers raised by a constant.
fn raised(annotation: &[u16], by: u16) -> Vec<u16> {
    with_numbers(annotation, |_, number| number + by)
}

/// The numbers less one: as they were before a rejecting start counted.
pub fn without_start(annotation: &[u16]) -> Vec<u16> {
    with_numbers(annotation, |_, number| {
        number.checked_sub(1).expect("a number counts the start")
    })
}

fn changed(annotation: &[u16], vertex: usize, value: u16) -> Vec<u16> {
    let mut changed = annotation.to_vec();
    changed[vertex] = value;
    changed
}

/// The annotation in a buffer of another length, the front kept: too short, or
/// with anything behind it.
pub fn in_other_lengths(rng: &mut Rng, annotation: &[u16]) -> Vec<Vec<u16>> {
    let shorter = rng.below(annotation.len());
    let longer = rng.within(2, 40);
    let cut = [0, shorter, annotation.len() - 1];
    let mut all: Vec<Vec<u16>> = cut.iter().map(|end| annotation[..*end].to_vec()).collect();
    for more in [1, longer] {
        let behind: Vec<u16> = (0..more).map(|_| rng.draw() as u16).collect();
        all.push([annotation, &behind].concat());
    }
    all
}
