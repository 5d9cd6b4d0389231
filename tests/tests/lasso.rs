//! The replay of runs itself: it passes those that break the sheet, and rejects
//! each that is wrong in one place. The library has no part in it.

use soclethyme_tests::bench_cases::{case_e, case_f, case_g, case_h, BOOK_E, REJECTING_1};
use soclethyme_tests::lasso::{most_steps, Lasso, LassoFault, StepFault, Taken};
use soclethyme_tests::lasso_search;
use soclethyme_tests::looping_books::{
    adders, guided, longest_run, loop_behind, ring, OnlyRun, PassedOnce,
};
use soclethyme_tests::proper_sheet::SheetAndBook;
use soclethyme_tests::random_books::with_book;
use soclethyme_tests::rejecting_loops;
use soclethyme_tests::rng::Rng;
use soclethyme_tests::run_graph::RunGraph;
use soclethyme_tests::sheet::{Sheet, MOST_VERTICES};
use soclethyme_tests::tally::Tally;
use soclethyme_tests::transition_system::TransitionSystem;

const SEED: u64 = 0x5EED_0008;

fn system_of(input: &SheetAndBook) -> TransitionSystem {
    let system = TransitionSystem::read(&input.proper.bytes, &input.book);
    system.expect("a proper sheet and book")
}

/// The machines of a sheet made from case E, with its only book.
fn system_e(sheet: &Sheet) -> TransitionSystem {
    TransitionSystem::read(&sheet.bytes(), &BOOK_E).expect("a proper sheet and book")
}

/// The run of `guided`, changed, and what is then wrong.
fn guided_fault(change: impl Fn(&mut Lasso)) -> Option<LassoFault> {
    let OnlyRun { input, shortest } = guided();
    let mut changed = shortest;
    change(&mut changed);
    changed.replay(&system_of(&input)).err()
}

/// That this step, taken so, is wrong.
fn wrong_step(step: usize, taken: Taken, fault: StepFault) -> Option<LassoFault> {
    Some(LassoFault::WrongStep { step, taken, fault })
}

/// The fault of `guided` where only the first step is this one.
fn first_step_fault(taken: Taken) -> Option<LassoFault> {
    guided_fault(|lasso| lasso.stem[0] = taken)
}

#[test]
fn runs_that_break_the_sheet_pass() {
    for run in [
        guided(),
        loop_behind(),
        ring(5, 3),
        ring(2, 1),
        ring(16, 15),
    ] {
        let system = system_of(&run.input);
        assert_eq!(run.shortest.replay(&system), Ok(()));
        let graph = RunGraph::of(&system);
        let own = lasso_search::lasso(&system, &graph);
        assert_eq!(own.as_ref(), Some(&run.shortest));
        let (bytes, lengths) = (run.shortest.bytes(), run.shortest.lengths());
        assert_eq!(bytes, run.bytes(bytes.len()));
        let longer = [&bytes[..], &[7; 5]].concat();
        for path in [bytes, longer] {
            let read = Lasso::replayed(&system, &path, lengths);
            assert_eq!(read.as_ref(), Ok(&run.shortest));
        }
    }
}

#[test]
fn edges_must_be_met() {
    let taken = Taken::new(2, 0);
    let fault = wrong_step(0, taken, StepFault::NotMet);
    assert_eq!(first_step_fault(taken), fault);
    for edge in [4, 6] {
        let taken = Taken::new(3, edge);
        let given = guided_fault(|lasso| lasso.cycle[0] = taken);
        assert_eq!(given, wrong_step(2, taken, StepFault::NotMet));
    }
}

#[test]
fn edges_must_leave_the_present_state() {
    for edge in [2, 3, 4, 5, 6] {
        let taken = Taken::new(2, edge);
        let fault = wrong_step(0, taken, StepFault::LeavesAnotherState);
        assert_eq!(first_step_fault(taken), fault);
    }
}

#[test]
fn edges_must_be_of_the_sheet() {
    for edge in [7, 8, 63, 64, 255] {
        let taken = Taken::new(2, edge);
        let fault = wrong_step(0, taken, StepFault::NoSuchEdge);
        assert_eq!(first_step_fault(taken), fault);
    }
}

/// There are four. With another one of them the next edge is no longer met, and
/// at the end of the cycle its vertex is another one.
#[test]
fn directions_must_be_possible_and_lead_on() {
    for direction in [4, 6, 16, 255] {
        let taken = Taken::new(direction, 1);
        let fault = wrong_step(0, taken, StepFault::NoSuchDirection);
        assert_eq!(first_step_fault(taken), fault);
    }
    for direction in [0, 1, 3] {
        let next = Taken::new(1, 3);
        let fault = wrong_step(1, next, StepFault::NotMet);
        assert_eq!(first_step_fault(Taken::new(direction, 1)), fault);
    }
    for direction in [0, 2, 3] {
        let given = guided_fault(|lasso| lasso.cycle[1] = Taken::new(direction, 3));
        assert!(matches!(given, Some(LassoFault::NotClosed { .. })));
    }
}

#[test]
fn stems_must_end_in_a_rejecting_vertex() {
    for kept in [0, 1] {
        let given = guided_fault(|lasso| lasso.stem.truncate(kept));
        assert!(matches!(
            given,
            Some(LassoFault::StemEndNotRejecting { .. })
        ));
    }
    let one_more = guided_fault(|lasso| lasso.stem.push(Taken::new(3, 5)));
    assert!(matches!(
        one_more,
        Some(LassoFault::StemEndNotRejecting { .. })
    ));
    // A cycle, but no state rejects.
    let none = Sheet {
        rejecting: 0,
        ..case_f(1)
    };
    let round = Lasso {
        cycle: vec![Taken::new(0, 0)],
        ..Lasso::default()
    };
    assert!(matches!(
        round.replay(&system_e(&none)),
        Err(LassoFault::StemEndNotRejecting { .. })
    ));
}

/// Two vertices of the cycle change places, or it ends elsewhere.
#[test]
fn cycles_must_lead_back_to_where_the_stem_ends() {
    let given = guided_fault(|lasso| lasso.cycle.rotate_left(1));
    let fault = wrong_step(2, Taken::new(1, 3), StepFault::LeavesAnotherState);
    assert_eq!(given, fault);
    for kept in [1, 3] {
        let given = guided_fault(|lasso| {
            lasso.cycle.extend(lasso.cycle.clone());
            lasso.cycle.truncate(kept);
        });
        assert!(matches!(given, Some(LassoFault::NotClosed { .. })));
    }
}

/// A rejecting vertex by itself is no cycle, whether it is on one or not.
#[test]
fn cycles_must_have_a_step() {
    let given = guided_fault(|lasso| lasso.cycle.clear());
    assert_eq!(given, Some(LassoFault::EmptyCycle));
    for sheet in [case_f(1), case_g()] {
        let given = Lasso::default().replay(&system_e(&sheet));
        assert_eq!(given, Err(LassoFault::EmptyCycle));
    }
    let there = Lasso {
        stem: vec![Taken::new(0, 0)],
        ..Lasso::default()
    };
    let given = there.replay(&system_e(&case_h(REJECTING_1)));
    assert_eq!(given, Err(LassoFault::EmptyCycle));
}

/// At most twice the vertices: rounds within that pass, in the stem and in the
/// cycle.
#[test]
fn steps_are_bounded() {
    let system = system_e(&case_f(1));
    let rounds = |count| vec![Taken::new(0, 0); count];
    for (stem, cycle) in [(0, 1), (1, 1), (0, 2), (1, 2), (2, 1), (0, 3), (9, 9)] {
        let lasso = Lasso {
            stem: rounds(stem),
            cycle: rounds(cycle),
        };
        let steps = stem + cycle;
        let expected = match steps <= 2 {
            true => Ok(()),
            false => Err(LassoFault::TooManySteps { steps }),
        };
        assert_eq!(lasso.replay(&system), expected);
    }
    let run = guided();
    let most = most_steps(run.input.proper.sheet.vertices());
    for (steps, passes) in [(most, true), (most + 2, false)] {
        let bytes = run.bytes(2 * steps);
        for stem in [2, 4, most - 2] {
            let lengths = [stem as u32, (steps - stem) as u32];
            let lasso = Lasso::replayed(&system_of(&run.input), &bytes, lengths);
            assert_eq!(lasso.is_ok(), passes);
        }
    }
}

#[test]
fn lengths_must_lie_within_the_path() {
    let run = guided();
    let system = system_of(&run.input);
    let path = run.shortest.bytes();
    for lengths in [[2, 3], [3, 2], [5, 0], [0, u32::MAX], [u32::MAX; 2]] {
        let given = Lasso::replayed(&system, &path, lengths);
        assert_eq!(given, Err(LassoFault::PastThePath { lengths }));
    }
    let short = Lasso::replayed(&system, &path[..7], [2, 2]);
    assert!(matches!(short, Err(LassoFault::PastThePath { .. })));
}

/// Without an edge no step is possible at all.
#[test]
fn nothing_passes_without_edges() {
    let taken = Taken::new(0, 0);
    let lasso = Lasso {
        stem: vec![taken],
        cycle: vec![taken],
    };
    let given = lasso.replay(&system_e(&case_e())).err();
    assert_eq!(given, wrong_step(0, taken, StepFault::NoSuchEdge));
}

/// The plain search finds a run exactly where there is no annotation, and each
/// passes; its stem one step short and its cycle started later do so only by
/// chance.
#[test]
fn own_runs_pass() {
    let mut tally = Tally::default();
    let mut rng = Rng::new(SEED);
    for _ in 0..4_000 {
        let sheet = rejecting_loops::sheet(&mut rng);
        let system = system_of(&with_book(&mut rng, sheet));
        let graph = RunGraph::of(&system);
        let lasso = lasso_search::lasso(&system, &graph);
        assert_eq!(lasso.is_none(), graph.annotation().is_some());
        let Some(mut lasso) = lasso else { continue };
        assert_eq!(lasso.replay(&system), Ok(()));
        lasso.cycle.rotate_left(1);
        if lasso.cycle.len() > 1 {
            tally.count("cycle started later passes", lasso.replay(&system).is_ok());
        }
        lasso.cycle.rotate_right(1);
        if lasso.stem.pop().is_some() {
            tally.count("stem one short passes", lasso.replay(&system).is_ok());
        }
    }
    tally.print("runs replayed, and changed");
    for property in ["cycle started later passes", "stem one short passes"] {
        let total = tally.total(property);
        tally.assert_often(property, [false], total / 2 + 100);
    }
}

/// Those with 4,096 vertices. If the start leads away from its own state, that has
/// one vertex only, and the next state has one for each direction.
#[test]
fn own_runs_of_the_largest_graphs_pass() {
    for falling in [false, true] {
        let system = system_of(&longest_run(falling));
        let graph = RunGraph::of(&system);
        let lasso = lasso_search::lasso(&system, &graph).expect("a loop");
        assert_eq!(lasso.replay(&system), Ok(()));
        assert_eq!(lasso.cycle.len(), MOST_VERTICES);
        assert!((3_840..4_096).contains(&lasso.stem.len()));
    }
    let passed = [PassedOnce::None, PassedOnce::Behind, PassedOnce::Ahead];
    for (passed, dense) in passed.into_iter().flat_map(|p| [(p, false), (p, true)]) {
        let system = system_of(&adders(passed, dense));
        let graph = RunGraph::of(&system);
        let lasso = lasso_search::lasso(&system, &graph).expect("a loop");
        assert_eq!(lasso.replay(&system), Ok(()));
        let missing = match passed {
            PassedOnce::Ahead => 255 + 240,
            _ => 0,
        };
        assert_eq!(graph.reached(), MOST_VERTICES - missing);
    }
}
