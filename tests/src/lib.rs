//! A second reading of the specification, written apart from the library, and
//! the inputs on which the tests hold the library's answers against it.

// The rules.
pub mod book;
pub mod choices;
pub mod components;
pub mod desk;
pub mod fast_enumeration;
pub mod join;
pub mod lasso;
pub mod lasso_search;
pub mod prompts;
pub mod proper_sheet;
pub mod refusal;
pub mod run_graph;
pub mod sheet;
pub mod ties;
pub mod transition_system;

// The inputs.
pub mod bench_cases;
pub mod detectors;
pub mod few_choices;
pub mod front_changes;
pub mod joint_counter;
pub mod looping_books;
pub mod many_choices;
pub mod prompt_relays;
pub mod random_annotations;
pub mod random_books;
pub mod random_faults;
pub mod random_joins;
pub mod random_prompts;
pub mod random_sheets;
pub mod random_ties;
pub mod rejecting_loops;
pub mod rng;
pub mod shared_tables;
pub mod single_faults;

// The library, and what a comparison with it needs.
pub mod edge_kinds;
pub mod ffi;
pub mod guarded_buffer;
pub mod inputs_read;
pub mod prompt_places;
pub mod tally;
pub mod text;
pub mod tie_places;
