//! The specification's bench cases: their sheets, and what some of them have as
//! book, annotation and text.

use crate::refusal::{
    Refusal, CUT_OFF, WRONG_COMPOSITION, WRONG_EDGE, WRONG_MARK, WRONG_PROCESS, WRONG_PROMPT,
    WRONG_TIE,
};
use crate::run_graph::BLANK;
use crate::sheet::{Edge, Process, RecordKind, Sheet};
use crate::ties::Tie;

/// Case A as the specification lists it.
pub const SHEET_A: [u8; 60] = [
    0x41, 0x52, 0x04, 0x02, 0x00, 0x50, 0x52, 0x03, 0x0C, 0x02, 0x41, 0x55, 0x04, 0x00, 0x0E, 0x00,
    0x45, 0x44, 0x00, 0x00, 0x00, 0x00, 0x45, 0x44, 0x00, 0x03, 0x0C, 0x00, 0x45, 0x44, 0x00, 0x01,
    0x01, 0x00, 0x45, 0x44, 0x00, 0x02, 0x02, 0x00, 0x45, 0x44, 0x01, 0x01, 0x00, 0x04, 0x45, 0x44,
    0x02, 0x02, 0x00, 0x08, 0x45, 0x44, 0x03, 0x03, 0x00, 0x00, 0x45, 0x4E,
];

/// A's book as the specification lists it.
pub const BOOK_A: [u8; 20] = [
    0x54, 0x42, 0x00, 0x00, 0x04, 0x01, 0x01, 0x01, 0x01, 0x54, 0x42, 0x00, 0x01, 0x08, 0x00, 0x00,
    0x00, 0x00, 0x45, 0x4E,
];

/// The annotation of A's book, a line for each automaton state.
pub const ANNOTATION_A: [u16; 32] = [
    0, 0, 0, 0, 0, 0, 0, 0, //
    2, 2, 2, 2, 1, 1, 1, 1, //
    1, 1, 1, 1, 2, 2, 2, 2, //
    BLANK, BLANK, BLANK, BLANK, BLANK, BLANK, BLANK, BLANK,
];

/// What the finding program prints for A.
pub const TEXT_A: &str = "tables 2\n0 0 04 1 1 1 1\n0 1 08 0 0 0 0\ngreatest 2\n";

/// Case D's tables that alternate, process 0 granting in state 0, 1 in state 1.
pub const BOOK_D: [u8; 30] = *b"TB\x00\x00\x04\x01\x01TB\x00\x01\x00\x00\x00\
    TB\x01\x00\x00\x01\x01TB\x01\x01\x08\x00\x00EN";

/// What is printed for D: the first tables in order grant the other way round.
pub const TEXT_D: &str = "tables 4\n0 0 00 1 1\n0 1 04 0 0\n1 0 08 1 1\n1 1 00 0 0\ngreatest 2\n";

/// The only book of case E, and of those made from it with the same bound.
pub const BOOK_E: [u8; 8] = *b"TB\x00\x00\x00\x00EN";

/// Case S as the specification lists it.
pub const SHEET_S: [u8; 51] = [
    0x41, 0x52, 0x04, 0x00, 0x00, 0x50, 0x52, 0x00, 0x05, 0x01, 0x50, 0x52, 0x00, 0x0A, 0x01, 0x53,
    0x59, 0x01, 0x00, 0x41, 0x55, 0x02, 0x00, 0x02, 0x00, 0x45, 0x44, 0x00, 0x00, 0x00, 0x00, 0x45,
    0x44, 0x00, 0x01, 0x00, 0x01, 0x45, 0x44, 0x00, 0x01, 0x00, 0x08, 0x45, 0x44, 0x01, 0x01, 0x00,
    0x00, 0x45, 0x4E,
];

/// What is printed for S, and for S without its tie.
pub const TEXT_S: &str = "tables 2\n0 0 05 0\n1 0 0A 0\ngreatest 0\n";
pub const TEXT_S_UNTIED: &str = "tables 2\n0 0 01 0\n1 0 08 0\ngreatest 0\n";

/// Case U as the specification lists it.
pub const SHEET_U: [u8; 71] = [
    0x41, 0x52, 0x04, 0x00, 0x00, 0x50, 0x52, 0x00, 0x01, 0x02, 0x50, 0x52, 0x00, 0x02, 0x02, 0x50,
    0x52, 0x00, 0x04, 0x02, 0x50, 0x52, 0x00, 0x08, 0x02, 0x53, 0x59, 0x02, 0x03, 0x53, 0x59, 0x00,
    0x01, 0x41, 0x55, 0x03, 0x00, 0x06, 0x00, 0x45, 0x44, 0x00, 0x00, 0x00, 0x00, 0x45, 0x44, 0x00,
    0x01, 0x00, 0x01, 0x45, 0x44, 0x01, 0x01, 0x00, 0x01, 0x45, 0x44, 0x00, 0x02, 0x05, 0x00, 0x45,
    0x44, 0x02, 0x02, 0x00, 0x00, 0x45, 0x4E,
];

/// What is printed for U.
pub const TEXT_U: &str = "tables 8\n0 0 00 1\n0 1 01 0\n1 0 00 1\n1 1 02 0\n\
    2 0 00 0\n2 1 00 0\n3 0 00 0\n3 1 00 0\ngreatest 1\n";

/// Case P as the specification lists it.
pub const SHEET_P: [u8; 60] = [
    0x41, 0x52, 0x03, 0x01, 0x00, 0x50, 0x52, 0x01, 0x02, 0x02, 0x50, 0x4D, 0x02, 0x04, 0x02, 0x02,
    0x41, 0x55, 0x02, 0x00, 0x02, 0x00, 0x45, 0x44, 0x00, 0x00, 0x00, 0x00, 0x45, 0x44, 0x00, 0x01,
    0x01, 0x02, 0x45, 0x44, 0x00, 0x01, 0x02, 0x01, 0x45, 0x44, 0x00, 0x01, 0x02, 0x04, 0x45, 0x44,
    0x00, 0x01, 0x04, 0x02, 0x45, 0x44, 0x01, 0x01, 0x00, 0x00, 0x45, 0x4E,
];

/// What is printed for P.
pub const TEXT_P: &str = "tables 4\n0 0 00 0 1\n0 1 02 0 1\n1 0 00 0 1\n1 1 04 0 1\ngreatest 0\n";

/// P's book: each process puts out what it reads.
pub const BOOK_P: [u8; 30] = *b"TB\x00\x00\x00\x00\x01TB\x00\x01\x02\x00\x01\
    TB\x01\x00\x00\x00\x01TB\x01\x01\x04\x00\x01EN";

/// Case Q as the specification lists it.
pub const SHEET_Q: [u8; 77] = [
    0x41, 0x52, 0x04, 0x01, 0x00, 0x50, 0x52, 0x01, 0x02, 0x02, 0x50, 0x52, 0x01, 0x04, 0x02, 0x50,
    0x4D, 0x06, 0x08, 0x02, 0x02, 0x41, 0x55, 0x03, 0x00, 0x02, 0x00, 0x45, 0x44, 0x00, 0x01, 0x01,
    0x08, 0x45, 0x44, 0x00, 0x01, 0x08, 0x01, 0x45, 0x44, 0x00, 0x00, 0x00, 0x01, 0x45, 0x44, 0x00,
    0x02, 0x01, 0x00, 0x45, 0x44, 0x02, 0x01, 0x08, 0x00, 0x45, 0x44, 0x02, 0x00, 0x00, 0x01, 0x45,
    0x44, 0x02, 0x02, 0x01, 0x00, 0x45, 0x44, 0x01, 0x01, 0x00, 0x00, 0x45, 0x4E,
];

/// What is printed for Q, and for Q with the prompt mask 04.
pub const TEXT_Q: &str = "tables 6\n0 0 00 0 1\n0 1 02 0 0\n1 0 00 0 1\n1 1 04 0 1\n\
    2 0 00 0 1 0 0\n2 1 08 0 0 0 0\ngreatest 0\n";
pub const TEXT_Q_04: &str = "tables 6\n0 0 00 0 1\n0 1 02 0 1\n1 0 00 0 1\n1 1 04 0 0\n\
    2 0 00 0 0 1 0\n2 1 08 0 0 0 0\ngreatest 0\n";

/// Q's book.
pub const BOOK_Q: [u8; 48] = *b"TB\x00\x00\x00\x00\x01TB\x00\x01\x02\x00\x00\
    TB\x01\x00\x00\x00\x01TB\x01\x01\x04\x00\x01\
    TB\x02\x00\x00\x00\x01\x00\x00TB\x02\x01\x08\x00\x00\x00\x00EN";

/// What is printed for the chain.
pub const TEXT_CHAIN: &str = "tables 6\n0 0 00 0 1\n0 1 02 0 1\n1 0 00 0 1\n1 1 04 0 1\n\
    2 0 00 0 1\n2 1 08 0 1\ngreatest 0\n";

/// A, field by field.
pub fn case_a() -> Sheet {
    Sheet {
        variables: 4,
        environment: 2,
        processes: vec![Process::new(0x03, 0x0C, 2)],
        states: 4,
        rejecting: 0x000E,
        edges: vec![
            Edge::new(0, 0, 0x00, 0x00),
            Edge::new(0, 3, 0x0C, 0x00),
            Edge::new(0, 1, 0x01, 0x00),
            Edge::new(0, 2, 0x02, 0x00),
            Edge::new(1, 1, 0x00, 0x04),
            Edge::new(2, 2, 0x00, 0x08),
            Edge::new(3, 3, 0x00, 0x00),
        ],
        ..Sheet::default()
    }
}

/// A with its two waiting edges as the specification lists them with unless.
pub fn case_a_unless() -> Sheet {
    let mut sheet = case_a();
    sheet.edges[4] = Edge::unless(1, 1, 0x04, 0x00);
    sheet.edges[5] = Edge::unless(2, 2, 0x08, 0x00);
    sheet
}

/// A with another bound.
fn case_a_with_bound(bound: u8) -> Sheet {
    Sheet {
        processes: vec![Process::new(0x03, 0x0C, bound)],
        ..case_a()
    }
}

/// A with bound 1.
pub fn case_b() -> Sheet {
    case_a_with_bound(1)
}

/// A's automaton over two processes.
pub fn case_c(first: u8, second: u8) -> Sheet {
    Sheet {
        processes: vec![
            Process::new(0x01, 0x04, first),
            Process::new(0x02, 0x08, second),
        ],
        ..case_a()
    }
}

/// C with bounds 2 and 2.
pub fn case_d() -> Sheet {
    case_c(2, 2)
}

/// No variables, one automaton state and no edges.
pub fn case_e() -> Sheet {
    Sheet {
        processes: vec![Process::new(0, 0, 1)],
        states: 1,
        ..Sheet::default()
    }
}

/// E with state 0 rejecting and an edge from it to itself.
pub fn case_f(bound: u8) -> Sheet {
    Sheet {
        processes: vec![Process::new(0, 0, bound)],
        edges: vec![Edge::new(0, 0, 0, 0)],
        ..case_g()
    }
}

/// F with bound 1, whose edge says unless and so is never met.
pub fn case_f_unless() -> Sheet {
    Sheet {
        edges: vec![Edge::unless(0, 0, 0, 0)],
        ..case_f(1)
    }
}

/// E with so many edges of both kinds by turns.
fn case_e_with_edges(count: usize) -> Sheet {
    let kinds = [Edge::new, Edge::unless];
    Sheet {
        edges: (0..count).map(|k| kinds[k % 2](0, 0, 0, 0)).collect(),
        ..case_e()
    }
}

/// E with state 0 rejecting.
pub fn case_g() -> Sheet {
    Sheet {
        rejecting: 1,
        ..case_e()
    }
}

/// E with states 0 and 1 and an edge between them.
pub fn case_h(rejecting: u16) -> Sheet {
    Sheet {
        states: 2,
        rejecting,
        edges: vec![Edge::new(0, 1, 0, 0)],
        ..case_e()
    }
}

/// H with only state 0 rejecting, and with only state 1.
pub const REJECTING_0: u16 = 0b01;
pub const REJECTING_1: u16 = 0b10;

/// Four environment variables and bounds 4 and 4: T is 256.
pub fn case_j() -> Sheet {
    Sheet {
        variables: 4,
        environment: 4,
        processes: vec![Process::new(0, 0, 4); 2],
        ..case_e()
    }
}

/// Two tied processes of one state, each with every second variable: 0 and 3 have
/// to be on.
pub fn case_s() -> Sheet {
    Sheet {
        variables: 4,
        processes: vec![Process::new(0, 0x05, 1), Process::new(0, 0x0A, 1)],
        ties: vec![[1, 0]],
        states: 2,
        rejecting: 0x0002,
        edges: vec![
            Edge::new(0, 0, 0x00, 0x00),
            Edge::new(0, 1, 0x00, 0x01),
            Edge::new(0, 1, 0x00, 0x08),
            Edge::new(1, 1, 0x00, 0x00),
        ],
        ..Sheet::default()
    }
}

/// S where 2 has to be off too, which is tied to 3.
pub fn case_s_with_edge() -> Sheet {
    let mut sheet = case_s();
    sheet.edges.insert(3, Edge::new(0, 1, 0x04, 0x00));
    sheet
}

/// The book of S with these output masks.
pub fn book_s(first: u8, second: u8) -> [u8; 14] {
    let mut book = *b"TB\x00\x00\x00\x00TB\x01\x00\x00\x00EN";
    (book[4], book[10]) = (first, second);
    book
}

/// Four processes of two states, tied in two pairs: 0 is on again and again, but
/// never with 2.
pub fn case_u() -> Sheet {
    Sheet {
        variables: 4,
        processes: [1, 2, 4, 8].map(|output| Process::new(0, output, 2)).into(),
        ties: vec![[2, 3], [0, 1]],
        states: 3,
        rejecting: 0x0006,
        edges: vec![
            Edge::new(0, 0, 0x00, 0x00),
            Edge::new(0, 1, 0x00, 0x01),
            Edge::new(1, 1, 0x00, 0x01),
            Edge::new(0, 2, 0x05, 0x00),
            Edge::new(2, 2, 0x00, 0x00),
        ],
        ..Sheet::default()
    }
}

/// U with one tie more: between the pairs it makes one table of all.
pub fn case_u_with_tie(tie: Tie) -> Sheet {
    let mut sheet = case_u();
    sheet.ties.push(tie);
    sheet
}

/// U with three ties in a circle, of which each two would do.
pub fn case_u_circular() -> Sheet {
    Sheet {
        ties: vec![[0, 1], [1, 2], [2, 0]],
        ..case_u()
    }
}

/// S with these ties.
fn case_s_with_ties(ties: &[Tie]) -> Sheet {
    Sheet {
        ties: ties.to_vec(),
        ..case_s()
    }
}

/// Variable 1 is always as variable 0, and variable 2 as variable 1, which its
/// owner reads: as a PM with these prompt inputs, or as a PR.
pub fn case_p(prompt_mask: Option<u8>) -> Sheet {
    let second = Process {
        prompt_mask,
        ..Process::new(0x02, 0x04, 2)
    };
    Sheet {
        variables: 3,
        environment: 1,
        processes: vec![Process::new(0x01, 0x02, 2), second],
        states: 2,
        rejecting: 0x0002,
        edges: vec![
            Edge::new(0, 0, 0x00, 0x00),
            Edge::new(0, 1, 0x01, 0x02),
            Edge::new(0, 1, 0x02, 0x01),
            Edge::new(0, 1, 0x02, 0x04),
            Edge::new(0, 1, 0x04, 0x02),
            Edge::new(1, 1, 0x00, 0x00),
        ],
        ..Sheet::default()
    }
}

/// Variable 3 is on exactly in the first step of each time that variable 0 is on.
/// Its owner reads variables 1 and 2, these promptly.
pub fn case_q(prompts: u8) -> Sheet {
    Sheet {
        variables: 4,
        environment: 1,
        processes: vec![
            Process::new(0x01, 0x02, 2),
            Process::new(0x01, 0x04, 2),
            Process::with_prompts(0x06, 0x08, 2, prompts),
        ],
        states: 3,
        rejecting: 0x0002,
        edges: vec![
            Edge::new(0, 1, 0x01, 0x08),
            Edge::new(0, 1, 0x08, 0x01),
            Edge::new(0, 0, 0x00, 0x01),
            Edge::new(0, 2, 0x01, 0x00),
            Edge::new(2, 1, 0x08, 0x00),
            Edge::new(2, 0, 0x00, 0x01),
            Edge::new(2, 2, 0x01, 0x00),
            Edge::new(1, 1, 0x00, 0x00),
        ],
        ..Sheet::default()
    }
}

/// Variable 3 is always as variable 0, which goes through three processes within
/// the step.
pub fn case_chain(ties: &[Tie]) -> Sheet {
    Sheet {
        variables: 4,
        environment: 1,
        processes: vec![
            Process::new(0x01, 0x02, 2),
            Process::with_prompts(0x02, 0x04, 2, 0x02),
            Process::with_prompts(0x04, 0x08, 2, 0x04),
        ],
        ties: ties.to_vec(),
        states: 2,
        rejecting: 0x0002,
        edges: vec![
            Edge::new(0, 0, 0x00, 0x00),
            Edge::new(0, 1, 0x01, 0x08),
            Edge::new(0, 1, 0x08, 0x01),
            Edge::new(1, 1, 0x00, 0x00),
        ],
        ..Sheet::default()
    }
}

/// The same with that process as a PR.
pub fn case_chain_delayed(ties: &[Tie], delayed: usize) -> Sheet {
    let mut sheet = case_chain(ties);
    sheet.processes[delayed].prompt_mask = None;
    sheet
}

/// The cases that are proper sheets, each with a name.
pub fn proper_cases() -> Vec<(&'static str, Sheet)> {
    vec![
        ("case A", case_a()),
        ("case A, unless", case_a_unless()),
        ("case B", case_b()),
        ("case C, bounds 1 and 1", case_c(1, 1)),
        ("case C, bounds 2 and 1", case_c(2, 1)),
        ("case C, bounds 1 and 2", case_c(1, 2)),
        ("case D", case_d()),
        ("case E", case_e()),
        ("case F, bound 1", case_f(1)),
        ("case F, bound 4", case_f(4)),
        ("case F, unless", case_f_unless()),
        ("case G", case_g()),
        ("case H, 0 rejecting", case_h(REJECTING_0)),
        ("case H, 1 rejecting", case_h(REJECTING_1)),
        ("case J", case_j()),
        ("64 edges", case_e_with_edges(64)),
        ("case S", case_s()),
        ("case S, no tie", case_s().without_ties()),
        ("case S, one edge more", case_s_with_edge()),
        ("case S, the tie repeated", case_s_with_ties(&[[1, 0]; 3])),
        (
            "case S, the tie reversed",
            case_s_with_ties(&[[1, 0], [0, 1]]),
        ),
        ("case U", case_u()),
        ("case U, chained", case_u_with_tie([3, 1])),
        ("case U, circular", case_u_circular()),
        ("case P", case_p(Some(0x02))),
        ("case P, prompt 00", case_p(Some(0x00))),
        ("case P, a PR", case_p(None)),
        ("case Q", case_q(0x02)),
        ("case Q, prompt 04", case_q(0x04)),
        ("case Q, prompt 00", case_q(0x00)),
        ("case Q, prompt 06", case_q(0x06)),
        ("chain", case_chain(&[])),
        ("chain, tied", case_chain(&[[2, 1]])),
        ("chain, delayed first", case_chain_delayed(&[], 1)),
        ("chain, delayed second", case_chain_delayed(&[], 2)),
    ]
}

/// A file that is refused, with a name.
pub type RefusedCase = (&'static str, Vec<u8>, Refusal);

/// The cases that are refused.
pub fn refused_cases() -> Vec<RefusedCase> {
    let mut cases = cases_i();
    cases.push((
        "case J, a third process",
        case_j_and_third().bytes(),
        WRONG_COMPOSITION,
    ));
    for bound in [0, 5] {
        let sheet = case_a_with_bound(bound);
        cases.push(("case K, bound", sheet.bytes(), WRONG_PROCESS));
    }
    for shared in [Edge::new, Edge::unless] {
        let mut sheet = case_a();
        sheet.edges[0] = shared(0, 0, 0x01, 0x01);
        cases.push(("case K, shared bit", sheet.bytes(), WRONG_EDGE));
    }
    for count in [65, 66] {
        let sheet = case_e_with_edges(count);
        cases.push(("65 edges and more", sheet.bytes(), WRONG_MARK));
    }
    cases.extend(misplaced_ties_of_s());
    cases.extend(wrong_ties_of_s());
    cases.extend(wrong_prompts_of_p());
    cases.extend(misplaced_prompts_of_p());
    for delayed in 1..=2 {
        let sheet = case_chain_delayed(&[[2, 1]], delayed);
        cases.push(("chain, tied and delayed", sheet.bytes(), WRONG_TIE));
    }
    cases
}

/// P with a prompt input that is none, alone and where the output of a PM is taken
/// before that, or a tie is wrong or a variable without an owner behind it.
fn wrong_prompts_of_p() -> Vec<RefusedCase> {
    let name = "case P, wrong prompt";
    let mut cases = Vec::new();
    // Of the environment, its own output, no variable, and not read.
    for (inputs, prompts) in [(3, 1), (2, 4), (2, 8), (2, 0x82), (1, 2), (0, 2)] {
        let mut sheet = case_p(Some(prompts));
        sheet.processes[1].inputs = inputs;
        cases.push((name, sheet.bytes(), WRONG_PROMPT));
        sheet.ties.push([0, 0]);
        cases.push((name, sheet.bytes(), WRONG_PROMPT));
        sheet.variables = 4;
        cases.push((name, sheet.bytes(), WRONG_PROMPT));
        sheet.processes[1].outputs = 0x02;
        sheet.processes[1].inputs &= !0x02;
        cases.push((name, sheet.bytes(), WRONG_PROCESS));
    }
    // Of a process that follows.
    let mut swapped = case_p(Some(0x02));
    swapped.processes.swap(0, 1);
    cases.push((name, swapped.bytes(), WRONG_PROMPT));
    cases
}

/// P with a PM that is cut off, though its fields are wrong; and with one behind
/// an SY or as the fifth process, whole and cut off.
fn misplaced_prompts_of_p() -> Vec<RefusedCase> {
    let mut cases = Vec::new();
    for fields in [&[][..], &[255], &[255, 255], &[255, 255, 9], &[2, 4, 2]] {
        let cut = [&SHEET_P[..12], fields].concat();
        cases.push(("case P, PM cut off", cut, CUT_OFF));
    }
    let mut tied = case_p(Some(0x00));
    tied.ties.push([1, 0]);
    let mut four = case_p(Some(0x02));
    four.processes.resize(4, Process::with_prompts(0, 0, 1, 0));
    let name = "case P, PM may not stand there";
    for (sheet, records) in [(tied, 4), (four, 5)] {
        let front = sheet.records()[..records].concat();
        for fields in [&[][..], &[0], &[0, 0, 1], &[0, 0, 1, 0]] {
            let mark = RecordKind::ProcessWithPrompts.mark();
            cases.push((name, [&front[..], mark, fields].concat(), WRONG_MARK));
        }
    }
    cases
}

/// S with an SY before its PR, with a PR behind its SY, with four SY, and with an
/// SY behind AU; each of them cut off behind the mark too, and cut off within an
/// SY that may stand there.
fn misplaced_ties_of_s() -> Vec<RefusedCase> {
    let [tie, process] = [RecordKind::Tie, RecordKind::Process].map(RecordKind::mark);
    let four = case_s_with_ties(&[[1, 0]; 4]).bytes();
    let mut cases = Vec::new();
    let fronts: [(_, &[u8], _); 4] = [
        ("case S, SY before PR", &SHEET_S[..5], tie),
        ("case S, PR behind SY", &SHEET_S[..19], process),
        ("case S, four SY", &four[..27], tie),
        ("case S, SY behind AU", &SHEET_S[..25], tie),
    ];
    for (name, front, mark) in fronts {
        for behind in [&[][..], &[0], &[1, 0], &SHEET_S[17..]] {
            cases.push((name, [front, mark, behind].concat(), WRONG_MARK));
        }
    }
    for behind in [&[][..], &[0], &[1], &[2], &[255]] {
        let cut = [&SHEET_S[..17], behind].concat();
        cases.push(("case S, SY cut off", cut, CUT_OFF));
    }
    cases
}

/// S with a tie that is wrong, alone and where no owner of a variable or T above
/// 256 would be refused behind it.
fn wrong_ties_of_s() -> Vec<RefusedCase> {
    let name = "case S, wrong tie";
    let mut cases = Vec::new();
    for tie in [[0, 0], [1, 1], [0, 2], [2, 0], [2, 3], [255, 0], [0, 128]] {
        for ties in [vec![tie], vec![[1, 0], tie], vec![[1, 0], [0, 1], tie]] {
            let mut sheet = case_s_with_ties(&ties);
            cases.push((name, sheet.bytes(), WRONG_TIE));
            sheet.variables = 5;
            cases.push((name, sheet.bytes(), WRONG_TIE));
        }
    }
    for unlike in [(0, 0x05, 2), (2, 0x05, 1), (0, 0x01, 1), (0, 0x15, 1)] {
        let mut sheet = case_s();
        let (inputs, outputs, bound) = unlike;
        sheet.processes[0] = Process::new(inputs, outputs, bound);
        sheet.variables = if outputs == 0x15 { 5 } else { 4 };
        cases.push((name, sheet.bytes(), WRONG_TIE));
    }
    for (tie, refusal) in [([1, 2], WRONG_TIE), ([1, 0], WRONG_COMPOSITION)] {
        let mut sheet = case_j_and_third();
        sheet.ties.push(tie);
        cases.push(("case S, T above 256", sheet.bytes(), refusal));
    }
    let mut no_owner = case_s();
    no_owner.variables = 5;
    cases.push(("case S, no owner", no_owner.bytes(), WRONG_COMPOSITION));
    cases
}

/// Nothing, the byte 41, and A with one more byte, whichever it is.
fn cases_i() -> Vec<RefusedCase> {
    let mut cases = vec![
        ("case I, empty", Vec::new(), CUT_OFF),
        ("case I, 41", vec![0x41], CUT_OFF),
    ];
    cases.extend((0..=255).map(|byte| {
        let longer = [&SHEET_A[..], &[byte]].concat();
        ("case I, one more byte", longer, WRONG_MARK)
    }));
    cases
}

/// J with a third process, of bound 2.
fn case_j_and_third() -> Sheet {
    let mut sheet = case_j();
    sheet.processes.push(Process::new(0, 0, 2));
    sheet
}
