//! A case: what is lent, and the steps to make; and what the Rust answers.
use crate::alloc;
use crate::call::{layout_step, script};
use crate::engine::Engine;
use crate::grammar::Tree;
use crate::opening;
use crate::refusal::Refusal;
use crate::state::State;
use crate::Diagnostics;

/// A buffer length that is always enough.
pub const ROOM: usize = 1 << 20;

pub struct Case {
    pub source: Vec<u8>,
    pub tree: Vec<u8>,
    /// steps as `call::script` reads them
    pub steps: Vec<u8>,
    pub cap: usize,
    /// what was done to the tree, for statistics
    pub damage: &'static str,
}

impl Case {
    pub fn new(source: Vec<u8>, tree: Vec<u8>, steps: Vec<u8>) -> Self {
        Self {
            source,
            tree,
            steps,
            cap: ROOM,
            damage: "",
        }
    }

    pub fn is_whole_layout(&self) -> bool {
        self.steps == layout_step()
    }
}

pub struct Outcome {
    /// the text of an .expect file
    pub expect: String,
    pub output: String,
    /// the calls made by all steps, as call records
    pub trace: Vec<u8>,
    pub refusals: Vec<Refusal>,
    /// None: not opened
    pub state: Option<State>,
}

/// Opens, and makes all steps.
pub fn run(case: &Case) -> Outcome {
    let begin = format!("cap {}\n", case.cap);
    match opening::open(&case.source, &case.tree) {
        Ok(tree) => make_steps(case, &tree, begin),
        Err(r) => Outcome {
            expect: format!("{begin}open {r}\n"),
            output: String::new(),
            trace: vec![],
            refusals: vec![r],
            state: None,
        },
    }
}

fn make_steps(case: &Case, tree: &Tree, begin: String) -> Outcome {
    let mut expect = format!("{begin}open ok {}\n", tree.records.len());
    let source = std::str::from_utf8(&case.source).expect("a good source");
    let (mut buffer, mut diagnostics) = (alloc::String::with_cap(case.cap), Diagnostics);
    let mut engine = Engine::new(source, tree, &mut buffer, &mut diagnostics);
    engine.fmt.trace = Some(vec![]);
    let mut refusals = vec![];
    for (i, (place, step)) in script(&case.steps).into_iter().enumerate() {
        let answer = match engine.step(step) {
            Ok(()) => format!("ok {}", engine.state()),
            Err(r) => {
                refusals.push(r);
                r.to_string()
            }
        };
        expect += &format!("call {i} @{place} {answer}\n");
    }
    let state = engine.state();
    let output = engine.fmt.output().to_string();
    let hex: String = output.bytes().map(|b| format!("{b:02x}")).collect();
    expect += &format!("end {state}\nout {} {hex}\n", output.len());
    Outcome {
        expect,
        output,
        trace: engine.fmt.trace.take().unwrap_or_default(),
        refusals,
        state: Some(state),
    }
}

/// A layout that succeeded counts as its calls: made one by one they give the
/// same output and state.
pub fn counts_as_its_calls(name: &str, case: &Case, outcome: &Outcome) {
    if !outcome.refusals.is_empty() {
        return;
    }
    let again = run(&Case {
        cap: case.cap,
        ..Case::new(
            case.source.clone(),
            case.tree.clone(),
            outcome.trace.clone(),
        )
    });
    assert_eq!(again.output, outcome.output, "{name}");
    assert_eq!(again.state, outcome.state, "{name}");
}
