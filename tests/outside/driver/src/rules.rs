//! The rules that a run may take, and the calls that rune's format.rs makes for a
//! node or a whole tree: what the engine of document 01's words is then given.
use oracle::alloc;
use oracle::call::{layout_step, script as steps_of, Step};
use oracle::engine::Engine;
use oracle::grammar::Tree;
use oracle::refusal::Refusal;
use oracle::state::State;
use oracle::Diagnostics;

/// The kinds that have a rule, as the header lists them.
pub const KINDS: [(u8, &str); 60] = [
    (0x80, "block_body"),
    (0x81, "block"),
    (0x90, "item"),
    (0x91, "item_semi"),
    (0x92, "const_stmt"),
    (0x93, "const_semi"),
    (0x94, "local"),
    (0x95, "local_semi"),
    (0x96, "expr"),
    (0x97, "expr_semi"),
    (0x98, "item_struct"),
    (0x99, "item_enum"),
    (0x9A, "item_fn"),
    (0x9B, "item_use"),
    (0x9C, "item_impl"),
    (0x9D, "item_mod"),
    (0x9E, "item_file_mod"),
    (0x9F, "item_const"),
    (0xA0, "item_use_path"),
    (0xA1, "item_use_group"),
    (0xA2, "variant"),
    (0xA3, "struct_body"),
    (0xA4, "tuple_body"),
    (0xA7, "fn_args"),
    (0xB0, "path"),
    (0xB1, "path_generics"),
    (0xB2, "pat"),
    (0xB3, "pat_array"),
    (0xB4, "pat_tuple"),
    (0xB5, "pat_object"),
    (0xC0, "lit"),
    (0xC1, "template"),
    (0xC2, "expr_assign"),
    (0xC3, "expr_array"),
    (0xC4, "expr_tuple"),
    (0xC5, "expr_object"),
    (0xC6, "expr_binary"),
    (0xC8, "expr_unary"),
    (0xC9, "expr_group"),
    (0xCA, "expr_empty_group"),
    (0xCB, "expr_if"),
    (0xCE, "condition"),
    (0xCF, "expr_while"),
    (0xD0, "expr_loop"),
    (0xD1, "expr_for"),
    (0xD2, "expr_break"),
    (0xD3, "expr_continue"),
    (0xD4, "expr_return"),
    (0xD5, "expr_yield"),
    (0xD6, "expr_select"),
    (0xD8, "expr_match"),
    (0xDA, "range_full"),
    (0xDB, "range_from"),
    (0xDC, "range_to"),
    (0xDD, "range_to_incl"),
    (0xDE, "range"),
    (0xDF, "range_incl"),
    (0xE0, "expr_closure"),
    (0xE2, "expr_chain"),
    (0xE6, "expr_call"),
];

pub fn name(kind: u8) -> Option<&'static str> {
    KINDS.iter().find(|k| k.0 == kind).map(|k| k.1)
}

/// The calls of a run or layout, and the refusal that ends it where one does. A call that the
/// queue or the indent refuses stands last.
pub struct Plan {
    pub calls: Vec<Vec<u8>>,
    pub refusal: Option<Refusal>,
}

/// What the Rust does where there is room for all. Of the output the engine asks
/// only whether it is empty.
pub fn plan(text: &str, tree: &Tree, state: &State, step: Step) -> Plan {
    let (mut buffer, mut diagnostics) = (alloc::String::with_cap(usize::MAX), Diagnostics);
    let len = state.len.min(1);
    buffer.text = "x".repeat(len);
    let mut rust = Engine::new(text, tree, &mut buffer, &mut diagnostics);
    rust.fmt.restore(&State {
        len,
        ..state.clone()
    });
    rust.fmt.trace = Some(vec![]);
    let refusal = rust.step(step).err();
    let trace = rust.fmt.trace.take().expect("a trace");
    Plan {
        calls: records_of(&trace),
        refusal,
    }
}

/// One step by itself. The oracle's files of single steps have no layouts, so its
/// own reading knows runs and calls only.
pub fn step_of(record: &[u8]) -> Step<'_> {
    match record == layout_step() {
        true => Step::Layout,
        false => oracle::call::step(record),
    }
}

/// The steps of a case, each by itself.
pub fn records_of(steps: &[u8]) -> Vec<Vec<u8>> {
    let record = |(_, step)| match step {
        Step::Call(record) => record.to_vec(),
        Step::Run(node) => oracle::call::run_step(node),
        Step::Layout => layout_step(),
    };
    steps_of(steps).into_iter().map(record).collect()
}
