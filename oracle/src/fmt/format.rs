//! rune's format.rs, unchanged, and the rule that a layout run calls for a kind.
include!(concat!(env!("OUT_DIR"), "/format.rs"));

/// Whether a kind has a rule (reading 12). The kinds that only stand inside
/// another kind's rule have none, and no leaf has one.
pub fn has_rule(kind: Kind) -> bool {
    matches!(
        kind,
        BlockBody | Block | Item | Local | Expr
        // items and their parts
        | ItemStruct | ItemEnum | ItemFn | ItemUse | ItemImpl | ItemMod | ItemFileMod | ItemConst
        | ItemUsePath | ItemUseGroup | Variant | StructBody | TupleBody | FnArgs
        // paths and patterns
        | Path | PathGenerics | Pat | PatArray | PatTuple | PatObject
        // expressions
        | Lit | TemplateString | ExprAssign | ExprArray | ExprTuple | ExprObject | ExprBinary
        | ExprUnary | ExprGroup | ExprEmptyGroup | ExprIf | Condition | ExprWhile | ExprLoop
        | ExprFor | ExprBreak | ExprContinue | ExprReturn | ExprYield | ExprSelect | ExprMatch
        | ExprRangeFull | ExprRangeFrom | ExprRangeTo | ExprRangeToInclusive | ExprRange
        | ExprRangeInclusive | ExprClosure | ExprChain | ExprCall
    )
}

/// Makes the calls of a node's rule, for a kind that has one.
pub(super) fn run<'a>(fmt: &mut Formatter<'a>, node: Node<'a>) -> Result<()> {
    let kind = node.kind();
    node.parse(|p| match kind {
        BlockBody => block_content(fmt, p),
        Item | Local | Expr => stmt(fmt, p),
        ItemStruct | ItemEnum | ItemFn | ItemUse | ItemImpl | ItemMod | ItemFileMod | ItemConst => {
            modifiers(fmt, p)?;
            run_item(fmt, p, kind)
        }
        ItemUsePath => item_use_path(fmt, p),
        ItemUseGroup => item_use_group(fmt, p),
        Variant => variant(fmt, p),
        StructBody => struct_body(fmt, p),
        TupleBody => tuple_body(fmt, p),
        FnArgs => fn_args(fmt, p),
        PathGenerics => path_generics(fmt, p),
        Pat => pat(fmt, p),
        PatArray => pat_array(fmt, p),
        // as pat's own arm does: its optional Path belongs to it
        PatTuple => {
            let trailing = p.eat(Path).parse(|p| path(fmt, p))?.is_none();
            pat_tuple(fmt, p, trailing)
        }
        PatObject => pat_object(fmt, p),
        ExprCall => exprs(fmt, p, K!['('], K![')']),
        Condition => condition(fmt, p),
        _ => inner_expr(fmt, p).map(|_| ()),
    })
}

fn run_item<'a>(fmt: &mut Formatter<'a>, p: &mut Stream<'a>, kind: Kind) -> Result<()> {
    match kind {
        ItemStruct => item_struct(fmt, p),
        ItemEnum => item_enum(fmt, p),
        ItemFn => item_fn(fmt, p),
        ItemUse => item_use(fmt, p),
        ItemImpl => item_impl(fmt, p),
        ItemMod | ItemFileMod => item_mod(fmt, p),
        _ => item_const(fmt, p),
    }
}
