//! One small node of each rule: for runs between calls, and for runs that are
//! refused around them.

/// The first so many call no rule of a kind behind them.
pub const FIRST: usize = 15;

#[rustfmt::skip]
pub const NODES: [&str; 60] = [
    // paths, patterns, bodies, and the items that hold no block
    r#"(path "a" "::" "b")"#, r#"(path_generics "<" (path "a") ">")"#, r#"(pat (attr "\#") "_")"#,
    r#"(pat_array "[" ".." "]")"#, r#"(pat_tuple "(" (pat "_") ")")"#,
    r#"(pat_object anon_key"\#" "{" obj_key"k" "}")"#, r#"(fn_args "(" (pat "_") ")")"#,
    r#"(tuple_body "(" (field "a") ")")"#, r#"(struct_body "{" (field "a") "}")"#,
    r#"(variant "V" (empty_body))"#, r#"(item_struct "struct" "S" (tuple_body "(" ")"))"#,
    r#"(item_enum "enum" "{" (variant "A" (empty_body)) "}")"#, r#"(item_use (modifiers "pub") "use" "a")"#,
    r#"(item_use_path "a" "as" "b")"#, r#"(item_use_group "{" (item_use_path "a") "}")"#,
    // blocks, statements, the other items
    r#"(block_body (expr "x"))"#, r#"(block "{" (block_body (expr "x")) "}")"#,
    r#"(item (item_file_mod "mod" "m"))"#, r#"(item_semi (attr "\#") (item_use "use" "a"))"#,
    r#"(const_stmt (item_const "X" "=" (expr "1")))"#, r#"(const_semi (item_const "X" "=" (expr "1")))"#,
    r#"(local "let" (pat "_") "=" (expr "x"))"#, r#"(local_semi "let" (pat "_") "=" (expr "x"))"#,
    r#"(expr (path "a"))"#, r#"(expr_semi "'a" ":" "x")"#,
    r#"(item_fn "fn" "f" (fn_args "(" ")") (block "{" (block_body) "}"))"#,
    r#"(item_impl "impl" (path "A") (block "{" (block_body) "}"))"#,
    r#"(item_mod "mod" "m" (block "{" (block_body) "}"))"#, r#"(item_file_mod "mod" "m")"#,
    r#"(item_const (modifiers "const") "X" "=" (expr "1"))"#,
    // expressions
    r#"(lit "-" "1")"#, r#"(template str"`t`")"#, r#"(expr_assign (expr "a") "=" (expr "b"))"#,
    r#"(expr_array "[" (expr "a") "]")"#, r#"(expr_tuple "(" (expr "a") ")")"#,
    r#"(expr_object anon_key"\#" "{" obj_key"k" "}")"#, r#"(expr_binary "a" (operator "+") "b")"#,
    r#"(expr_unary "!" (path "a"))"#, r#"(expr_group "(" (expr "a") ")")"#,
    r#"(expr_empty_group empty_open"" (expr "a") empty_open"")"#,
    r#"(expr_if "if" (expr "a") (block "{" (block_body) "}"))"#,
    r#"(condition "let" (pat "_") "=" (expr "a"))"#,
    r#"(expr_while "while" (expr "a") (block "{" (block_body) "}"))"#,
    r#"(expr_loop "loop" (block "{" (block_body) "}"))"#,
    r#"(expr_for "for" (pat "_") "in" (expr "a") (block "{" (block_body) "}"))"#,
    r#"(expr_break "break" "'a" (expr "x"))"#, r#"(expr_continue "continue" "'a")"#,
    r#"(expr_return "return" (expr "x"))"#, r#"(expr_yield "yield" (expr "x"))"#,
    r#"(expr_select "select" "{" (select_arm "default" "=>" (expr "x")) "}")"#,
    r#"(expr_match "match" (expr "a") "{" (match_arm (pat "_") "=>" (expr "x")) "}")"#,
    r#"(range_full "..")"#, r#"(range_from "a" "..")"#, r#"(range_to ".." "b")"#,
    r#"(range_to_incl "..=" "b")"#, r#"(range "a" ".." "b")"#, r#"(range_incl "a" "..=" "b")"#,
    r#"(expr_closure (closure_args "|" (pat "_") "|") (expr "x"))"#,
    r#"(expr_chain (path "a") (expr_try "?"))"#, r#"(expr_call "(" (expr "a") ")")"#,
];
