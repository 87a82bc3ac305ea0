//! Small trees of each rule, which the edits of bases.rs are made on.

/// Rules that let comments out by spaces.
#[rustfmt::skip]
pub const SPACED: &[&str] = &[
    r#"(path "a" (path_generics "<" (path "b") "," (path "c") ">"))"#,
    r#"(pat (attr "\#") (lit "-" "1"))"#,
    r#"(pat_array "[" (pat "_") "," ".." "," "]")"#,
    r#"(pat_tuple (path "A") "(" (pat "_") "," ".." ")")"#,
    r#"(pat_tuple "(" (pat "_") ")")"#,
    r#"(pat_object anon_key"\#" "{" obj_key"k" ":" (pat "_") "," ".." "}")"#,
    r#"(pat_object (path "A") "{" obj_key"k" "," "}")"#,
    r#"(fn_args "(" "," (pat "_") "," (pat "..") ")")"#,
    r#"(tuple_body "(" (field "a") "," (field "b") "," ")")"#,
    r#"(item_use (modifiers "pub") "use" "a" "as" "c")"#,
    r#"(item_use "use" (item_use_group "{" (item_use_path "b") "," "}"))"#,
    r#"(item_use_path "a" "::" (item_use_group "{" "}"))"#,
    r#"(item_use_group "{" (item_use_path "a") "," (item_use_path "b") "}")"#,
    r#"(variant "V" (tuple_body "(" ")"))"#,
    r#"(variant "V" (empty_body))"#,
    r#"(item_struct (modifiers "pub" (mod_crate "(" "crate" ")") "async") "struct" "S" (empty_body))"#,
    r#"(item_struct (modifiers (mod_in "(" "in" (path "a") ")")) "struct" (tuple_body "(" ")"))"#,
];

/// Rules that let comments out by lines.
#[rustfmt::skip]
pub const LINED: &[&str] = &[
    r#"(struct_body "{" (field "a") "," (field "b") "}")"#,
    r#"(item_struct "struct" "S" (struct_body "{" "}"))"#,
    r#"(item_enum "enum" "E" "{" (variant "A" (empty_body)) "," (variant (empty_body)) "}")"#,
    r#"(item_enum "enum" "{" (variant "A" (struct_body "{" (field "a") "}")) "," "}")"#,
];

/// Lists that a line comment makes loose.
#[rustfmt::skip]
pub const LOOSENED: &[&str] = &[
    r#"(expr_array "[" (expr "a") "," (expr "b") "]")"#,
    r#"(expr_call "(" (expr "a") "," ")")"#,
    r#"(expr_object anon_key"\#" "{" obj_key"k" ":" (expr "v") "," obj_key"l" "}")"#,
    r#"(expr_object (path "A") "{" obj_key"k" "," "}")"#,
];

/// Other expressions on one line.
#[rustfmt::skip]
pub const EXPRS: &[&str] = &[
    r#"(expr (attr "\#") (modifiers "async") "'a" ":" (path "x"))"#,
    r#"(expr_tuple "(" (expr "a") "," ")")"#,
    r#"(expr_tuple "(" (expr "a") "," (expr "b") "," ")")"#,
    r#"(expr_binary (path "a") (operator "+") "b" (operator "-") (lit "1"))"#,
    r#"(expr_unary "!" (path "a"))"#,
    r#"(expr_assign (expr "a") "=" (expr "b"))"#,
    r#"(expr_group "(" (expr "x") ")")"#,
    r#"(expr_empty_group empty_open"" (expr "x") empty_open"")"#,
    r#"(expr (expr_group "(" ")"))"#,
    r#"(expr_break "break" "'a" (expr "x"))"#,
    r#"(expr_continue "continue" "'a")"#,
    r#"(expr_return "return" (expr "x"))"#,
    r#"(expr_yield "yield" (expr "x"))"#,
    r#"(range (path "a") ".." (path "b"))"#,
    r#"(range_incl "a" "..=" "b")"#,
    r#"(range_from (lit "1") "..")"#,
    r#"(range_to ".." (lit "1"))"#,
    r#"(range_to_incl "..=" "b")"#,
    r#"(range_full "..")"#,
    r#"(lit "-" "1")"#,
    r#"(template str"`t`")"#,
    r#"(expr_closure (closure_args "|" (pat "_") "," (pat "..") "|") (expr "x"))"#,
    r#"(expr_closure (closure_args "||") (expr "x"))"#,
    r#"(expr_chain (path "a") (expr_field "." (path "b")) (expr_call "(" (expr "c") ")") (expr_try "?"))"#,
    r#"(expr_chain "a" (expr_await "." "await") (expr_index "[" (expr "i") "]") (expr_field "." "0"))"#,
    r#"(condition "let" (pat "_") "=" (expr "a"))"#,
    r#"(local (attr "\#") (modifiers "pub") "let" (pat "_") "=" (expr "x"))"#,
    r#"(item_const (modifiers "const") "X" "=" (expr "1"))"#,
    r#"(item_file_mod (modifiers "pub") "mod" "m")"#,
];

/// Expressions and items that hold blocks or arms; B is an empty block.
#[rustfmt::skip]
pub const BLOCKS: &[&str] = &[
    r#"(expr_if "if" (expr "a") B (expr_else "else" B))"#,
    r#"(expr_if "if" (condition "let" (pat "_") "=" (expr "b")) (expr_else_if "else" "if" (expr "c") B))"#,
    r#"(expr_while "while" (expr "a") (block "{" (block_body (expr "x")) "}"))"#,
    r#"(expr_loop "loop" B)"#,
    r#"(expr_for "for" (pat "_") "in" (expr "a") B)"#,
    r#"(expr_select "select" "{" (select_arm (pat "_") "=" (expr "a") "=>" (expr "b")) "," (select_arm "default" "=>" (expr "c")) "}")"#,
    r#"(expr_match "match" (expr "a") "{" (match_arm (pat "_") "if" (expr "b") "=>" (expr "c")) "," (match_arm (pat "_") "=>" (expr "d")) "}")"#,
    r#"(expr_match "match" (expr "a") "{" (match_arm (pat "_") "=>" (expr (block "{" (block_body) "}"))) "," "}")"#,
    r#"(expr_match "match" (expr "a") "{" "}")"#,
    r#"(item_fn "fn" "f" (fn_args "(" (pat "_") ")") B)"#,
    r#"(item_impl "impl" (path "A") B)"#,
    r#"(item_mod "mod" "m" B)"#,
    r#"(block "{" (block_body) "}")"#,
    r#"(block_body (inner_attr "\#") (local_semi "let" (pat "_") "=" (expr "x")) ";" (expr "y"))"#,
    r#"(block_body (item (attr "\#") (item_file_mod "mod" "m")) ";" (const_semi (item_const "X" "=" (expr "1"))) (expr_semi "x") ";")"#,
];
