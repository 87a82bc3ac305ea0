//! Trees by hand of expressions and items that hold blocks or arms. B stands for an
//! empty block.
use super::one_run;
use crate::record::history::History;
use crate::sx::with_blocks;

#[rustfmt::skip]
const CONTROL: &[&str] = &[
    "(expr_if)", r#"(expr_if "if")"#, r#"(expr_if "if" B)"#, r#"(expr_if "if" "a" B)"#, r#"(expr_if "if" (path "a") B)"#,
    r#"(expr_if "if" (expr "a"))"#, r#"(expr_if "if" (expr "a") "/*c*/")"#, r#"(expr_if "if" (expr "a") "//l" "\n")"#,
    r#"(expr_if "if" (expr "a") B B)"#, r#"(expr_if "if" (expr_semi "a") B (F0 "x" " " "y") "z")"#, r#"(expr_if (expr "a") B)"#,
    r#"(expr_if "if" (expr "a") "//l" "\n" B "//m" "\n" (expr_else "else" B) "//n" "\n")"#,
    r#"(expr_if "if" (condition) B)"#, r#"(expr_if "if" (condition "let" (pat "_") "=" (expr "a")) (expr "b") B)"#,
    r#"(expr_if "if" (expr "a") (block "{" (block_body (expr "x")) "}") (expr_else "else" (block "{" (block_body (expr "y")) "}")))"#,
    r#"(expr_if "if" (expr "a") B (expr_else))"#, r#"(expr_if "if" (expr "a") B (expr_else "else"))"#,
    r#"(expr_if "if" (expr "a") B (expr_else "else" "if" B))"#, r#"(expr_if "if" (expr "a") B (expr_else "else" B B))"#,
    r#"(expr_if "if" (expr "a") (expr_else "else" B) (expr_else "else" B) (expr_else_if "else" "if" (expr "b") B))"#,
    r#"(expr_if "if" (expr "a") B (expr_else_if))"#, r#"(expr_if "if" (expr "a") B (expr_else_if "else" (expr "b") B))"#,
    r#"(expr_if "if" (expr "a") B (expr_else_if "else" "if" B))"#, r#"(expr_if "if" (expr "a") B (expr_else_if "else" "if" (expr "b")))"#,
    r#"(expr_if "if" (expr "a") B (expr_else_if "else" "if" (condition "let" (pat "_") "=" (expr "b")) B) (expr_else "else" B))"#,
    r#"(expr_if "if" (expr "a") B (expr_else_if "else" "if" (expr "b") B "z"))"#,
    // conditions
    "(condition)", r#"(condition "let")"#, r#"(condition "let" "_" "=" (expr "a"))"#, r#"(condition "let" (pat "_") (expr "a"))"#,
    r#"(condition "let" (pat "_") "=" "a")"#, r#"(condition "let" (pat "_") "=" (expr_semi "a"))"#, r#"(condition "let" (pat "_") "=" (expr "a") "z")"#,
    // loops
    "(expr_while)", r#"(expr_while "while" (expr "a"))"#, r#"(expr_while "while" (condition "let" (pat "_") "=" (expr "a")) B)"#,
    r#"(expr_while "while" "a" B)"#, r#"(expr_while "while" (expr "a") B "z")"#, r#"(expr_while "while" (expr "a") (block_body))"#,
    "(expr_loop)", r#"(expr_loop "loop")"#, r#"(expr_loop "loop" (expr "a") B)"#, r#"(expr_loop "loop" B "/*c*/")"#,
    "(expr_for)", r#"(expr_for "for" "x" "in" (expr "a") B)"#, r#"(expr_for "for" (pat "_") (expr "a") B)"#,
    r#"(expr_for "for" (pat "_") "in" "a" B)"#, r#"(expr_for "for" (pat "_") "in" (F0 (lit "1")) B)"#, r#"(expr_for "for" (pat "_") "in" B)"#,
    r#"(expr_for "for" (pat "_") "in" (expr "a"))"#, r#"(expr_for "for" (pat "_") "in" (expr "a") B B)"#,
    // jumps
    "(expr_break)", r#"(expr_break "break")"#, r#"(expr_break "break" "'a" "'b")"#, r#"(expr_break "break" "x")"#,
    r#"(expr_break "break" (expr "x") "'a")"#, r#"(expr_break "break" (expr_semi "x"))"#, r#"(expr_break "break" (expr) "z")"#,
    "(expr_continue)", r#"(expr_continue "continue")"#, r#"(expr_continue "continue" "'a" "/*c*/" "'b")"#, r#"(expr_continue "continue" (expr "x"))"#,
    "(expr_return)", r#"(expr_return "return")"#, r#"(expr_return "return" "'a")"#, r#"(expr_return "return" (path "x"))"#, r#"(expr_return "return" (expr "x") "z")"#,
    "(expr_yield)", r#"(expr_yield "yield")"#, r#"(expr_yield "return" (expr "x"))"#, r#"(expr_yield "yield" "/*c*/" (expr_semi (lit "1")))"#,
];

#[rustfmt::skip]
const ARMS: &[&str] = &[
    "(expr_select)", r#"(expr_select "select")"#, r#"(expr_select "select" "/*c*/")"#, r#"(expr_select "select" "//l" "\n")"#, r#"(expr_select "select" "x")"#,
    r#"(expr_select "select" "{")"#, r#"(expr_select "select" "{" "}")"#, r#"(expr_select "select" "{" "//l" "\n" "/*c*/" "}" "z")"#,
    r#"(expr_select "select" "{" (select_arm) "}")"#, r#"(expr_select "select" "{" (select_arm "default") "}")"#, r#"(expr_select "select" "{" (match_arm) "}")"#,
    r#"(expr_select "select" "{" (select_arm "x" "=>" (expr "a")) "}")"#, r#"(expr_select "select" "{" (select_arm "default" "=>") "}")"#,
    r#"(expr_select "select" "{" (select_arm "default" "=>" "a") "}")"#, r#"(expr_select "select" "{" (select_arm "default" (expr "a")) "}")"#,
    r#"(expr_select "select" "{" (select_arm "default" "=>" (expr "a") "z") "}")"#, r#"(expr_select "select" "{" (select_arm (pat "_") "=" "=>" (expr "a")) "}")"#,
    r#"(expr_select "select" "{" (select_arm (pat "_") "=" "x" "=>" (expr "a")) "}")"#, r#"(expr_select "select" "{" (select_arm "default" "=" (F0 "x") "=>" (F0 "a")) "}")"#,
    r#"(expr_select "select" "{" (select_arm "default" "=>" (F0 (block "{" (block_body (expr "x")) "}"))) "," "," "}")"#,
    r#"(expr_select "select" "{" " " "//1" "\n" (select_arm "default" "//2" "\n" "=>" (expr "a")) "//3" "\n" "," "//4" "\n" "//5" "\n" "}")"#,
    "(expr_match)", r#"(expr_match "match")"#, r#"(expr_match "match" "a" "{" "}")"#, r#"(expr_match "match" (F0 "a") "{" "}")"#, r#"(expr_match "match" (expr "a"))"#,
    r#"(expr_match "match" (expr "a") "{")"#, r#"(expr_match "match" (expr "a") "{" "}" "z")"#, r#"(expr_match "match" (expr "a") "{" "/*c*/" "}")"#,
    r#"(expr_match "match" (expr "a") "{" "//l" "\n" "}")"#, r#"(expr_match "match" (expr "a") "{" (match_arm) "}")"#, r#"(expr_match "match" (expr "a") "{" "x" "}")"#,
    r#"(expr_match "match" (expr "a") "{" (match_arm "_" "=>" (expr "b")) "}")"#, r#"(expr_match "match" (expr "a") "{" (match_arm (pat "_") "if" "=>" (expr "b")) "}")"#,
    r#"(expr_match "match" (expr "a") "{" (match_arm (pat "_") "if" "c" "=>" (expr "b")) "}")"#, r#"(expr_match "match" (expr "a") "{" (match_arm (pat "_") "if" (F0 "c") "=>" (expr "b")) "}")"#,
    r#"(expr_match "match" (expr "a") "{" (match_arm (pat "_") (expr "b")) "}")"#, r#"(expr_match "match" (expr "a") "{" (match_arm (pat "_") "=>" "b") "}")"#,
    r#"(expr_match "match" (expr "a") "{" (match_arm (pat "_") "=>" (F0 "b")) "," (match_arm (pat "_") "=>" (expr_semi (block "{" (block_body) "}")) "z") "}")"#,
    r#"(expr_match "match" (expr "a") "{" (match_arm (pat "_") "=>" (expr "'a" ":" (block "{" (block_body (expr "x")) "}"))) "//l" "\n" "," (match_arm (pat "_") "=>" (expr "b")) "}")"#,
    r#"(expr_match "match" (expr "a") "{" " " "//1" "\n" (match_arm (pat "_") "=>" (expr "b")) "//2" "\n" "," "//3" "\n" "\n" "//4" "\n" "}")"#,
    r#"(expr_match "match" (expr "a") "{" (match_arm "/*c*/" (pat "_") "=>" (expr "b") "/*d*/") "\n\n" (match_arm (pat "_") "=>" (expr "b")) "," "," "}")"#,
    // whether a body was a block is asked of what it holds, not of what stands around it
    r#"(expr_match "a" (expr "a") "{" "}")"#, r#"(expr_match "match" (expr "a") "{" (match_arm (pat "_") "=>" (expr (expr_group "(" (expr (block "{" (block_body) "}")) ")"))) "," "}")"#,
    // closures
    "(expr_closure)", r#"(expr_closure "/*c*/")"#, r#"(expr_closure (expr "x"))"#, r#"(expr_closure (closure_args))"#, r#"(expr_closure (closure_args "||"))"#,
    r#"(expr_closure (closure_args "||" "|") (expr "x"))"#, r#"(expr_closure (closure_args "|") (expr "x"))"#, r#"(expr_closure (closure_args "|" "|"))"#,
    r#"(expr_closure (closure_args "|" "x" "|") (expr "x"))"#, r#"(expr_closure (closure_args "|" (pat "_") "|" "z") (expr "x"))"#, r#"(expr_closure (closure_args "|" "/*c*/" "|") (expr "x"))"#,
    r#"(expr_closure (closure_args "|" "," "|") (expr "x"))"#, r#"(expr_closure (closure_args "||") "x")"#, r#"(expr_closure (closure_args "||") (expr_semi (block "{" (block_body (expr "x")) "}")) "z")"#,
    r#"(expr_closure "//l" "\n" (closure_args "||" "//m" "\n") "/*c*/" (expr "x"))"#, r#"(expr_closure (closure_args "|" (pat "_") (pat "_") "|") (expr "x") (expr "y"))"#,
];

#[rustfmt::skip]
const ITEMS: &[&str] = &[
    "(item_fn)", r#"(item_fn "fn")"#, r#"(item_fn "fn" "f")"#, r#"(item_fn "fn" "f" "//l" "\n")"#, r#"(item_fn "fn" (fn_args "(" ")"))"#, r#"(item_fn "fn" "f" B)"#,
    r#"(item_fn "fn" B (fn_args "(" ")"))"#, r#"(item_fn "fn" "f" "g" B)"#, r#"(item_fn (modifiers "pub" "async") "fn" "f" (fn_args "(" ")") B)"#, r#"(item_fn "fn" "f" (fn_args) B)"#,
    r#"(item_fn "fn" "f" (fn_args "(" (pat (path "a")) "," (pat "_") "," ")") (block "{" (block_body (expr "x")) "}"))"#, r#"(item_fn "fn" "f" (fn_args "(" ")") "/*c*/" B "z")"#,
    "(item_impl)", r#"(item_impl "impl" B)"#, r#"(item_impl "impl" "A" B)"#, r#"(item_impl "impl" (path "A"))"#, r#"(item_impl (modifiers "pub") "impl" (path "A" (path_generics "<" (path "T") ">")) B)"#,
    r#"(item_impl "impl" (path "A") (block "{" (block_body (item (item_fn "fn" "f" (fn_args "(" ")") B))) "}") "z")"#,
    "(item_mod)", r#"(item_mod "mod")"#, r#"(item_mod "mod" "m")"#, r#"(item_mod "mod" (F0 "x" " " "y") B)"#, r#"(item_mod "mod" "m" B B)"#, r#"(item_mod "mod" B)"#,
    r#"(item_mod "mod" "m" "/*c*/" B)"#, r#"(item_file_mod "mod" "m" ";")"#, r#"(item_file_mod "mod" "m" "//l" "\n")"#, r#"(item_file_mod "mod" "m" B)"#,
    "(item_const)", r#"(item_const "X")"#, r#"(item_const "X" "=")"#, r#"(item_const "X" (expr "1"))"#, r#"(item_const "X" "=" "1")"#, r#"(item_const "X" "=" (F0 (lit "1")))"#,
    r#"(item_const (F0 "x" " " "y") "=" (expr "1"))"#, r#"(item_const "const" "X" "=" (expr "1"))"#, r#"(item_const "X" "=" (expr "1") "z")"#, r#"(item_const (modifiers "pub" "const") "X" "=" (expr_semi (lit "1")))"#,
    // items as statements
    "(item)", r#"(item (attr "\#"))"#, r#"(item "x")"#, r#"(item (expr "x"))"#, r#"(item (F0))"#, r#"(item (modifiers "pub") (item_file_mod "mod" "m"))"#, r#"(item (item))"#,
    r#"(item (attr "\#" "[" "x" "]") "\n\n" (attr "\#") "//l" "\n" (item_struct (modifiers "pub") "struct" "S" (empty_body)))"#, r#"(item (item_enum "enum" "E" "{" "}"))"#,
    r#"(item (item_fn (modifiers "pub") "fn" "f" (fn_args "(" ")") B))"#, r#"(item_semi (item_use "use" "a"))"#, r#"(item_semi (item_use "use" "a") ";")"#, r#"(item (item_impl "impl" (path "A") B))"#,
    r#"(item (item_mod "mod" "m" B))"#, r#"(item_semi (item_file_mod "mod" "m" "x"))"#, r#"(const_semi (attr "\#") (item_const (modifiers "const") "X" "=" (expr "1")))"#, r#"(const_stmt (item_fn))"#,
    // locals
    "(local)", r#"(local "let")"#, r#"(local "let" "x" "=" (expr "1"))"#, r#"(local "let" (pat "_"))"#, r#"(local "let" (pat "_") (expr "1"))"#, r#"(local "let" (pat "_") "=" "1")"#,
    r#"(local "let" (pat "_") "=" (F0 (lit "1")))"#, r#"(local_semi (attr "\#") "\n" (attr "\#") (modifiers "pub") "let" (pat (path "a")) "=" (expr_semi (lit "1")))"#, r#"(local "let" (pat "_") "=" (expr "1") ";")"#,
    r#"(local (modifiers "pub") (attr "\#") "let" (pat "_") "=" (expr "1"))"#, r#"(local "let" "//l" "\n" (pat "_") "/*c*/" "=" "//m" "\n" (expr "1") "/*d*/")"#,
];

#[rustfmt::skip]
const BLOCKS: &[&str] = &[
    "(block)", r#"(block "{")"#, r#"(block "{" "}")"#, r#"(block "{" (block_body))"#, r#"(block "{" (expr "x") "}")"#, r#"(block "{" (block_body) "}" "z")"#, r#"(block "(" (block_body) ")")"#,
    r#"(block "{" (block_body) (block_body) "}")"#, r#"(block "{" "/*c*/" (block_body) "/*d*/" "}")"#, r#"(block "{" (block_body "/*c*/") "}")"#, r#"(block "{" (block_body "//l" "\n") "}")"#,
    r#"(block "{" "//l" "\n" (block_body "/*c*/" "//m" "\n") "//n" "\n" "}")"#, r#"(block "{" (block_body (inner_attr "\#")) "}")"#, r#"(block "{" (block_body (expr "x")) "}")"#,
    r#"(block "{" (block_body "//1" "\n" (expr "x") "//2" "\n" "//3" "\n") "//4" "\n" "}")"#, r#"(block "{" (block_body "\n\n\n" (expr "x") "\n\n") "\n\n" "}")"#,
    r#"(expr_loop "loop" (block "{" (block_body "//l" "\n") "/*c*/" "}"))"#, r#"(expr_loop "loop" (block "{" (block_body (expr (block "{" (block_body) "}"))) "}"))"#,
    r#"(block "{" (block_body "\n" "//l" "\n" (inner_attr "\#") (expr "x")) "}")"#, r#"(expr_loop "loop" (block "{" "\n" "/*c*/" "\n" (block_body (inner_attr "\#")) "}"))"#,
    // the body alone: inner attributes, statements of every kind
    "(block_body)", r#"(block_body "/*c*/" "\n")"#, r#"(block_body (inner_attr "\#") "\n\n" (inner_attr "\#") "//l" "\n" (expr "x"))"#, r#"(block_body (expr "x") (inner_attr "\#"))"#, r#"(block_body (attr "\#"))"#,
    r#"(block_body "x")"#, r#"(block_body ";")"#, r#"(block_body (F0 "x"))"#, r#"(block_body (F0 (lit "1")) ";")"#, r#"(block_body (expr (lit "1")) (F0 (lit "2")) (F0 (lit "3")) ";" (local "let" (pat "_") "=" (expr "1")))"#,
    r#"(block_body (block "{" (block_body) "}"))"#, r#"(block_body (block_body))"#, r#"(block_body (item_fn "fn" "f"))"#, r#"(block_body (condition))"#, r#"(block_body (expr "x") "y")"#, r#"(block_body (expr "x") ";" ";")"#,
    r#"(block_body (expr "x") "//l" "\n" ";" "/*c*/" ";")"#,
];

pub fn tables(all: &mut Vec<History>) {
    for (sort, table) in [
        ("control", CONTROL),
        ("arms", ARMS),
        ("items with blocks", ITEMS),
        ("blocks", BLOCKS),
    ] {
        let trees = table.iter().map(|tree| with_blocks(tree));
        all.extend(trees.map(|tree| one_run(sort, &tree)));
    }
}
