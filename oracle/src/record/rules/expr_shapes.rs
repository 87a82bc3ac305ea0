//! Trees by hand of expressions that hold no block: what each branch of their rules
//! asks for, and what none does.
use super::one_run;
use crate::record::history::History;

#[rustfmt::skip]
const EXPRS: &[&str] = &[
    "(expr)", r#"(expr "/*c*/")"#, r#"(expr "x")"#, r#"(expr "x" "y")"#, r#"(expr ";")"#, r#"(expr ".." "/*c*/")"#,
    r#"(expr_semi (lit "1") "z")"#, r#"(expr "//l" "\n" (path "a") "/*c*/")"#,
    // attributes, modifiers, labels
    "(expr (attr))", r#"(expr (attr "\#"))"#, r#"(expr (attr "\#" "[" "x" "]") "\n" (attr "\#") "\n\n" "x")"#,
    r#"(expr (inner_attr "\#") "x")"#, r#"(expr (modifiers) "x")"#, r#"(expr (modifiers "async" "move") (path "a"))"#,
    r#"(expr (modifiers "pub") (modifiers "pub") "x")"#, r#"(expr (modifiers (error)) "x")"#,
    r#"(expr "'a" ":" "x")"#, r#"(expr "'a" "x")"#, r#"(expr "'a")"#, r#"(expr "'a" ":")"#,
    r#"(expr "'a" ":" ":" "x")"#, r#"(expr "'a" "'b" ":" "'c" "/*c*/" ":" "x")"#, r#"(expr ":" "x")"#,
    r#"(expr "'a" "//l" "\n" "x")"#, r#"(expr "x" "'a")"#, r#"(expr "'a" ":" (attr "\#") "x")"#,
    // what has a rule, and none here
    r#"(expr (expr "x"))"#, r#"(expr (pat_tuple "(" ")"))"#, r#"(expr (block_body))"#, r#"(expr (expr_call "(" ")"))"#,
    r#"(expr (condition "let" (pat "_") "=" (expr "a")))"#, r#"(expr (local "let"))"#, r#"(expr (item))"#,
    r#"(expr (F0 "x"))"#, "(expr (error))", r#"(expr (operator "+"))"#, r#"(expr (pat "_"))"#,
    // literals
    "(lit)", r#"(lit "-")"#, r#"(lit "1")"#, r#"(lit "-" "1" "2")"#, r#"(lit "-" (F0 "x" " " "y"))"#, r#"(lit "1" "-")"#,
    "(template)", r#"(template "a" "b")"#, r#"(template (F0 "x" " " "y"))"#, r#"(template "/*c*/" "a" "//l")"#,
];

#[rustfmt::skip]
const OPERATORS: &[&str] = &[
    "(expr_binary)", r#"(expr_binary "a")"#, r#"(expr_binary "a" (operator "+"))"#, r#"(expr_binary (operator "+") "a")"#,
    r#"(expr_binary "a" "+" "b")"#, r#"(expr_binary "a" (operator "is" " " "not") (lit "1") (operator "+") (path "b"))"#,
    r#"(expr_binary (expr_binary "a" (operator "+") "b") (operator "-") (expr_binary "c" (operator "*") "d"))"#,
    r#"(expr_binary (F0) (operator "+") "b")"#, r#"(expr_binary "a" (operator) (expr "b"))"#,
    r#"(expr_binary "a" (operator "+") "b" "c")"#, r#"(expr_binary "a" (operator "+") "b" (operator "+"))"#,
    "(expr_unary)", r#"(expr_unary "!")"#, r#"(expr_unary (F0 "x" " " "y") "a")"#, r#"(expr_unary "!" "!")"#,
    r#"(expr_unary "-" (expr_unary "!" (lit "1")))"#, r#"(expr_unary "!" (expr "a"))"#, r#"(expr_unary "!" "a" "b")"#,
    "(expr_assign)", r#"(expr_assign "a" "=" (expr "b"))"#, r#"(expr_assign (expr "a") (expr "b"))"#,
    r#"(expr_assign (expr "a") "=")"#, r#"(expr_assign (expr "a") "=" "b")"#, r#"(expr_assign (expr "a") "=" "=" (expr "b"))"#,
    r#"(expr_assign (expr_semi (path "a")) "=" (expr_semi (lit "1")))"#, r#"(expr_assign (path "a") "=" (expr "b"))"#,
    // ranges
    "(range_full)", r#"(range_full "x")"#, r#"(range_full (F0 "." " " "."))"#, r#"(range_full ".." "a")"#,
    "(range_from)", r#"(range_from "a")"#, r#"(range_from (F0) "..")"#, r#"(range_from (path "a") "x")"#,
    "(range_to)", r#"(range_to "..")"#, r#"(range_to ".." (F0))"#, r#"(range_to (path "x") (lit "1"))"#,
    "(range_to_incl)", r#"(range_to_incl "..=" (expr "a"))"#, r#"(range_to_incl "..=" "a" "b")"#,
    "(range)", r#"(range "a" "..")"#, r#"(range "a" ".." (expr "b"))"#, r#"(range (F0) ".." "b")"#,
    r#"(range (range_from "a" "..") ".." (range_to ".." "b"))"#, r#"(range_incl (lit "1") "..=" (lit "2") "z")"#,
    // groups
    "(expr_group)", r#"(expr_group "(")"#, r#"(expr_group "(" ")")"#, r#"(expr_group "(" "/*c*/" ")")"#,
    r#"(expr_group "(" "//l" "\n" ")")"#, r#"(expr_group "(" "x" ")")"#, r#"(expr_group "(" (expr) ")")"#,
    r#"(expr_group "(" (expr "x") (expr "y") ")")"#, r#"(expr_group "(" (expr_semi (lit "1")) ")" ")")"#,
    r#"(expr_group "(" "/*c*/" (expr "/*d*/" "x" "/*e*/") "/*f*/" ")")"#, r#"(expr_group "[" (expr "x") "]")"#,
    r#"(expr_group "(" (expr "x" "/*c*/" "y") ")")"#,
    "(expr_empty_group)", r#"(expr_empty_group empty_open"" empty_close"")"#, r#"(expr_empty_group empty_open"")"#,
    r#"(expr_empty_group empty_open"" empty_open"")"#, r#"(expr_empty_group empty_open"" "/*c*/" empty_open"")"#,
    r#"(expr_empty_group empty_open"" (expr "x") empty_close"")"#, r#"(expr_empty_group "(" (expr "x") ")")"#,
    r#"(expr_empty_group empty_open"" "/*c*/" (expr "x" "/*d*/") "/*e*/" empty_open"" "/*f*/")"#,
    r#"(expr_empty_group empty_open"" (expr "x" "y") empty_open"")"#,
    r#"(expr_empty_group empty_open"" "//\n" "/**/" (expr "x") empty_open"")"#,
];

#[rustfmt::skip]
const LISTS: &[&str] = &[
    "(expr_array)", r#"(expr_array "[")"#, r#"(expr_array "]")"#, r#"(expr_array "(" ")")"#, r#"(expr_array "[" "x" "]")"#,
    r#"(expr_array "[" (path "x") "]")"#, r#"(expr_array "[" (expr) "]")"#, r#"(expr_array "[" (expr "x") "]" "]")"#,
    r#"(expr_array "//l" "\n" "[" "x" "]")"#, r#"(expr_array "[" (expr "x") ";" "]")"#, r#"(expr_array "//l")"#,
    "(expr_call)", r#"(expr_call "[" "]")"#, r#"(expr_call "(" (expr "x") ")" "z")"#, r#"(expr_call "(" ".." ")")"#,
    "(expr_tuple)", r#"(expr_tuple "(")"#, r#"(expr_tuple "(" "x" ")")"#, r#"(expr_tuple "(" (expr (F0)) ")")"#,
    r#"(expr_tuple "(" "//l" "\n" (expr "a") "//m" "\n" "," (expr "b") ")")"#,
    // loose: comments on their lines and behind the entries
    r#"(expr_array "[" " " "//1" "\n" (expr "a") "," " " "//2" "\n" "//3" "\n\n" (expr "b") "//4" "\n" "]")"#,
    r#"(expr_call "(" "\n" (expr "a") "\n\n" "," "//l" "\n" (expr "b") "," "," ")")"#,
    r#"(expr_array "[" (expr (expr_array "[" "//l" "\n" (expr "a") "]")) "," (expr "b") "]")"#,
    r#"(expr_array "[" "//l" "\n" (expr (expr_array "[" (expr "a") "," "]")) "," (expr "b") "]")"#,
    // objects: the name
    "(expr_object)", r#"(expr_object "{" "}")"#, r#"(expr_object anon_key"\#")"#, r#"(expr_object (path "A"))"#,
    r#"(expr_object anon_key"\#" "//l" "\n")"#, r#"(expr_object anon_key"\#" (path "A") "{" "}")"#,
    r#"(expr_object (path) "{" "}")"#, r#"(expr_object (path "a" "::" "B") "/*c*/" "{" "}")"#,
    r#"(expr_object "//l" "\n" (path "A") "{" obj_key"k" "}")"#, r#"(expr_object (path "A" "//l" "\n" "::" "B") "{" obj_key"k" "}")"#,
    // a missing and a doubled brace
    r#"(expr_object anon_key"\#" "{")"#, r#"(expr_object anon_key"\#" "{" obj_key"k" ",")"#,
    r#"(expr_object anon_key"\#" "{" "//l" "\n")"#, r#"(expr_object anon_key"\#" "{" obj_key"k" "//l" "\n")"#,
    r#"(expr_object anon_key"\#" "{" "}" "}")"#, r#"(expr_object anon_key"\#" "{" "//l" "\n" "}" "/*c*/" "}")"#,
    r#"(expr_object anon_key"\#" "{" "/*c*/")"#, r#"(expr_object anon_key"\#" "{" obj_key"k" "}" "//l" "\n")"#,
    // keys and their values: any composite is run through `expr`
    r#"(expr_object anon_key"\#" "{" obj_key"k" ":" "}")"#, r#"(expr_object anon_key"\#" "{" obj_key"k" ":")"#,
    r#"(expr_object anon_key"\#" "{" obj_key"k" ":" "v" "}")"#, r#"(expr_object anon_key"\#" "{" obj_key"k" ":" (F0 "v") "}")"#,
    r#"(expr_object anon_key"\#" "{" obj_key"k" ":" (path (lit "1")) "}")"#, r#"(expr_object anon_key"\#" "{" obj_key"k" (expr "v") "}")"#,
    r#"(expr_object anon_key"\#" "{" obj_key"k" ":" ":" (expr "v") "}")"#, r#"(expr_object anon_key"\#" "{" "k" "}")"#,
    r#"(expr_object anon_key"\#" "{" ".." "}")"#, r#"(expr_object anon_key"\#" "{" obj_key"k" ":" (expr) "," "}")"#,
    r#"(expr_object anon_key"\#" "{" "//l" "\n" obj_key"k" ":" "v" "}")"#,
    r#"(expr_object anon_key"\#" "{" "//l" "\n" obj_key"k" "/*c*/" ":" "/*d*/" (F0 (lit "1")) "/*e*/" "," "//m" "\n" obj_key"l" "}")"#,
    r#"(expr_object (path "A") "{" obj_key"k" ":" (expr (expr_object anon_key"\#" "{" "//l" "\n" obj_key"l" "}")) "}")"#,
];

#[rustfmt::skip]
const CHAINS: &[&str] = &[
    "(expr_chain)", r#"(expr_chain "/*c*/")"#, r#"(expr_chain "a")"#, r#"(expr_chain (expr "a") (expr_try "?"))"#,
    r#"(expr_chain (F0) (expr_try "?"))"#, r#"(expr_chain "a" "b")"#, r#"(expr_chain "a" (path "b"))"#, r#"(expr_chain "a" (F0))"#,
    r#"(expr_chain "a" (expr_array "[" "]"))"#, r#"(expr_chain "a" (expr_try))"#, r#"(expr_chain "a" (expr_try "?" "?"))"#,
    r#"(expr_chain "a" (expr_await))"#, r#"(expr_chain "a" (expr_await "."))"#, r#"(expr_chain "a" (expr_await "await"))"#,
    r#"(expr_chain "a" (expr_await "." "await" "x"))"#, r#"(expr_chain "a" (expr_field))"#, r#"(expr_chain "a" (expr_field "."))"#,
    r#"(expr_chain "a" (expr_field "." "x"))"#, r#"(expr_chain "a" (expr_field "." "1"))"#, r#"(expr_chain "a" (expr_field "." "1" "2"))"#,
    r#"(expr_chain "a" (expr_field (path "x")))"#, r#"(expr_chain "a" (expr_field "." (path "x" (path_generics "<" ">"))))"#,
    r#"(expr_chain "a" (expr_field "." (path "x") "y"))"#, r#"(expr_chain "a" (expr_index))"#, r#"(expr_chain "a" (expr_index "["))"#,
    r#"(expr_chain "a" (expr_index "[" "]"))"#, r#"(expr_chain "a" (expr_index "[" "x" "]"))"#, r#"(expr_chain "a" (expr_index "[" (F0 "x") "]"))"#,
    r#"(expr_chain "a" (expr_index "[" (F0 (lit "1")) "]"))"#, r#"(expr_chain "a" (expr_index "[" (expr "x")))"#,
    r#"(expr_chain "a" (expr_index "[" "/*c*/" (expr "x") "/*d*/" "]" "]"))"#, r#"(expr_chain "a" (expr_call))"#,
    r#"(expr_chain "a" (expr_call "(" (expr "x") "//l" "\n" ")") (expr_call "(" ")"))"#, r#"(expr_chain "a" (expr_call "(" ")" "z"))"#,
    r#"(expr_chain "a" "//l" "\n" (expr_field "." "//m" "\n" (path "b")) "/*c*/" (expr_call "(" ")") "//n" "\n")"#,
    r#"(expr_chain (expr_chain "a" (expr_try "?")) "\n" (expr_field "." (path "b")) "\n\n" (expr_await "." "await"))"#,
];

pub fn tables(all: &mut Vec<History>) {
    for (sort, table) in [
        ("expressions", EXPRS),
        ("operators", OPERATORS),
        ("expression lists", LISTS),
        ("chains", CHAINS),
    ] {
        all.extend(table.iter().map(|tree| one_run(sort, tree)));
    }
}
