//! Trees by hand, rule by rule: what each branch asks for, and what none does.
//! `\#` is a mark like the others; without the stroke it would end a raw string.
use super::{history, nodes, one_run};
use crate::call::run_step;
use crate::record::history::History;

#[rustfmt::skip]
const PATHS: &[&str] = &[
    "(path)",
    r#"(path "/*c*/")"#,
    r#"(path "a")"#,
    r#"(path "::" "a" "::" "b" "::" "c")"#,
    r#"(path "crate" "::" "self")"#,
    // any node is written, a composite whole
    r#"(path ";" "struct" "..")"#,
    r#"(path "a" (F0 "x" " " "y") (F0) "b")"#,
    r#"(path (path "a" "/*c*/" "b") (lit "1") (attr "\#"))"#,
    r#"(path (path_generics "<" ">") "::" (path_generics "<" ">"))"#,
    r#"(path "a" (path_generics))"#,
    r#"(path "a" (path_generics "<"))"#,
    r#"(path "a" (path_generics "<" (path "b") ";" ">"))"#,
    r#"(path (path_generics "<" (path "a" (path_generics "<" (path "b") ">")) "," (path) ">"))"#,
    r#"(path_generics)"#,
    r#"(path_generics "<" "a" ">")"#,
    r#"(path_generics "<" (pat (path "a")) ">")"#,
    r#"(path_generics "<" (path "a" (path_generics "<" ">" ">")) ">")"#,
];

#[rustfmt::skip]
const PATTERNS: &[&str] = &[
    // attributes
    "(pat)", r#"(pat "/*c*/")"#, "(pat (attr))", r#"(pat (attr) "_")"#,
    r#"(pat (attr "\#" "[" "x" "]") "\n" (attr "\#" "[" "y" "]") "\n\n" (path "a"))"#,
    r#"(pat (attr "\#") "/*c*/" (attr "\#") "//l" "\n" (pat_array "[" "]"))"#,
    r#"(pat (attr "\#") "x")"#, r#"(pat "_" (attr "\#"))"#,
    r#"(pat (inner_attr "\#") "_")"#, r#"(pat (modifiers "pub") "_")"#,
    // leaves
    r#"(pat "_")"#, r#"(pat "..")"#, r#"(pat "x")"#, r#"(pat "1")"#, r#"(pat "-" "1")"#,
    r#"(pat "_" "..")"#, r#"(pat ".." "/*c*/" "_")"#, r#"(pat "/*c*/" "_" "//l")"#,
    // literals
    "(pat (lit))", r#"(pat (lit "-"))"#, r#"(pat (lit "1"))"#, r#"(pat (lit "-" "1"))"#,
    r#"(pat (lit "-" "-"))"#, r#"(pat (lit "-" "-" "1"))"#, r#"(pat (lit "1" "-"))"#,
    r#"(pat (lit (F0 "x" " " "y")))"#, r#"(pat (lit "-" (path "a")))"#,
    r#"(pat (lit "/*c*/" "-" "//l" "\n" "1" "/*d*/"))"#, r#"(pat (lit str"\"s\""))"#,
    // other composites
    "(pat (path))", r#"(pat (path "a" "::" "b" (path_generics "<" ">")))"#,
    r#"(pat (pat "_"))"#, r#"(pat (F0 "_"))"#, "(pat (error))", "(pat (pat_array))",
    "(pat (pat_tuple))", "(pat (pat_object))", r#"(pat (expr_array "[" "]"))"#,
    r#"(pat (pat_array "[" (pat "_") "]") "z")"#,
    // arrays and tuples
    r#"(pat_array "[" "_" "]")"#, r#"(pat_array "(" ")")"#, r#"(pat_array "[" ".." ".." "]")"#,
    r#"(pat_array "[" (pat (pat_array "[" (pat "x") "]")) "]")"#,
    r#"(pat_tuple "(" ".." ")")"#, r#"(pat_tuple "(" ".." "," ")")"#, r#"(pat_tuple "(" "_" ")")"#,
    r#"(pat_tuple (path) "(" (pat "_") ")")"#, r#"(pat_tuple (path "A") (path "B") "(" ")")"#,
    r#"(pat_tuple (path "A"))"#, r#"(pat_tuple "A" "(" ")")"#, r#"(pat_tuple "(" (pat) ")")"#,
    r#"(pat (pat_tuple "(" (pat (pat_tuple "(" (pat (path "a")) ")")) ")"))"#,
    r#"(pat (pat_tuple "(" (pat (pat_tuple (path "A") "(" (pat "_") "," ")")) "," ")"))"#,
    r#"(pat (pat_tuple "(" (pat (pat_array "[" (pat "_") "," "]")) "," (pat (path "b")) ")"))"#,
];

#[rustfmt::skip]
const OBJECTS: &[&str] = &[
    // the name
    "(pat_object)", r#"(pat_object "{" "}")"#, r#"(pat_object (path "A"))"#,
    r#"(pat_object anon_key"\#")"#, r#"(pat_object anon_key"\#" (path "A") "{" "}")"#,
    r#"(pat_object (path "A") anon_key"\#" "{" "}")"#, r#"(pat_object "A" "{" "}")"#,
    r#"(pat_object (path) "{" "}")"#, r#"(pat_object (path "a" "::" "B") "/*c*/" "{" "}")"#,
    // a missing and a doubled brace
    r#"(pat_object anon_key"\#" "{")"#, r#"(pat_object (path "A") "{")"#,
    r#"(pat_object anon_key"\#" "{" obj_key"k")"#, r#"(pat_object anon_key"\#" "{" obj_key"k" ",")"#,
    r#"(pat_object anon_key"\#" "{" "/*c*/")"#, r#"(pat_object anon_key"\#" "{" obj_key"k" "//l" "\n")"#,
    r#"(pat_object anon_key"\#" "{" obj_key"k" "," "/*c*/")"#, r#"(pat_object anon_key"\#" "{" "}" "}")"#,
    r#"(pat_object anon_key"\#" "{" "}" "/*c*/" "}")"#,
    // keys and their patterns
    r#"(pat_object anon_key"\#" "{" obj_key"k" ":" "}")"#, r#"(pat_object anon_key"\#" "{" obj_key"k" ":")"#,
    r#"(pat_object anon_key"\#" "{" obj_key"k" ":" "_" "}")"#,
    r#"(pat_object anon_key"\#" "{" obj_key"k" ":" (F0) "}")"#,
    r#"(pat_object anon_key"\#" "{" obj_key"k" ":" ":" (pat "_") "}")"#,
    r#"(pat_object anon_key"\#" "{" obj_key"k" (pat "_") "}")"#,
    r#"(pat_object anon_key"\#" "{" obj_key"k" ":" (pat "x") "}")"#,
    r#"(pat_object anon_key"\#" "{" "k" "}")"#, r#"(pat_object anon_key"\#" "{" (pat "_") "}")"#,
    r#"(pat_object anon_key"\#" "{" ".." ":" (pat "_") "}")"#,
    // rest
    r#"(pat_object anon_key"\#" "{" ".." "}")"#, r#"(pat_object anon_key"\#" "{" ".." ".." "}")"#,
    r#"(pat_object anon_key"\#" "{" ".." "," obj_key"k" "," ".." "," "}")"#,
    r#"(pat (pat_object (path "A") "{" obj_key"k" ":" (pat (pat_object anon_key"\#" "{" obj_key"l" "," "}")) "}"))"#,
];

#[rustfmt::skip]
const BODIES: &[&str] = &[
    "(fn_args)", r#"(fn_args "(" "," "," ")")"#, r#"(fn_args "(" ".." ")")"#, r#"(fn_args "(" "," "/*c*/" ")")"#,
    r#"(fn_args "(" (pat (pat_tuple "(" (pat (path "a")) ")")) "," (pat (path "b")) "," ")")"#,
    "(tuple_body)", r#"(tuple_body "(" "a" ")")"#, r#"(tuple_body "(" (field) ")")"#,
    r#"(tuple_body "(" (field "a" "b") ")")"#, r#"(tuple_body "(" (field (path "a" " " "b")) ")")"#,
    r#"(tuple_body "(" (field "/*c*/") ")")"#, r#"(tuple_body "(" (pat "_") ")")"#,
    "(struct_body)", r#"(struct_body "{" "}")"#, r#"(struct_body "{" "a" "}")"#, r#"(struct_body "{" (field) "}")"#,
    r#"(struct_body "{" (field "a" ":" "b") "}")"#, r#"(struct_body "{" (field (F0 "a" ":" "b")) "," "}")"#,
    r#"(struct_body "{" (variant "a" (empty_body)) "}")"#,
    // lines of the script, and comments between them
    r#"(struct_body "{" "\n\n" (field "a") "\n\n\n" "," "\n" (field "b") "\n" "}")"#,
    r#"(struct_body "{" " " "//1" "\n" "//2" "\n\n" (field "a") "," " " "//3" "\n" "//4" "\n" "}")"#,
    r#"(struct_body "{" "/*1*/" "/*2*/" (field "/*3*/" "a" "/*4*/") "/*5*/" "," "/*6*/" "\n" "/*7*/" "}")"#,
    r#"(variant)"#, r#"(variant "V")"#, r#"(variant (empty_body))"#, r#"(variant (tuple_body "(" ")"))"#,
    r#"(variant "V" (struct_body "{" "}"))"#, r#"(variant "V" (struct_body "{" (field "a") "," (field "b") "}"))"#,
    r#"(variant "V" (tuple_body "(" (field "a") "," (field "b") ")") "/*c*/")"#,
    r#"(variant "V" "V" (empty_body))"#, r#"(variant "V" (fn_args "(" ")"))"#, r#"(variant "V" "=")"#,
    r#"(variant "V" (F0))"#, r#"(variant "V" (empty_body) (empty_body))"#, r#"(variant "V" (empty_body "x" "y"))"#,
    r#"(variant (attr "\#") "V" (empty_body))"#, r#"(variant "V" (tuple_body))"#, r#"(variant "V" (struct_body))"#,
    r#"(variant "V" (empty_body) "/*c*/") "z""#,
];

#[rustfmt::skip]
const ITEMS: &[&str] = &[
    "(item_struct)", r#"(item_struct "struct")"#, r#"(item_struct "struct" "S")"#, r#"(item_struct "S" (empty_body))"#,
    r#"(item_struct "struct" (empty_body))"#, r#"(item_struct "struct" (tuple_body "(" ")"))"#,
    r#"(item_struct "struct" (struct_body "{" "}"))"#, r#"(item_struct "struct" "S" (struct_body "{" "}"))"#,
    r#"(item_struct "struct" "S" "T" (empty_body))"#, r#"(item_struct "struct" "S" (block "{" "}"))"#,
    r#"(item_struct "struct" "S" ";")"#, r#"(item_struct "struct" "S" (empty_body) ";")"#,
    r#"(item_struct "struct" "S" (empty_body "x") "/*c*/") "z""#, r#"(item_struct "struct" "S" (F0))"#,
    r#"(item_struct (attr "\#") "struct" "S" (empty_body))"#, r#"(item_struct "struct" "S" (tuple_body))"#,
    r#"(item_struct "struct" " " "S" " " (struct_body "{" "\n" (field "a") "," "\n\n" (field "b") "\n" "}"))"#,
    "(item_enum)", r#"(item_enum "enum")"#, r#"(item_enum "enum" "E")"#, r#"(item_enum "E" "{" "}")"#,
    r#"(item_enum "enum" "E" "{" "}")"#, r#"(item_enum "enum" "E" "{")"#, r#"(item_enum "enum" "E" "}")"#,
    r#"(item_enum "enum" "E" "E" "{" "}")"#, r#"(item_enum "enum" "E" (variant "A" (empty_body)))"#,
    r#"(item_enum "enum" "E" "/*c*/")"#, r#"(item_enum "enum" "E" "//l" "\n")"#, r#"(item_enum "enum" "/*c*/" "\n\n")"#,
    r#"(item_enum "enum" "E" "{" "A" "}")"#, r#"(item_enum "enum" "E" "{" (variant) "}")"#,
    r#"(item_enum "enum" "E" "{" (field "a") "}")"#, r#"(item_enum "enum" "E" "{" (variant "A" (empty_body) "=") "}")"#,
    r#"(item_enum "enum" "E" "{" "\n\n" (variant "A" (empty_body)) "\n\n\n" "," "\n\n" (variant "B" (empty_body)) "\n" "}")"#,
    r#"(item_enum "enum" "E" "{" " " "//1" "\n" (variant "A" (empty_body)) "," " " "//2" "\n" "//3" "\n" "}")"#,
    r#"(item_enum "enum" "E" "{" (variant "A" (struct_body "{" (field "a") "//1" "\n" "," "}")) "," "//2" "\n" (variant "B" (tuple_body "(" (field "b") ")")) "}")"#,
];

/// In front of a `use`, which may stand alone.
#[rustfmt::skip]
const MODIFIERS: &[&str] = &[
    "", r#""/*c*/""#, r#""pub""#, r#""pub" "async""#, r#""pub" "const" "async""#,
    r#""pub" (mod_super "(" "super" ")")"#, r#""pub" (mod_self "(" "self" ")") "async""#,
    r#"(mod_crate "(" "crate" ")")"#, r#"(mod_crate "(" "crate" ")") "async" (mod_self "(" "self" ")")"#,
    r#"(mod_super "(" "super" ")") (mod_super "(" "super" ")")"#,
    r#""pub" (mod_in "(" "in" (path "a" "::" "b") ")")"#, r#"(mod_in "(" "in" (path) ")") "async""#,
    // what stands inside
    "(mod_super)", r#"(mod_super "super" ")")"#, r#"(mod_self "(" ")")"#, r#"(mod_self "(")"#,
    r#"(mod_self "(" "self")"#, r#"(mod_self "(" "self" "self" ")")"#, r#"(mod_crate "(" (F0 "a" " " "b") ")")"#,
    r#"(mod_crate "(" "crate" ")" ")")"#, r#"(mod_crate "(" "/*c*/" "x" "/*d*/" ")" "/*e*/")"#,
    "(mod_in)", r#"(mod_in "(" "super" ")")"#, r#"(mod_in "(" "in" ")")"#, r#"(mod_in "(" "in" "a" ")")"#,
    r#"(mod_in "(" "in" (path "a"))"#, r#"(mod_in "(" "in" (path "a") ")" "z")"#,
    r#"(mod_in "(" "/*c*/" "in" "/*d*/" (path "a" "/*e*/") "/*f*/" ")")"#,
    r#"(mod_in "(" "in" (path "a" (path_generics "<")) ")")"#,
    // any other node is written, but no Error
    r#"(F0 "x" " " "y") (path "a") ";""#, r#"(attr "\#") (empty_body)"#, r#"(modifiers "pub") "pub""#,
    "(error)", r#"(error "x")"#, r#""pub" (error) "async""#, r#"(mod_super "(" "super" ")") (error)"#,
];

#[rustfmt::skip]
const USES: &[&str] = &[
    "(item_use)", r#"(item_use "use")"#, r#"(item_use "a")"#, r#"(item_use "use" "a")"#, r#"(item_use "use" "*")"#,
    r#"(item_use "use" "::" "a" "::" "b" "::" "*")"#, r#"(item_use "use" "use" ";")"#,
    r#"(item_use "use" "a" "as")"#, r#"(item_use "use" "a" "as" "b")"#, r#"(item_use "use" "a" "as" "_")"#,
    r#"(item_use "use" "a" "as" "b" "c")"#, r#"(item_use "use" "as" "as")"#, r#"(item_use "use" "a" "as" (path "b"))"#,
    r#"(item_use "use" "a" "as" "/*c*/" "b" "//l" "\n")"#, r#"(item_use "use" "a" "as" "//l" "\n")"#,
    r#"(item_use "use" "a" "as" "b" (item_use_group "{" "}"))"#,
    r#"(item_use "use" (item_use_path "a" "/*c*/" "b") (path "c") (F0))"#,
    r#"(item_use "use" "a" "::" (item_use_group "{" (item_use_path "b") "}") "::" (item_use_group "{" "}") "c")"#,
    r#"(item_use (modifiers "pub") (modifiers "pub") "use")"#, r#"(item_use (attr "\#") "use")"#,
    r#"(item_use " " "use" " " "a" "::" "\n" (item_use_group "{" "\n" (item_use_path "b") "," " " (item_use_path "c") "\n" "}"))"#,
    "(item_use_path)", r#"(item_use_path "as")"#, r#"(item_use_path "as" "b")"#, r#"(item_use_path "a" "::" "*")"#,
    r#"(item_use_path (modifiers "pub") "a")"#,
    "(item_use_group)", r#"(item_use_group "{")"#, r#"(item_use_group "}")"#, r#"(item_use_group "{" "{" "}")"#,
    r#"(item_use_group "{" (item_use_path "a"))"#, r#"(item_use_group (item_use_path "a") "{" "}")"#,
    r#"(item_use_group "{" (item_use_path "a") "," (item_use_path "b"))"#, r#"(item_use_group "{" "a" "}")"#,
    r#"(item_use_group "{" (path "a") "}")"#, r#"(item_use_group "{" (F0 (item_use_path "a")) "}")"#,
    r#"(item_use_group "{" (item_use_path "a") ";" (item_use_path "b") "}")"#,
    r#"(item_use_group "{" (item_use_path "a") "}" (item_use_path "b"))"#,
    r#"(item_use_group "{" (item_use_path "a" "as" "b" "c") "}")"#,
    // groups inside groups lose their braces each by its own count
    r#"(item_use_group "{" (item_use_path (item_use_group "{" (item_use_path "a") "}")) "}")"#,
    r#"(item_use_group "{" (item_use_path (item_use_group "{" (item_use_path "a") "," (item_use_path "b") "}")) "," "}")"#,
    r#"(item_use_group "{" (item_use_path "a" (item_use_group "{" (item_use_path "b") "," "}")) "," (item_use_path (item_use_group "{" "}")) "}")"#,
];

#[rustfmt::skip]
const OTHER_CHARACTERS: &[&str] = &[
    r#"(path "é" "::" "漢字" "/*🦀\u{3000}*/" (path_generics "<" (path "ß") "\u{2028}" ">"))"#,
    r#"(struct_body "{" "// 注釈 \t\r" "\n" (field "名前") "," "\u{85}\n" "//\u{3000}x  " "\r\n" "}")"#,
    r#"(item_use "use" "\u{3000}" "𝒳" "::" (item_use_group "{" "/*\u{A0}*/" (item_use_path "Ω") "}"))"#,
    r#"(variant "V" "//\u{200B}" "\n" (tuple_body "(" "/* \n */" (field "é") ")"))"#,
    // trimmed by Unicode
    r#"(struct_body "{" "//\u{3000}" "\n" (field "a") "}")"#,
    r#"(item_enum "enum" "E" "{" "//x\u{A0} " "\n" "}")"#,
];

pub fn tables(all: &mut Vec<History>) {
    for (sort, table) in [
        ("paths", PATHS),
        ("patterns", PATTERNS),
        ("objects", OBJECTS),
        ("bodies", BODIES),
        ("items", ITEMS),
        ("uses", USES),
        ("other characters", OTHER_CHARACTERS),
    ] {
        all.extend(table.iter().map(|tree| one_run(sort, tree)));
    }
    for inside in MODIFIERS {
        let tree = format!(r#"(item_use (modifiers {inside}) "use")"#);
        all.push(one_run("modifiers", &tree));
    }
}

/// Nodes inside each other: good ones down to depth 64, and twelve levels with a bad
/// one at the bottom; a run on the first and one on a node half-way down.
pub fn depths(all: &mut Vec<History>) {
    for (open, close, bottoms) in [
        (
            r#"(pat (pat_array "[" "#,
            r#""]"))"#,
            [r#"(pat "_")"#, r#"(pat "x")"#],
        ),
        (
            r#"(pat (pat_tuple "(" "#,
            r#"")"))"#,
            [r#"".." ",""#, r#"".." "x""#],
        ),
        (
            r#"(pat (pat_object anon_key"\#" "{" obj_key"k" ":" "#,
            r#""}"))"#,
            [r#"(pat "_")"#, "(pat)"],
        ),
        (
            r#"(path (path_generics "<" "#,
            r#"">"))"#,
            [r#"(path "a")"#, r#"(path "a") ";""#],
        ),
        (
            r#"(item_use_path (item_use_group "{" "#,
            r#""}"))"#,
            [
                r#"(item_use_path "a") (item_use_path "b")"#,
                r#"(item_use_path "as" "b" "c")"#,
            ],
        ),
    ] {
        for (bottom, levels) in bottoms.into_iter().zip([31, 12]) {
            let tree = [&open.repeat(levels), bottom, &close.repeat(levels)].concat();
            let nodes = nodes(&tree);
            let steps = [nodes[0], nodes[nodes.len() / 2]].map(run_step);
            all.push(history("depth", &tree, steps.to_vec()));
        }
    }
}
