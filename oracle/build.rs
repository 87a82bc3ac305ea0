//! Copies rune's two files to OUT_DIR, byte for byte, and writes the tables that
//! the stand-ins lean on: which lines of format.rs belong to which function, and
//! what each kind of kinds.txt is in the Rust.
use std::path::{Path, PathBuf};
use std::{env, fs};

fn main() {
    println!("cargo:rerun-if-changed=build.rs");
    println!("cargo:rerun-if-changed=kinds.txt");
    println!("cargo:rerun-if-env-changed=RUNE_SRC");
    let rune = match env::var("RUNE_SRC") {
        Ok(folder) => PathBuf::from(folder),
        Err(_) => give_up("RUNE_SRC is not set"),
    };
    let out = PathBuf::from(env::var("OUT_DIR").unwrap());
    // The sizes are rune 0.14.2's: another version is no oracle for this port.
    copy(&rune, "output.rs", 11_403, &out);
    let format = copy(&rune, "format.rs", 39_604, &out);
    fs::write(out.join("lines.rs"), lines(&format)).unwrap();
    let table = fs::read_to_string("kinds.txt").unwrap();
    let kinds: Vec<KindLine> = table.lines().filter_map(kind_line).collect();
    fs::write(out.join("kinds.rs"), kinds_table(&kinds)).unwrap();
    fs::write(out.join("object_key.rs"), object_key(&kinds)).unwrap();
}

/// One line, instead of a panic: what is missing, and what to set.
fn give_up(why: &str) -> ! {
    eprintln!("oracle: {why}; set RUNE_SRC to the folder that holds src/fmt/output.rs and src/fmt/format.rs of rune 0.14.2");
    std::process::exit(1)
}

fn copy(rune: &Path, name: &str, size: usize, out: &Path) -> String {
    let from = rune.join("src/fmt").join(name);
    println!("cargo:rerun-if-changed={}", from.display());
    let text = match fs::read_to_string(&from) {
        Ok(text) if text.len() == size => text,
        Ok(_) => give_up(&format!("{} is not rune 0.14.2's", from.display())),
        Err(e) => give_up(&format!("{}: {e}", from.display())),
    };
    fs::write(out.join(name), &text).unwrap();
    text
}

/// The functions of format.rs, each with its first and last line.
fn functions(text: &str) -> Vec<(String, usize, usize)> {
    let mut found: Vec<(String, usize, usize)> = vec![];
    let mut inside = false;
    for (n, line) in text.lines().enumerate() {
        let head = line.strip_prefix("pub(super) ").unwrap_or(line);
        if let Some(rest) = head.strip_prefix("fn ") {
            let name = rest
                .chars()
                .take_while(|c| c.is_alphanumeric() || *c == '_');
            found.push((name.collect(), n + 1, 0));
            inside = true;
        }
        if line == "}" && inside {
            found.last_mut().unwrap().2 = n + 1;
            inside = false;
        }
    }
    found
}

fn lines(text: &str) -> String {
    let all = functions(text);
    let mut code = String::from("/// The name under which the compiler knows rune's file.\n");
    code += "pub const FORMAT_RS: &str = concat!(env!(\"OUT_DIR\"), \"/format.rs\");\n";
    for (constant, name) in [("INNER_EXPR", "inner_expr"), ("PAT", "pat")] {
        let (_, first, last) = all.iter().find(|f| f.0 == name).unwrap();
        code +=
            &format!("pub const {constant}: core::ops::RangeInclusive<u32> = {first}..={last};\n");
    }
    code += "#[cfg(feature = \"trace\")]\n";
    code += &format!("pub static FUNCTIONS: &[(&str, usize, usize)] = &{all:?};\n");
    code += "#[cfg(feature = \"trace\")]\n";
    code += "pub static FORMAT: &str = include_str!(concat!(env!(\"OUT_DIR\"), \"/format.rs\"));\n";
    code
}

/// A line of kinds.txt: NUMBER NAME RUST-KIND [class=C] [semi] [key]
struct KindLine {
    number: usize,
    name: String,
    rust: String,
    class: &'static str,
    semi: bool,
    key: bool,
}

fn kind_line(line: &str) -> Option<KindLine> {
    let line = line.split('#').next().unwrap().trim();
    let mut words = line.split_whitespace();
    let number = usize::from_str_radix(words.next()?, 16).expect(line);
    let name = words.next().expect(line).to_string();
    let rust = words.next().expect(line).to_string();
    let (mut class, mut semi, mut key) = ("Expr", false, false);
    for word in words {
        match word {
            "class=Item" => class = "Item",
            "class=Const" => class = "Const",
            "class=Local" => class = "Local",
            "class=Other" => class = "Expr",
            "semi" => semi = true,
            "key" => key = true,
            _ => panic!("{line}"),
        }
    }
    Some(KindLine {
        number,
        name,
        rust,
        class,
        semi,
        key,
    })
}

fn kinds_table(kinds: &[KindLine]) -> String {
    let mut kind_of = vec!["Kind::Unknown".to_string(); 256];
    let mut class_of = vec!["(false, NodeClass::Expr)".to_string(); 256];
    let mut name_of = vec![""; 256];
    let mut constants = String::new();
    for k in kinds {
        assert!(name_of[k.number].is_empty(), "{:02X} twice", k.number);
        name_of[k.number] = &k.name;
        constants += &format!(
            "    pub const {}: u8 = {};\n",
            k.name.to_uppercase(),
            k.number
        );
        class_of[k.number] = format!("({}, NodeClass::{})", k.semi, k.class);
        // Document 01 leaves both macro-call rules and the skip attribute out:
        // the Rust must never meet the kinds that they ask for.
        if k.rust != "ExprMacroCall" && k.rust != "TokenStream" {
            kind_of[k.number] = format!("Kind::{}", k.rust);
        }
    }
    assert_eq!(kind_of[0], "Kind::Whitespace");
    assert_eq!(kind_of[1], "Kind::Comment");
    assert!(kind_of[2].starts_with("Kind::MultilineComment"));
    let mut code = String::from("use crate::ast::{Delimiter, Kind};\n");
    code += "use crate::grammar::NodeClass;\n";
    code += &format!(
        "pub static KIND_OF: [Kind; 256] = [{}];\n",
        kind_of.join(", ")
    );
    code += &format!(
        "pub static CLASS_OF: [(bool, NodeClass); 256] = [{}];\n",
        class_of.join(", ")
    );
    code += &format!("pub static KIND_NAME: [&str; 256] = {name_of:?};\n");
    code += &format!("#[allow(dead_code)]\npub mod k {{\n{constants}}}\n");
    code
}

/// The pattern `object_key!()` of format.rs: the kinds that kinds.txt marks.
fn object_key(kinds: &[KindLine]) -> String {
    let keys: Vec<String> = kinds
        .iter()
        .filter(|k| k.key)
        .map(|k| format!("$crate::ast::Kind::{}", k.rust))
        .collect();
    format!(
        "macro_rules! object_key {{ () => {{ {} }} }}\npub(crate) use object_key;\n",
        keys.join(" | ")
    )
}
