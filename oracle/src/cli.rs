//! The command line.
use std::path::Path;
use std::process::exit;
use std::{env, fs};

use crate::call::{layout_step, run_step};
use crate::case::{self, Case, ROOM};
use crate::compare::{self, Stats};
use crate::gen::{self, FAMILIES};
use crate::kinds::KIND_NAME;
use crate::{edge, opening, readings, record, selftest, speed, sx};

const HELP: &str = "oracle COMMAND [--cap N]
  selftest                     document 01's small sessions and document 03's readings
  check SRC TREE               opening checks
  show SRC TREE                the tree in words
  build SX SRC TREE            a tree from words (src/sx.rs)
  calls SRC TREE STEPS         the steps of a case file, one by one
  run NODE SRC TREE            one rule on one node, fresh engine
  layout SRC TREE              whole layout
  raw SRC TREE                 whole layout, the output's bytes only
  trace SRC TREE FILE          whole layout, its calls as records
  gen FAMILY SEED COUNT DIR    cases as files; also `gen edge DIR`, `gen readings DIR`
  pack FAMILY SEED COUNT FILE  the same cases in one file
  verify DIR                   every case again, against its .expect
  stats FAMILY SEED COUNT      what a family holds; each layout counts as its calls
  compare engines FAMILY SEED COUNT   output.rs against document 01's words, call by call
  compare opening SEED COUNT          the opening checks, done in two ways
  swallow FAMILY SEED COUNT    layouts with text behind a line comment on its line
  record trees FILE            recorded trees
  record calls FILE            recorded histories of calls
  record runs FILE             recorded histories with layout runs
  record planted FILE          histories of which one number or byte each is wrong
  replay calls|runs FILE       a recorded file's steps once more, against what it holds
  bench SRC TREE [ROUNDS]      speed of the whole layout
  cover SEED COUNT             lines of format.rs reached (build with --features trace)
  cover runs                   lines of the rules that the recorded runs reach
Families:";

fn help() -> ! {
    eprintln!("{HELP}");
    for (name, what) in FAMILIES {
        eprintln!("  {name:10} {what}");
    }
    exit(2)
}

fn number<T: std::str::FromStr>(text: &str) -> T {
    text.parse().unwrap_or_else(|_| help())
}

fn read(path: &str) -> Vec<u8> {
    fs::read(path).unwrap_or_else(|e| {
        eprintln!("{path}: {e}");
        exit(2)
    })
}

fn write(path: impl AsRef<Path>, bytes: impl AsRef<[u8]>) {
    let path = path.as_ref();
    fs::write(path, bytes).unwrap_or_else(|e| {
        eprintln!("{}: {e}", path.display());
        exit(2)
    })
}

/// Takes an option with its value out of the arguments.
fn option(args: &mut Vec<String>, name: &str) -> Option<String> {
    let at = args.iter().position(|a| a == name)?;
    args.remove(at);
    if at == args.len() {
        help();
    }
    Some(args.remove(at))
}

pub fn main() {
    let mut args: Vec<String> = env::args().skip(1).collect();
    let cap = option(&mut args, "--cap").map_or(ROOM, |n| number(&n));
    let args: Vec<&str> = args.iter().map(|a| a.as_str()).collect();
    if !(on_files(&args, cap) || on_families(&args) || on_recorded(&args)) {
        help();
    }
}

/// One source and tree, from files. Each of these says whether it knows the command.
fn on_files(args: &[&str], cap: usize) -> bool {
    match *args {
        ["check", s, t] => match opening::open(&read(s), &read(t)) {
            Ok(tree) => println!("open ok {}", tree.records.len()),
            Err(r) => println!("open {r}"),
        },
        ["show", s, t] => show(&read(s), &read(t)),
        ["build", words, s, t] => {
            let (source, records) = sx::build(&String::from_utf8_lossy(&read(words)));
            write(s, source);
            write(t, opening::join(&records));
        }
        ["calls", s, t, steps] => steps_on(s, t, read(steps), cap),
        ["run", n, s, t] => steps_on(s, t, run_step(number(n)), cap),
        ["layout", s, t] => steps_on(s, t, layout_step(), cap),
        ["raw", s, t] => print!("{}", whole_layout(s, t, cap).output),
        ["trace", s, t, file] => write(file, whole_layout(s, t, cap).trace),
        ["bench", s, t] => speed::bench(&read(s), &read(t), 300),
        ["bench", s, t, rounds] => speed::bench(&read(s), &read(t), number(rounds)),
        _ => return false,
    }
    true
}

/// Families of cases.
fn on_families(args: &[&str]) -> bool {
    match *args {
        ["gen", "edge", dir] => write_cases("edge", edge::cases().into_iter(), dir),
        ["gen", "readings", dir] => {
            let cases = readings::all().map(|r| (r.name.to_string(), r.case()));
            write_cases("readings", cases, dir);
        }
        ["gen", family, seed, count, dir] => {
            let named = |(i, case)| (format!("{seed}-{i:05}"), case);
            let cases = family_cases(family, seed, count).enumerate().map(named);
            write_cases(family, cases, dir);
        }
        ["pack", family, seed, count, file] => pack(family_cases(family, seed, count), file),
        ["verify", dir] => exit_on(verify(dir)),
        ["stats", family, seed, count] => {
            let mut stats = Stats::default();
            for (i, case) in family_cases(family, seed, count).enumerate() {
                stats.add(&format!("{family} {i}"), &case);
            }
            stats.show(family);
        }
        ["compare", "engines", family, seed, count] => {
            exit_on(compare::engines(family, family_cases(family, seed, count)))
        }
        ["swallow", family, seed, count] => {
            compare::swallow(family, family_cases(family, seed, count))
        }
        #[cfg(feature = "trace")]
        ["cover", "runs"] => {
            record::make_runs();
            crate::cover::report(crate::cover::NO_RULES);
        }
        #[cfg(feature = "trace")]
        ["cover", seed, count] => cover(seed, count),
        _ => return false,
    }
    true
}

/// What needs no input.
fn on_recorded(args: &[&str]) -> bool {
    match *args {
        ["selftest"] => exit_on(selftest::run()),
        ["compare", "opening", seed, count] => {
            exit_on(compare::openings(number(seed), number(count)))
        }
        ["record", "trees", file] => write(file, record::trees()),
        ["record", "calls", file] => write(file, record::calls()),
        ["record", "runs", file] => write(file, record::runs()),
        ["record", "planted", file] => write(file, record::planted()),
        ["replay", "calls", file] => exit_on(record::replay(&read(file), false)),
        ["replay", "runs", file] => exit_on(record::replay(&read(file), true)),
        _ => return false,
    }
    true
}

fn exit_on(good: bool) {
    if !good {
        exit(1);
    }
}

fn family_cases<'a>(
    family: &'a str,
    seed: &str,
    count: &str,
) -> impl Iterator<Item = Case> + use<'a> {
    let (seed, count) = (number(seed), number(count));
    (0..count).map(move |i| gen::make(family, seed, i).unwrap_or_else(|| help()))
}

fn steps_on(source: &str, tree: &str, steps: Vec<u8>, cap: usize) {
    let case = Case {
        cap,
        ..Case::new(read(source), read(tree), steps)
    };
    print!("{}", case::run(&case).expect);
}

/// A whole layout of two files; a refusal ends the program.
fn whole_layout(source: &str, tree: &str, cap: usize) -> case::Outcome {
    let case = Case {
        cap,
        ..Case::new(read(source), read(tree), layout_step())
    };
    let outcome = case::run(&case);
    if let Some(r) = outcome.refusals.first() {
        eprintln!("{r}");
        exit(1);
    }
    outcome
}

/// Writes each case's files, and says what they hold.
fn write_cases(family: &str, cases: impl Iterator<Item = (String, Case)>, dir: &str) {
    fs::create_dir_all(dir).expect("the folder can be made");
    let mut stats = Stats::default();
    for (name, case) in cases {
        let name = format!("{family}-{name}");
        let outcome = stats.add(&name, &case);
        let file = |ext: &str, bytes: &[u8]| {
            write(Path::new(dir).join(format!("{name}.{ext}")), bytes);
        };
        file("src", &case.source);
        file("tree", &case.tree);
        file("calls", &case.steps);
        file("expect", outcome.expect.as_bytes());
        if case.is_whole_layout() && outcome.refusals.is_empty() {
            file("trace", &outcome.trace);
        }
    }
    stats.show(family);
}

fn pack(cases: impl Iterator<Item = Case>, file: &str) {
    let mut bytes = vec![];
    for case in cases {
        let expect = case::run(&case).expect;
        for part in [&case.source, &case.tree, &case.steps, expect.as_bytes()] {
            bytes.extend_from_slice(&(part.len() as u32).to_le_bytes());
            bytes.extend_from_slice(part);
        }
        bytes.extend_from_slice(&(case.cap as u32).to_le_bytes());
    }
    write(file, bytes);
}

/// Says whether all cases give what they did.
fn verify(dir: &str) -> bool {
    let entries = fs::read_dir(dir).unwrap_or_else(|_| help());
    let mut paths: Vec<_> = entries.map(|e| e.expect("an entry").path()).collect();
    paths.retain(|p| p.extension().is_some_and(|e| e == "expect"));
    paths.sort();
    let mut different = 0;
    for path in &paths {
        let want = fs::read_to_string(path).expect("text");
        let part = |ext: &str| fs::read(path.with_extension(ext)).expect("a case's file");
        let cap = want.lines().next().and_then(|l| l.strip_prefix("cap "));
        let case = Case {
            cap: number(cap.unwrap_or("")),
            ..Case::new(part("src"), part("tree"), part("calls"))
        };
        if case::run(&case).expect != want {
            different += 1;
            println!("differs: {}", path.display());
        }
    }
    println!("{} cases, {different} differ", paths.len());
    different == 0
}

fn show(source: &[u8], tree: &[u8]) {
    let records = opening::split(tree);
    let mut ends: Vec<usize> = vec![];
    for (i, r) in records.list.iter().enumerate() {
        while ends.last().is_some_and(|end| *end <= i) {
            ends.pop();
        }
        let name = match KIND_NAME[r.kind as usize] {
            "" => "?",
            name => name,
        };
        let what = if r.is_leaf() {
            let text = source.get(r.start as usize..r.end as usize);
            text.map_or("no such span".into(), |t| {
                format!("{:?}", String::from_utf8_lossy(t))
            })
        } else {
            format!("[{}]", r.below)
        };
        let indent = "  ".repeat(ends.len());
        println!(
            "{i:5} {:02X} {indent}{name} {}..{} {what}",
            r.kind, r.start, r.end
        );
        if r.below > 0 {
            ends.push(i + 1 + r.below as usize);
        }
    }
    if records.cut {
        println!("the last record is cut");
    }
}

/// Which lines of format.rs the families, the edges and the readings reach.
#[cfg(feature = "trace")]
fn cover(seed: &str, count: &str) {
    for (family, _) in FAMILIES.iter().filter(|f| f.0 != "big") {
        for case in family_cases(family, seed, count) {
            case::run(&case);
        }
    }
    let by_hand = edge::cases().into_iter().map(|c| c.1);
    for case in by_hand.chain(readings::all().map(|r| r.case())) {
        case::run(&case);
    }
    crate::cover::report(&[]);
}
