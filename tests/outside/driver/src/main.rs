//! Random histories through the exported functions, held against the oracle: every
//! answer, every byte of state and output, and every byte that must not change.
mod area;
mod bounds;
mod changed;
mod exported;
mod faults;
mod faulty_layouts;
mod faulty_runs;
mod histories;
mod huge;
mod large;
mod layouts;
mod lent;
mod noise;
mod reasons;
mod record;
mod recorder;
mod reference;
mod rules;
mod sample;
mod session;
mod tally;
mod why;

use std::ops::Range;
use std::path::PathBuf;
use std::process::exit;
use std::time::{Instant, SystemTime, UNIX_EPOCH};
use std::{env, thread};

use oracle::gen::Rng;

use exported::{Library, SAVETNUOK};
use faults::Fault;
use session::{Desk, Differs, Session};
use tally::Tally;

const HELP: &str =
    "outside [--calls N] [--seed N] [--save FOLDER] [--only GROUP:NUMBER[..NUMBER]] [--trace]
outside faults [--calls N] [--seed N]     each fault of a stand-in must be found
outside why COUNT [--seed N]              why so many lists go over several lines
outside sample FOLDER COUNT [--seed N]    histories with their answers, as files
outside record FOLDER                     the sessions that the gate's program `exported` replays";

/// Groups of histories; of a round of histories each gets so many.
const GROUPS: [(&str, usize); 24] = [
    ("calls", 8),
    ("trimcalls", 2),
    ("layout", 4),
    ("trim", 1),
    ("focus", 4),
    ("runs", 2),
    ("damaged", 6),
    ("rules", 12),
    ("exprs", 36),
    ("nests", 1),
    ("nodes", 4),
    ("openings", 12),
    ("rooms", 2),
    ("queues", 3),
    ("lent", 10),
    ("noise", 12),
    ("whole", 6),
    ("mixed", 10),
    ("queued", 2),
    ("broken", 12),
    ("sizes", 0),
    ("words", 0),
    ("tables", 0),
    ("big", 0),
];
/// One history in so many is of a tree of about 18,423 bytes, or with nearly 8,192
/// records.
const SELDOM: [(&str, usize); 2] = [("tables", 500), ("big", 4_000)];
/// A run stops at so many differences, a search for a fault at the first.
const MOST_DIFFERENCES: usize = 10;

struct Options {
    calls: u64,
    seed: u64,
    save: Option<PathBuf>,
    only: Option<(String, Range<u64>)>,
    trace: bool,
}

fn help() -> ! {
    eprintln!("{HELP}");
    exit(2)
}

fn number(text: &str) -> u64 {
    text.parse().unwrap_or_else(|_| help())
}

/// One number, or those from one up to another, without it.
fn numbers(text: &str) -> Range<u64> {
    match text.split_once("..") {
        Some((from, to)) if number(from) < number(to) => number(from)..number(to),
        Some(_) => help(),
        None => number(text)..number(text) + 1,
    }
}

fn options(args: &mut Vec<String>) -> Options {
    let now = SystemTime::now()
        .duration_since(UNIX_EPOCH)
        .expect("a clock");
    let mut options = Options {
        calls: 1_000_000,
        seed: now.as_nanos() as u64 % 1_000_000_000,
        save: None,
        only: None,
        trace: false,
    };
    let mut rest = std::mem::take(args).into_iter();
    while let Some(word) = rest.next() {
        let mut value = || rest.next().unwrap_or_else(|| help());
        match &word[..] {
            "--calls" => options.calls = number(&value()),
            "--seed" => options.seed = number(&value()),
            "--save" => options.save = Some(value().into()),
            "--only" => {
                let value = value();
                let (group, n) = value.split_once(':').unwrap_or_else(|| help());
                options.only = Some((group.into(), numbers(n)));
            }
            "--trace" => options.trace = true,
            word if word.starts_with("--") => help(),
            _ => args.push(word),
        }
    }
    options
}

/// The steps of a history of this group.
fn steps_of(s: &mut Session, rng: &mut Rng, group: &str, seed: u64, i: u64) -> Result<(), Differs> {
    match group {
        "calls" | "trimcalls" => histories::calls(s, rng, group, seed, i),
        "layout" | "trim" | "focus" | "runs" | "damaged" => {
            histories::traces(s, rng, group, seed, i)
        }
        "rules" | "exprs" | "nests" => histories::runs(s, rng, group, seed, i),
        "nodes" => {
            let family = ["runs", "damaged"][i as usize % 2];
            histories::runs(s, rng, family, seed, i)
        }
        "big" => histories::big(s, rng, seed, i),
        "openings" => histories::openings(s, rng, i),
        "rooms" => histories::rooms(s, rng, seed, i),
        "queues" => bounds::queues(s, rng),
        "lent" => changed::lent(s, rng, i % 2 == 1),
        "noise" => noise::noise(s, rng, i % 2 == 1),
        "whole" => layouts::whole(s, rng, seed, i),
        "mixed" => layouts::mixed(s, rng, seed, i),
        "queued" => layouts::queued(s, rng),
        "broken" => layouts::broken(s, rng, seed, i),
        "tables" => layouts::tables(s, rng, i),
        "sizes" => bounds::all_sizes(s, rng),
        _ => bounds::all_words(s),
    }
}

/// One history; the same group, seed and number give the same one.
fn history(
    library: Library,
    desk: &mut Desk,
    tally: &mut Tally,
    options: &Options,
    (group, i): (&'static str, u64),
) {
    if options.trace {
        eprintln!("--seed {} --only {group}:{i}", options.seed);
    }
    let mark = group.bytes().fold(options.seed, |n, b| {
        n.wrapping_mul(31).wrapping_add(b as u64)
    });
    let rng = &mut Rng::new(mark.wrapping_mul(1_000_003).wrapping_add(i));
    let mut s = Session::new(library, desk, tally, options.save.as_ref(), (group, i));
    // a difference stands in the tally
    let _ = steps_of(&mut s, rng, group, options.seed, i);
    s.done();
}

/// Rounds of all groups, until so many calls were made.
fn rounds(library: Library, options: &Options, calls: u64, most: usize) -> Tally {
    let (mut desk, mut tally) = (Desk::new(), Tally::default());
    for group in ["sizes", "words"] {
        history(library, &mut desk, &mut tally, options, (group, 0));
    }
    // a round, as numbers of groups
    let round: Vec<usize> = GROUPS
        .iter()
        .enumerate()
        .flat_map(|(at, (_, times))| vec![at; *times])
        .collect();
    let mut numbers = [0; GROUPS.len()];
    for made in 0.. {
        if tally.calls >= calls || tally.differences.len() >= most {
            break;
        }
        let at = round[made % round.len()];
        history(
            library,
            &mut desk,
            &mut tally,
            options,
            (GROUPS[at].0, numbers[at]),
        );
        numbers[at] += 1;
        for (group, often) in SELDOM {
            if made % often == often / 2 {
                let at = (group, (made / often) as u64);
                history(library, &mut desk, &mut tally, options, at);
            }
        }
    }
    tally
}

/// Four threads at once: the library keeps nothing between calls or beside them.
fn threads(library: Library, options: &Options) -> Tally {
    let parts = thread::scope(|scope| {
        let one = |n: u64| {
            let options = Options {
                seed: options.seed.wrapping_add(7_777 * (n + 1)),
                save: options.save.clone(),
                only: None,
                ..*options
            };
            move || rounds(library, &options, options.calls / 40, MOST_DIFFERENCES)
        };
        let all: Vec<_> = (0..4).map(|n| scope.spawn(one(n))).collect();
        all.into_iter()
            .map(|t| t.join().expect("a thread that ends"))
            .collect::<Vec<_>>()
    });
    let mut sum = Tally::default();
    parts.into_iter().for_each(|part| sum.add(part));
    sum
}

fn only(options: &Options, group: &str, numbers: Range<u64>) -> bool {
    let begun = Instant::now();
    let (mut desk, mut tally) = (Desk::new(), Tally::default());
    let names = GROUPS.iter().map(|g| g.0);
    let name = names
        .into_iter()
        .find(|n| *n == group)
        .unwrap_or_else(|| help());
    let many = numbers.end - numbers.start > 1;
    for number in numbers {
        if tally.differences.len() < MOST_DIFFERENCES {
            history(SAVETNUOK, &mut desk, &mut tally, options, (name, number));
        }
    }
    if many {
        tally.show();
    }
    summed_up(&tally, "", begun)
}

/// The differences, and how much was compared; were there none?
fn summed_up(tally: &Tally, aside: &str, begun: Instant) -> bool {
    for difference in tally.differences.iter().take(MOST_DIFFERENCES) {
        println!("DIFFERS {difference}");
    }
    println!(
        "  {} openings, {} calls, {} runs and {} layouts compared,{aside} {} beside rune's own two files, {} layouts of these; {} differ ({} s)",
        tally.opens,
        tally.calls - tally.runs - tally.layouts,
        tally.runs,
        tally.layouts,
        tally.with_rust,
        tally.layouts_with_rust,
        tally.differences.len(),
        begun.elapsed().as_secs()
    );
    tally.differences.is_empty()
}

fn compare(options: &Options) -> bool {
    let begun = Instant::now();
    println!("random histories, --seed {}", options.seed);
    if let Some((group, numbers)) = &options.only {
        return only(options, group, numbers.clone());
    }
    let mut tally = rounds(SAVETNUOK, options, options.calls, MOST_DIFFERENCES);
    huge::huge(SAVETNUOK, &mut tally);
    let alone = tally.calls;
    tally.add(threads(SAVETNUOK, options));
    tally.show();
    let missed = tally.never_reached();
    missed
        .iter()
        .for_each(|what| println!("NEVER REACHED {what}"));
    let aside = format!(" {} in four threads at once,", tally.calls - alone);
    summed_up(&tally, &aside, begun) && missed.is_empty()
}

/// Each fault must be found, and the stand-in without one must pass.
fn find_faults(options: &Options) -> bool {
    println!(
        "a stand-in with one fault at a time, --seed {}",
        options.seed
    );
    let mut good = true;
    for fault in faults::ALL.iter().copied() {
        let options = Options {
            save: None,
            only: None,
            ..*options
        };
        // without a fault nothing ends the search
        let calls = options.calls / if fault == Fault::None { 10 } else { 1 };
        let tally = rounds(faults::with(fault), &options, calls, 1);
        let first = tally.differences.first();
        good &= first.is_some() == (fault != Fault::None);
        let what = first.map_or("nothing found".into(), |d| d.clone());
        println!(
            "  {:<34} {what} ({} calls)",
            format!("{fault:?}"),
            tally.calls
        );
    }
    good
}

fn main() {
    let mut args: Vec<String> = env::args().skip(1).collect();
    let options = options(&mut args);
    let args: Vec<&str> = args.iter().map(|a| &a[..]).collect();
    let good = match args[..] {
        [] => compare(&options),
        ["faults"] => find_faults(&options),
        ["why", count] => why::compare(number(count), options.seed),
        ["sample", folder, count] => {
            sample::write(folder.as_ref(), options.seed, number(count));
            true
        }
        ["record", folder] => {
            record::write(folder.as_ref());
            true
        }
        _ => help(),
    };
    exit(!good as i32);
}
