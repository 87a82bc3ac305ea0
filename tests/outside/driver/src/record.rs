//! The sessions that the gate's program `exported` replays. The library here is the
//! stand-in without a fault: what is recorded comes from the reference alone.
use std::collections::BTreeMap;
use std::fs;
use std::path::Path;

use oracle::call::run_step;
use oracle::compare;
use oracle::gen::{self, Rng};
use oracle::grammar::Rec;
use oracle::opening::join;

use crate::changed;
use crate::faults::{self, Fault};
use crate::histories::{needed, with_runs};
use crate::lent::{self, of_comment, put_word, STATE};
use crate::noise;
use crate::recorder::{self, Recorder, Wrong};
use crate::reference::Script;
use crate::rules::records_of;
use crate::session::{Desk, Differs, Session};
use crate::tally::Tally;
use crate::why;

type Made<'a> = &'a dyn Fn(&mut Session) -> Result<(), Differs>;

/// The file so far.
struct File {
    desk: Desk,
    tally: Tally,
    sessions: usize,
    steps: usize,
    bytes: Vec<u8>,
    answers: BTreeMap<(usize, u64), usize>,
}

impl File {
    fn new() -> Self {
        Self {
            desk: Desk::new(),
            tally: Tally::default(),
            sessions: 0,
            steps: 0,
            bytes: vec![],
            answers: BTreeMap::new(),
        }
    }

    /// One session, unless it takes more than so many bytes.
    fn add(&mut self, name: &'static str, number: u64, most: usize, made: Made) {
        let library = faults::with(Fault::None);
        let mut s = Session::new(
            library,
            &mut self.desk,
            &mut self.tally,
            None,
            (name, number),
        );
        s.recorder = Some(Recorder::default());
        assert!(made(&mut s).is_ok(), "the stand-in is the reference");
        let recorder = s.recorder.take().expect("a recorder");
        if recorder.too_large || recorder.bytes.len() > most {
            return;
        }
        self.sessions += 1;
        self.steps += recorder.steps;
        self.bytes.extend(recorder.bytes);
        for (answer, n) in recorder.answers {
            *self.answers.entry(answer).or_default() += n;
        }
    }

    /// Sessions one after the other, until they take so many bytes.
    fn fill(
        &mut self,
        name: &'static str,
        bytes: usize,
        made: &dyn Fn(&mut Session, u64) -> Result<(), Differs>,
    ) {
        let end = self.bytes.len() + bytes;
        for number in 0.. {
            if self.bytes.len() >= end {
                break;
            }
            self.add(name, number, bytes / 4, &|s| made(s, number));
        }
    }

    fn file(&self) -> Vec<u8> {
        [&(self.steps as u32).to_le_bytes()[..], &self.bytes].concat()
    }

    fn of(&self, kind: usize, number: u64) -> usize {
        self.answers.get(&(kind, number)).copied().unwrap_or(0)
    }
}

pub fn write(folder: &Path) {
    let mut file = File::new();
    file.add("openings", 0, 60_000, &openings);
    file.add("words", 0, 60_000, &words);
    file.add("pairs", 0, 60_000, &pairs);
    file.add("lengths", 0, 60_000, &lengths);
    file.add("queues", 0, 60_000, &queues);
    file.fill("calls", 40_000, &|s, i| family(s, "calls", i));
    file.fill("rules", 60_000, &|s, i| family(s, "rules", i));
    file.fill("exprs", 60_000, &|s, i| family(s, "exprs", i));
    file.fill("random openings", 20_000, &random_opening);
    file.fill("lent", 60_000, &|s, i| {
        changed::lent(s, &mut Rng::new(i), false)
    });
    file.fill("noise", 30_000, &|s, i| {
        noise::noise(s, &mut Rng::new(i), false)
    });
    show(&file);
    save(folder, "sessions.bin", &file);

    let mut planted = File::new();
    for (number, wrong) in [Wrong::Answer, Wrong::State, Wrong::Buffer]
        .into_iter()
        .enumerate()
    {
        planted.add("planted", number as u64, 10_000, &|s| plant(s, wrong));
    }
    save(folder, "planted.bin", &planted);
    save_reasons(folder);
}

/// The questions to `savetnuok_why` stand in a file of their own.
fn save_reasons(folder: &Path) {
    let recorder = why::recorded();
    assert!(!recorder.too_large, "the program has no room for it");
    let counts: Vec<String> = recorder
        .answers
        .iter()
        .map(|((_, number), n)| format!("{number}: {n}"))
        .collect();
    let bytes = [&(recorder.steps as u32).to_le_bytes()[..], &recorder.bytes].concat();
    println!(
        "reasons.bin: {} steps, {} bytes; answers {}",
        recorder.steps,
        bytes.len(),
        counts.join(", ")
    );
    fs::write(folder.join("reasons.bin"), bytes).expect("a file can be written");
}

fn save(folder: &Path, name: &str, file: &File) {
    let bytes = file.file();
    println!(
        "{name}: {} sessions, {} steps, {} bytes",
        file.sessions,
        file.steps,
        bytes.len()
    );
    assert!(bytes.len() < 500_000, "the program has no room for it");
    fs::write(folder.join(name), bytes).expect("a file can be written");
}

/// How each function answered; one that is lost is noticed.
fn show(file: &File) {
    let functions = [
        ("open", recorder::OPEN, &[0, 1, 2, 3, 5, 7][..]),
        (
            "call",
            recorder::CALL,
            &[0, 1, 2, 3, 4, 5, 6, 7, 10, 11, 12],
        ),
        (
            "run",
            recorder::RUN,
            &[0, 1, 2, 3, 4, 5, 6, 7, 8, 9, 10, 11],
        ),
    ];
    println!(
        "       {}",
        (0..13).map(|n| format!("{n:6}")).collect::<String>()
    );
    for (name, kind, asked) in functions {
        let counts: String = (0..13).map(|n| format!("{:6}", file.of(kind, n))).collect();
        println!("  {name:5}{counts}");
        for number in asked {
            assert!(file.of(kind, *number) > 0, "{name} never answers {number}");
        }
    }
}

// ---- by hand

fn leaf(kind: u8, start: u32, end: u32) -> Rec {
    Rec::new(kind, start, end, 0)
}

/// A path of two names and a comment, in eight bytes; no character begins at 1.
fn path() -> Script {
    let records = [
        Rec::new(0xB0, 0, 8, 3),
        leaf(3, 0, 2),
        leaf(2, 2, 7),
        leaf(3, 7, 8),
    ];
    Script::new("é/*k*/z".into(), join(&records))
}

/// Sources and trees that opening refuses, and those at a bound that it does not.
fn scripts() -> Vec<Script> {
    let nested = |levels: u32| -> Vec<u8> {
        let one = |i| Rec::new(0x80, 0, 1, levels - 1 - i);
        join(&(0..levels).map(one).collect::<Vec<_>>())
    };
    let equal = |n: usize| join(&vec![leaf(3, 0, 0); n]);
    let text = |text: &str, records: &[Rec]| Script::new(text.into(), join(records));
    vec![
        path(),
        Script::new(vec![], vec![]),
        Script::new(vec![b'x'; 65_536], equal(1)),
        Script::new(vec![b'x'; 65_537], equal(1)),
        Script::new(vec![0xFF; 65_537], vec![3]),
        Script::new(b"ab\xC3".to_vec(), equal(1)),
        Script::new(b"\xED\xA0\x80".to_vec(), vec![3]),
        text("a", &[leaf(3, 0, 1), leaf(3, 0, 1)]),
        text("a", &[leaf(3, 0, 2)]),
        text("é", &[leaf(3, 0, 2), leaf(3, 1, 2)]),
        Script::new(b"a".to_vec(), vec![3, 0, 0]),
        Script::new(vec![], equal(8_192)),
        Script::new(vec![], equal(8_193)),
        Script::new(b"x".to_vec(), nested(64)),
        Script::new(b"x".to_vec(), nested(65)),
    ]
}

/// Each opened over states of several lengths, then called and run whatever opening said.
fn openings(s: &mut Session) -> Result<(), Differs> {
    for script in scripts() {
        s.lend(&script);
        s.lend_room(12);
        for len in [STATE, 0, STATE - 1, STATE + 1] {
            s.lend_state(vec![0xA5; len]);
            s.open(&script)?;
            s.call(&script, &[0x08])?;
            s.run(&script, 0)?;
        }
        let mut state = vec![0; STATE];
        put_word(&mut state, lent::LENGTH, 99);
        put_word(&mut state, lent::INDENT, 99);
        s.lend_state(state);
        s.call(&script, &[])?;
        s.run(&script, 0)?;
    }
    Ok(())
}

const ROOM: u32 = 24;

/// Two comments wait, and every word has a number of its own.
fn base() -> Vec<u8> {
    let mut state = vec![0; STATE];
    for (number, value) in [1, 3, 1, 0, 2, 0, 2, 0, 2, 7, 1, 0, 0, 2, 0, 1]
        .into_iter()
        .enumerate()
    {
        put_word(&mut state, number, value);
    }
    state
}

/// A call that goes where nothing is wrong, one that is none, and a run, each on that state.
fn asked(s: &mut Session, script: &Script, state: &[u8]) -> Result<(), Differs> {
    for step in [&[0x08][..], &[0x0C], &[0x0B], &run_step(0), &run_step(9)] {
        s.lend_state(state.to_vec());
        s.step(script, step)?;
    }
    Ok(())
}

/// One word of the state at a time.
fn words(s: &mut Session) -> Result<(), Differs> {
    let flag: &[u32] = &[0, 1, 2, 256, u32::MAX];
    let place: &[u32] = &[0, 1, 2, 7, 8, 9, u32::MAX];
    let changes: [(usize, &[u32]); 16] = [
        (lent::LENGTH, &[0, ROOM, ROOM + 1, u32::MAX]),
        (lent::LINES, &[0, u32::MAX]),
        (lent::USE_LINES, flag),
        (lent::WS, flag),
        (lent::INDENT, &[0, 64, 65, 255, 256, 320, u32::MAX]),
        (lent::FINISHED, flag),
        (lent::COUNT, &[0, 1, 3, 256, 257, u32::MAX]),
        (lent::ZERO, &[7]),
        (of_comment(0, 0), place),
        (of_comment(0, 1), place),
        (of_comment(0, 2), &[2, u32::MAX]),
        (of_comment(0, 3), flag),
        (of_comment(1, 0), place),
        (of_comment(1, 1), place),
        (of_comment(1, 3), flag),
        (of_comment(2, 3), &[2]),
    ];
    let script = path();
    s.lend(&script);
    s.lend_room(ROOM as usize);
    for (number, values) in changes {
        for value in values {
            let mut state = base();
            put_word(&mut state, number, *value);
            asked(s, &script, &state)?;
        }
    }
    // the last comment of a full queue
    for (number, value) in [(1, 9), (0, 1), (3, 2), (3, 1)] {
        let mut state = base();
        put_word(&mut state, lent::COUNT, 256);
        put_word(&mut state, of_comment(255, number), value);
        asked(s, &script, &state)?;
    }
    Ok(())
}

/// Two words wrong at once: which refusal comes first.
fn pairs(s: &mut Session) -> Result<(), Differs> {
    let wrong = [
        (lent::LENGTH, ROOM + 1),
        (of_comment(1, 1), 9),
        (lent::COUNT, 257),
        (lent::INDENT, 65),
        (lent::WS, 2),
        (lent::FINISHED, 1),
    ];
    let script = path();
    s.lend(&script);
    s.lend_room(ROOM as usize);
    for (at, first) in wrong.iter().enumerate() {
        for second in &wrong[at + 1..] {
            let mut state = base();
            put_word(&mut state, first.0, first.1);
            put_word(&mut state, second.0, second.1);
            asked(s, &script, &state)?;
        }
    }
    Ok(())
}

/// States of another length, and a buffer that is empty.
fn lengths(s: &mut Session) -> Result<(), Differs> {
    let script = path();
    s.lend(&script);
    s.lend_room(ROOM as usize);
    for len in [0, 1, 32, STATE - 1, STATE + 1, 5_000] {
        let mut state = base();
        state.resize(len, 0);
        asked(s, &script, &state)?;
    }
    s.lend_room(0);
    asked(s, &script, &base())?;
    asked(s, &script, &vec![0; STATE])
}

/// 255, 256 and 257 comments behind a name, in a path.
fn queues(s: &mut Session) -> Result<(), Differs> {
    for count in [255, 256, 257] {
        let mut records = vec![Rec::new(0xB0, 0, 5, count + 2), leaf(3, 0, 1)];
        records.resize(count as usize + 2, leaf(2, 1, 5));
        records.iter_mut().skip(3).for_each(|r| r.start = 5);
        records.push(leaf(3, 5, 5));
        let script = Script::new("a/**/".into(), join(&records));
        s.lend(&script);
        s.lend_room(600);
        s.lend_state(vec![0xA5; STATE]);
        s.open(&script)?;
        for step in [
            &run_step(0)[..],
            &[3, 1, 0, 0, 0],
            &[3, 2, 0, 0, 0],
            &[0x0A],
            &[5, 1],
        ] {
            s.step(&script, step)?;
        }
    }
    Ok(())
}

/// A name written, with one part of it recorded wrong.
fn plant(s: &mut Session, wrong: Wrong) -> Result<(), Differs> {
    let script = path();
    s.lend(&script);
    s.lend_room(ROOM as usize);
    s.lend_state(vec![0; STATE]);
    s.open(&script)?;
    s.recorder.as_mut().expect("a recorder").wrong = Some(wrong);
    s.call(&script, &[1, 1, 0, 0, 0])?;
    Ok(())
}

// ---- by chance

/// From opening on, over a state of which opening must write every byte.
fn session(
    s: &mut Session,
    script: &Script,
    room: usize,
    steps: &[Vec<u8>],
) -> Result<(), Differs> {
    s.lend(script);
    s.lend_room(room);
    s.lend_state(vec![0xA5; STATE]);
    s.open(script)?;
    for step in steps {
        s.step(script, step)?;
    }
    Ok(())
}

/// A history of one of the oracle's families.
fn family(s: &mut Session, name: &str, i: u64) -> Result<(), Differs> {
    let case = gen::make(name, 1, i).expect("a family");
    let script = Script::new(case.source, case.tree);
    let steps = records_of(&case.steps);
    let room = case.cap.min(needed(&script, &steps) + 8);
    session(s, &script, room, &steps)
}

fn random_opening(s: &mut Session, i: u64) -> Result<(), Differs> {
    let rng = &mut Rng::new(i);
    let (source, tree) = compare::opening_input(rng, i);
    let script = Script::new(source, tree);
    let steps = gen::history(rng, script.records().len(), 2, 40);
    let steps = with_runs(rng, &script, steps);
    session(s, &script, 40, &steps)
}
