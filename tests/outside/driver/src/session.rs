//! One history on the library: everything is lent in guarded memory, each answer
//! is held against the reference, and so is every byte behind it.
use std::fs;
use std::path::PathBuf;

use oracle::call::{layout_step, run_step, Step};

use crate::area::{Area, Side};
use crate::exported::Library;
use crate::lent;
use crate::recorder::{self, Recorder};
use crate::reference::{self, Script, Want};
use crate::rules;
use crate::tally::Tally;

/// The memory that is lent.
pub struct Desk {
    source: Area,
    tree: Area,
    state: Area,
    out: Area,
    record: Area,
}

impl Desk {
    pub fn new() -> Self {
        Self {
            source: Area::new(80_000),
            tree: Area::new(200_000),
            state: Area::new(8_192),
            out: Area::new(1 << 20),
            record: Area::new(1_024),
        }
    }
}

/// What was asked of the library.
#[derive(Clone, Copy)]
enum Asked<'a> {
    Open,
    Call(&'a [u8]),
    Run(u32),
    Layout,
}

/// A history was cut off: the library differs, and the tally knows.
pub struct Differs;

pub struct Session<'a> {
    library: Library,
    desk: &'a mut Desk,
    pub tally: &'a mut Tally,
    group: &'static str,
    number: u64,
    /// where a case that differs is written
    save: Option<&'a PathBuf>,
    /// an empty slice has NULL for its pointer
    nulls: bool,
    sides: [Side; 5],
    /// what the state and the buffer must hold
    pub state: Vec<u8>,
    pub out: Vec<u8>,
    pub calls: u64,
    /// writes the session down
    pub recorder: Option<Recorder>,
}

impl<'a> Session<'a> {
    pub fn new(
        library: Library,
        desk: &'a mut Desk,
        tally: &'a mut Tally,
        save: Option<&'a PathBuf>,
        (group, number): (&'static str, u64),
    ) -> Self {
        // every fifth time at an odd address, else on either side
        let side = |slice: u64| match (number + slice) % 5 {
            0 => Side::Odd,
            _ if number >> slice & 1 == 0 => Side::Back,
            _ => Side::Front,
        };
        Self {
            library,
            desk,
            tally,
            group,
            number,
            save,
            nulls: number % 3 == 0,
            sides: [side(0), side(1), side(2), side(3), side(4)],
            state: vec![],
            out: vec![],
            calls: 0,
            recorder: None,
        }
    }

    /// Lends this source and tree from now on.
    pub fn lend(&mut self, script: &Script) {
        self.desk.source.put(&script.source, self.sides[0]);
        self.desk.tree.put(&script.tree, self.sides[1]);
        self.lent(recorder::SOURCE, &script.source);
        self.lent(recorder::TREE, &script.tree);
    }

    pub fn lend_state(&mut self, state: Vec<u8>) {
        self.desk.state.put(&state, self.sides[2]);
        self.lent(recorder::STATE, &state);
        self.state = state;
    }

    pub fn lend_out(&mut self, out: Vec<u8>) {
        self.desk.out.put(&out, self.sides[3]);
        self.lent(recorder::OUT, &out);
        self.out = out;
    }

    fn lent(&mut self, kind: usize, bytes: &[u8]) {
        if let Some(recorder) = &mut self.recorder {
            recorder.lend(kind, bytes);
        }
    }

    /// A buffer of so many bytes, each unlike its neighbours.
    pub fn lend_room(&mut self, len: usize) {
        let seed = self.number as usize;
        self.lend_out(
            (0..len)
                .map(|i| (i.wrapping_mul(37) + i / 256 + seed) as u8)
                .collect(),
        );
    }

    fn pointer(area: &mut Area, nulls: bool) -> *mut u8 {
        match area.bytes().is_empty() && nulls {
            true => std::ptr::null_mut(),
            false => area.pointer(),
        }
    }

    /// Opens; says whether an engine came of it.
    pub fn open(&mut self, script: &Script) -> Result<bool, Differs> {
        let want = reference::open(script, self.state.len());
        let desk = &mut *self.desk;
        let got = unsafe {
            (self.library.open)(
                Self::pointer(&mut desk.source, self.nulls),
                script.source.len(),
                Self::pointer(&mut desk.tree, self.nulls),
                script.tree.len(),
                Self::pointer(&mut desk.state, self.nulls),
                self.state.len(),
            )
        };
        self.tally.opened(&want);
        self.compare(script, Asked::Open, got, &want)?;
        Ok(want.answer == 0)
    }

    /// A step of the oracle's files: a run or layout where the bytes are one, else a call.
    pub fn step(&mut self, script: &Script, step: &[u8]) -> Result<Want, Differs> {
        match rules::step_of(step) {
            Step::Run(node) => self.run(script, node),
            Step::Layout => self.layout(script),
            Step::Call(_) => self.call(script, step),
        }
    }

    pub fn run(&mut self, script: &Script, node: u32) -> Result<Want, Differs> {
        let want = reference::run(script, &self.state, self.out.len(), node);
        let desk = &mut *self.desk;
        let got = unsafe {
            (self.library.run)(
                Self::pointer(&mut desk.source, self.nulls),
                script.source.len(),
                Self::pointer(&mut desk.tree, self.nulls),
                script.tree.len(),
                Self::pointer(&mut desk.state, self.nulls),
                self.state.len(),
                Self::pointer(&mut desk.out, self.nulls),
                self.out.len(),
                node,
            )
        };
        self.calls += 1;
        let kind = script.records().get(node as usize).map(|r| r.kind);
        self.tally.ran(kind, &want);
        self.compare(script, Asked::Run(node), got, &want)?;
        Ok(want)
    }

    pub fn layout(&mut self, script: &Script) -> Result<Want, Differs> {
        let want = reference::layout(script, &self.state, self.out.len());
        let desk = &mut *self.desk;
        let got = unsafe {
            (self.library.layout)(
                Self::pointer(&mut desk.source, self.nulls),
                script.source.len(),
                Self::pointer(&mut desk.tree, self.nulls),
                script.tree.len(),
                Self::pointer(&mut desk.state, self.nulls),
                self.state.len(),
                Self::pointer(&mut desk.out, self.nulls),
                self.out.len(),
            )
        };
        self.calls += 1;
        self.tally.laid(script.tree.len(), &want);
        self.compare(script, Asked::Layout, got, &want)?;
        Ok(want)
    }

    pub fn call(&mut self, script: &Script, record: &[u8]) -> Result<Want, Differs> {
        let want = reference::call(script, &self.state, self.out.len(), record);
        self.desk.record.put(record, self.sides[4]);
        let desk = &mut *self.desk;
        let got = unsafe {
            (self.library.call)(
                Self::pointer(&mut desk.source, self.nulls),
                script.source.len(),
                Self::pointer(&mut desk.tree, self.nulls),
                script.tree.len(),
                Self::pointer(&mut desk.state, self.nulls),
                self.state.len(),
                Self::pointer(&mut desk.out, self.nulls),
                self.out.len(),
                Self::pointer(&mut desk.record, self.nulls),
                record.len(),
            )
        };
        self.calls += 1;
        let waited = match self.state.len() {
            lent::STATE => lent::word(&self.state, lent::COUNT) as usize,
            _ => 0,
        };
        self.tally.called(record, waited, &want);
        self.compare(script, Asked::Call(record), got, &want)?;
        Ok(want)
    }

    /// The answer, all that may have changed, and all that may not. The state and
    /// the buffer are then those that the reference leaves.
    fn compare(
        &mut self,
        script: &Script,
        asked: Asked,
        got: u64,
        want: &Want,
    ) -> Result<(), Differs> {
        let desk = &*self.desk;
        let record_is = !matches!(asked, Asked::Call(r) if desk.record.bytes() != r);
        let state = want.state.as_ref().unwrap_or(&self.state);
        let wrong = [
            ("answer", got != want.answer),
            ("state", desk.state.bytes() != state),
            ("output", !self.output_is(want)),
            ("source", desk.source.bytes() != script.source),
            ("tree", desk.tree.bytes() != script.tree),
            ("record", !record_is),
            ("strip beside the source", !desk.source.strip_is_whole()),
            ("strip beside the tree", !desk.tree.strip_is_whole()),
            ("strip beside the state", !desk.state.strip_is_whole()),
            ("strip beside the buffer", !desk.out.strip_is_whole()),
            ("strip beside the record", !desk.record.strip_is_whole()),
        ];
        if wrong.iter().any(|w| w.1) {
            let wrong: Vec<&str> = wrong.iter().filter(|w| w.1).map(|w| w.0).collect();
            self.report(&wrong, script, asked, got, want);
            return Err(Differs);
        }
        self.write_down(asked, want);
        if let Some(state) = &want.state {
            let from = self.written_from();
            self.out[from..from + want.written.len()].copy_from_slice(&want.written);
            self.state.copy_from_slice(state);
        }
        if let Some(from) = want.zero_from {
            self.out.iter_mut().skip(from).for_each(|b| *b = 0);
        }
        Ok(())
    }

    fn write_down(&mut self, asked: Asked, want: &Want) {
        let (kind, bytes) = match asked {
            Asked::Open => (recorder::OPEN, vec![]),
            Asked::Call(record) => (recorder::CALL, record.to_vec()),
            Asked::Run(node) => (recorder::RUN, node.to_le_bytes().to_vec()),
            Asked::Layout => (recorder::LAYOUT, vec![]),
        };
        let from = match want.state {
            Some(_) => self.written_from(),
            None => 0,
        };
        if let Some(recorder) = &mut self.recorder {
            recorder.made(kind, &bytes, want, from, self.out.len());
        }
    }

    /// Where a call writes that succeeds. An opening writes nothing.
    fn written_from(&self) -> usize {
        let length = lent::word(&self.state, lent::LENGTH) as usize;
        length.min(self.out.len())
    }

    /// Is the lent buffer what it was, with what is wanted written into it?
    fn output_is(&self, want: &Want) -> bool {
        let now = self.desk.out.bytes();
        if let Some(from) = want.zero_from {
            let from = from.min(now.len());
            return now[..from] == self.out[..from] && now[from..].iter().all(|b| *b == 0);
        }
        if want.written.is_empty() {
            return now == self.out;
        }
        let (front, back) = (
            self.written_from(),
            self.written_from() + want.written.len(),
        );
        now[..front] == self.out[..front]
            && now[front..back] == want.written
            && now[back..] == self.out[back..]
    }

    fn report(&mut self, wrong: &[&str], script: &Script, asked: Asked, got: u64, want: &Want) {
        let number = self.calls.saturating_sub(1);
        let call = match asked {
            Asked::Open => "open".into(),
            Asked::Call(record) => format!("call {number} {record:02x?}"),
            Asked::Run(node) => format!("call {number}, a run on node {node}"),
            Asked::Layout => format!("call {number}, a layout"),
        };
        self.tally.differences.push(format!(
            "{} {}: {call}: {} differs; answer {} at {}, wanted {} at {}",
            self.group,
            self.number,
            wrong.join(", "),
            got >> 32,
            got as u32,
            want.answer >> 32,
            want.answer as u32,
        ));
        if self.save.is_some() {
            self.save_case(script, asked);
        }
    }

    /// What was lent, as files.
    fn save_case(&self, script: &Script, asked: Asked) {
        let folder = self
            .save
            .expect("a folder")
            .join(format!("{}-{}", self.group, self.number));
        let file = |name: &str, bytes: &[u8]| {
            fs::write(folder.join(name), bytes).expect("a file can be written")
        };
        fs::create_dir_all(&folder).expect("a folder can be made");
        file("source", &script.source);
        file("tree", &script.tree);
        file("state", &self.state);
        file("out", &self.out);
        file(
            "record",
            &match asked {
                Asked::Open => vec![],
                Asked::Call(record) => record.to_vec(),
                Asked::Run(node) => run_step(node),
                Asked::Layout => layout_step(),
            },
        );
    }

    /// The group's line in the tally.
    pub fn done(self) {
        self.tally.history(self.group, self.calls);
    }
}
