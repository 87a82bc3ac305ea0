//! How much stack a public function takes, by painting the stack of a thread below
//! the caller and looking how far the paint is gone.
use crate::exported::{public_call, public_open, public_run, STATE};
use crate::texts::SIZE;
use crate::trees;

const PAINT: u8 = 0xA5;
/// So far below the caller is painted.
const REACH: usize = 1 << 20;
/// The caller's own frame may reach so far down.
const FRAME: usize = 512;

/// The bytes below this frame that `f` uses.
#[inline(never)]
fn used(f: &mut dyn FnMut()) -> usize {
    let mark = 0u8;
    let here = std::hint::black_box(&mark as *const u8) as usize;
    let low = here - REACH;
    // The thread's stack is larger than REACH, and nothing lies below this frame.
    unsafe {
        for at in low..here - FRAME {
            (at as *mut u8).write_volatile(PAINT);
        }
        f();
        let gone = (low..here - FRAME).find(|at| (*at as *const u8).read_volatile() != PAINT);
        here - gone.unwrap_or(here - FRAME)
    }
}

/// The most of some calls: a write, a release of all that waits, a finish.
fn deepest(source: &[u8], tree: &[u8], waiting: usize) -> usize {
    let mut most = 0;
    let mut out = vec![0; SIZE * 2];
    for record in [&[1, 0, 0, 0, 0][..], &[5, 0], &[8], &[10], &[11]] {
        let mut state = [0u8; STATE];
        state[24..28].copy_from_slice(&(waiting as u32).to_le_bytes());
        for i in 0..waiting {
            state[32 + i * 16 + 4] = 1;
        }
        let call = &mut || {
            public_call(source, tree, &mut state, &mut out, record);
        };
        most = most.max(used(call));
    }
    most
}

fn measure() {
    let source = trees::letters(SIZE);
    let (flat, chains) = (trees::flat(SIZE, 8192), trees::chains(SIZE, 8192, 64));
    println!("\nStack of a public function, measured\n");
    println!("| function                                     | bytes  |");
    println!("|----------------------------------------------|--------|");
    let row = |name: &str, bytes: usize| match bytes {
        FRAME => println!("| {name:44} | <{FRAME:5} |"),
        _ => println!("| {name:44} | {bytes:6} |"),
    };
    for (name, tree) in [("side by side", &flat), ("of depth 64", &chains)] {
        let mut state = [0; STATE];
        let open = &mut || {
            public_open(&source, tree, &mut state);
        };
        row(&format!("savetnuok_open, records {name}"), used(open));
    }
    row(
        "savetnuok_call, records side by side",
        deepest(&source, &flat, 0),
    );
    row(
        "savetnuok_call, records of depth 64",
        deepest(&source, &chains, 0),
    );
    row(
        "savetnuok_call, the same, 256 waiting",
        deepest(&source, &chains, 256),
    );
    for (name, tree) in trees::deep_nodes() {
        let (mut state, mut out) = ([0; STATE], vec![0; SIZE]);
        let run = &mut || {
            assert_eq!(public_run(&source, &tree, &mut state, &mut out, 0), 0);
        };
        row(&format!("savetnuok_run, {name}"), used(run));
    }
}

pub fn table() {
    let thread = std::thread::Builder::new().stack_size(REACH * 4);
    thread.spawn(measure).unwrap().join().unwrap();
}
