//! What is done in processes of their own: lookups that may not end, and memory that is counted.

use crate::readings::{self, Reading};
use crate::table::{self, Cell, ABSENT};
use crate::Side;
use model::limits::{BODIES_BYTES, CONTENTS_WORDS};
use std::os::unix::process::ExitStatusExt;
use std::process::{Command, Stdio};
use std::time::{Duration, Instant};

const SECONDS: u64 = 10;
const BYTES: u64 = 4 << 30;
/// The signal by which the Rust ends when there is no more memory.
const ABORTED: i32 = 6;
const CRASHED: Cell = Cell::Not("it crashes");

/// Has a process read or look up, and kills it when the time is over. If it did not end well: why.
pub fn try_out(case: &str, side: Side, room: &str) -> Result<(), Cell> {
    let words = ["try", &format!("{case}/{}", side.name()), room];
    let mut child = this_program(&words).stderr(Stdio::null()).spawn().expect("a process");
    let start = Instant::now();
    while start.elapsed() < Duration::from_secs(SECONDS) {
        match child.try_wait().expect("its status") {
            Some(status) if status.success() => return Ok(()),
            Some(status) if status.signal() == Some(ABORTED) => return Err(Cell::Not("over 4 GiB")),
            Some(_) => return Err(CRASHED),
            None => std::thread::sleep(Duration::from_millis(10)),
        }
    }
    child.kill().expect("it is killed");
    child.wait().expect("its status");
    Err(Cell::Not("over 10 s"))
}

fn this_program(words: &[&str]) -> Command {
    let mut command = Command::new(std::env::current_exe().expect("this program"));
    command.args(words);
    command
}

extern "C" {
    fn setrlimit(resource: i32, limits: *const [u64; 2]) -> i32;
    fn mallinfo2() -> Mallinfo;
}

/// Linux's number for the bytes of a process's address space.
const ADDRESS_SPACE: i32 = 9;

/// The process that is tried out.
pub fn work(case: &str, side: Side, room: &str) {
    // SAFETY: both limits stand in the array.
    assert_eq!(unsafe { setrlimit(ADDRESS_SPACE, &[BYTES, BYTES]) }, 0);
    crate::with_work(case, side, room, &mut |work| work());
}

/// glibc's account of its heap, in bytes.
#[repr(C)]
struct Mallinfo {
    arena: usize,
    free_blocks: usize,
    fast_blocks: usize,
    mapped_blocks: usize,
    mapped: usize,
    unused: usize,
    fast_free: usize,
    used: usize,
    free: usize,
    releasable: usize,
}

fn in_use() -> usize {
    // SAFETY: it only reads.
    let info = unsafe { mallinfo2() };
    info.used + info.mapped
}

/// The process that counts: prints the bytes of heap that a reading holds. A reading of no text comes
/// first, for what a library sets up once.
pub fn count_held(case: &str, side: Side, room: &str) {
    let reading = readings::find(case, room).expect("a case");
    let empty = readings::find("empty", room).expect("a case");
    let mut reader = reading.reader(side).expect("a side that is there");
    let mut first = empty.reader(side).expect("a reader");
    first.read();
    first.free();
    let before = in_use();
    reader.read();
    println!("{}", in_use() - before);
}

/// The heap of a reading, counted in a process without malloc's caches, whose blocks count as used.
fn held(reading: &Reading, side: Side, room: &str) -> Cell {
    if reading.reader(side).is_none() {
        return ABSENT;
    }
    let output = this_program(&["held", &format!("{}/{}", reading.case.name, side.name()), room])
        .env("GLIBC_TUNABLES", "glibc.malloc.tcache_count=0")
        .stderr(Stdio::inherit())
        .output()
        .expect("a process");
    if !output.status.success() {
        return CRASHED;
    }
    let text = String::from_utf8(output.stdout).expect("a number");
    Cell::Figure(text.trim().parse().expect("a number"))
}

/// The port's are the two lent buffers, and it has no heap.
pub fn say_held(room: &str) {
    let lent = Cell::Figure((2 * CONTENTS_WORDS + BODIES_BYTES) as f64);
    table::head("Held after a reading", "bytes", &readings::OTHERS);
    for reading in readings::all(room) {
        assert!(matches!(held(&reading, Side::Port, room), Cell::Figure(0.0)), "the port has a heap");
        let others = readings::OTHERS.map(|side| held(&reading, side, room));
        table::row(reading.case.what, lent, &others);
    }
}
