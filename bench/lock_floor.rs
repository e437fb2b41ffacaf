//! The floor for `scene_lock_bench`: the same notes behind a `Mutex` or an `RwLock` of plain Rust.
//!
//! `lock_floor LOCK WORK THREADS TURNS`: LOCK is `mutex` or `rwlock`, the rest as for `scene_lock_bench`. It prints the entries
//! that there are in the end, and the nanoseconds that all of it took.

use std::hint::black_box;
use std::sync::{Mutex, RwLock};
use std::time::Instant;

struct Note {
    _session: u32,
    _number: u64,
}

#[derive(Clone, Copy)]
enum Work {
    Write,
    Read,
    Mixed,
}

impl Work {
    fn writes_at(self, turn: u64) -> bool {
        match self {
            Work::Write => true,
            Work::Read => false,
            Work::Mixed => turn % 10 == 9,
        }
    }
}

/// What both kinds of lock do.
trait Notes: Sync {
    fn write(&self, note: Note);

    fn count(&self) -> usize;
}

impl Notes for Mutex<Vec<Note>> {
    fn write(&self, note: Note) {
        self.lock().unwrap().push(note);
    }

    fn count(&self) -> usize {
        self.lock().unwrap().len()
    }
}

impl Notes for RwLock<Vec<Note>> {
    fn write(&self, note: Note) {
        self.write().unwrap().push(note);
    }

    fn count(&self) -> usize {
        self.read().unwrap().len()
    }
}

fn run(notes: &dyn Notes, work: Work, threads: u32, turns: u64) {
    std::thread::scope(|scope| {
        for session in 0..threads {
            scope.spawn(move || {
                for turn in 0..turns {
                    if work.writes_at(turn) {
                        notes.write(Note {
                            _session: session,
                            _number: turn,
                        });
                    } else {
                        black_box(notes.count());
                    }
                }
            });
        }
    });
}

fn main() {
    let words: Vec<String> = std::env::args().skip(1).collect();
    let [lock, work, threads, turns] = words.as_slice() else {
        panic!("lock_floor LOCK WORK THREADS TURNS");
    };
    let notes: Box<dyn Notes> = match lock.as_str() {
        "mutex" => Box::new(Mutex::new(Vec::new())),
        "rwlock" => Box::new(RwLock::new(Vec::new())),
        other => panic!("no lock {other}"),
    };
    let work = match work.as_str() {
        "write" => Work::Write,
        "read" => Work::Read,
        "mixed" => Work::Mixed,
        other => panic!("no work {other}"),
    };
    let (threads, turns) = (threads.parse().unwrap(), turns.parse().unwrap());
    let start = Instant::now();
    run(notes.as_ref(), work, threads, turns);
    println!("entries {}", notes.count());
    println!("nanoseconds {}", start.elapsed().as_nanos());
}
