//! unit.rs: a unit test of a small ring: it is a queue in each of 10,000 rounds of 100 calls, and with its bug it is not.
#[path = "../../include/rust/ring_audit.rs"]
mod ring_audit;
#[path = "../../include/rust/ring_calls.rs"]
mod ring_calls;
use ring_audit::{Fault, Report, lawful};
use ring_calls::{Clock, PutLog, TakeLog};
use std::sync::atomic::{AtomicU64, AtomicUsize, Ordering::SeqCst};
use std::thread::{scope, yield_now};
use std::time::Instant;

const SLOTS: usize = 9;
const ROUNDS: usize = 10_000;
const CALLS: usize = 50; // of each side

// The items lie from head up to tail; one slot is kept free. The bug: the tail moves before the cell is written.
#[derive(Default)]
struct Ring {
    cells: [AtomicU64; SLOTS],
    head: AtomicUsize,
    tail: AtomicUsize,
    bug: bool,
}

impl Ring {
    fn push(&self, item: u64) -> bool {
        let tail = self.tail.load(SeqCst);
        let next = (tail + 1) % SLOTS;
        if next == self.head.load(SeqCst) {
            return false;
        }
        if self.bug {
            self.tail.store(next, SeqCst);
            yield_now();
        }
        self.cells[tail].store(item, SeqCst);
        self.tail.store(next, SeqCst);
        true
    }

    fn pop(&self) -> Option<u64> {
        let head = self.head.load(SeqCst);
        if head == self.tail.load(SeqCst) {
            return None;
        }
        let item = self.cells[head].load(SeqCst);
        self.head.store((head + 1) % SLOTS, SeqCst);
        Some(item)
    }
}

fn produce(p: &mut PutLog, ring: &Ring) {
    let mut item = 1;
    for _ in 0..CALLS {
        p.put(item);
        if ring.push(item) {
            p.stored();
            item += 1;
        } else {
            p.full();
            yield_now();
        }
    }
}

fn consume(c: &mut TakeLog, ring: &Ring) {
    for _ in 0..CALLS {
        c.take();
        match ring.pop() {
            Some(item) => c.item(item),
            None => {
                c.empty();
                yield_now();
            }
        }
    }
}

// Two threads call a new ring; what is found about their calls.
fn round(p: &mut PutLog, c: &mut TakeLog, bug: bool) -> Result<Report, Fault> {
    let (ring, here) = (Ring { bug, ..Ring::default() }, AtomicUsize::new(0));
    let meet = || {
        here.fetch_add(1, SeqCst);
        while here.load(SeqCst) < 2 {
            yield_now();
        }
    };
    p.restart();
    c.restart();
    scope(|threads| {
        threads.spawn(|| {
            meet();
            consume(c, &ring);
        });
        meet();
        produce(p, &ring);
    });
    lawful("queue 8", p, c)
}

#[test]
fn is_a_queue() {
    let (clock, began) = (Clock::new(), Instant::now());
    let (mut p, mut c) = (PutLog::new(&clock, 5 * CALLS), TakeLog::new(&clock, 5 * CALLS));
    for _ in 0..ROUNDS {
        round(&mut p, &mut c, false).unwrap();
    }
    println!("{ROUNDS} rounds of {} calls are lawful: {:.1} s", 2 * CALLS, began.elapsed().as_secs_f64());
}

#[test]
fn its_bug_is_found() {
    let clock = Clock::new();
    let (mut p, mut c) = (PutLog::new(&clock, 5 * CALLS), TakeLog::new(&clock, 5 * CALLS));
    let fault = (1..=ROUNDS).find_map(|at| round(&mut p, &mut c, true).err().map(|fault| (at, fault)));
    let (at, fault) = fault.expect("each of the rounds with the bug is lawful");
    println!("with the bug, round {at}: {}", fault.words);
    assert!(fault.words.starts_with("fault: line "), "{}", fault);
}

#[test]
fn tells_the_lines() {
    let clock = Clock::new();
    let (mut p, mut c) = (PutLog::new(&clock, 20), TakeLog::new(&clock, 20));
    p.put(12);
    p.stored();
    c.take();
    c.empty();
    let fault = lawful("queue 8", &p, &c).unwrap_err();
    let lines = "       1  queue 8\n       2  P put 12\n>      3  P stored\n       4  C take\n>      5  C empty\n";
    assert_eq!(fault.words, "fault: line 5: empty, but item 12 was inside since line 3");
    assert_eq!((fault.line, fault.against, fault.lines.as_str()), (5, 3, lines));
    assert_eq!(format!("{fault:?}\n"), format!("{}\n{lines}", fault.words));
}
