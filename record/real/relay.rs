//! relay.rs: a producer's and a consumer's thread over a queue, recorded, as in relay.h. A program has a table of its queues and ends in `relay`:
//! with no argument it lists their names, each with the expected verdict of the audit; NAME CALLS writes a recording.
//!
//! The producer puts 0, 1, 2, .., in CALLS calls, and closes; the consumer takes until it finds the queue closed. Both sometimes pause for a moment.
#![allow(dead_code)]
#[path = "../include/rust/ring_calls.rs"]
mod ring_calls;
use ring_calls::{Clock, PutLog, TakeLog, write_calls};
use std::io::{self, BufWriter};
use std::sync::atomic::{AtomicBool, Ordering::SeqCst};
use std::sync::{Arc, Barrier};
use std::thread;

/// How a take ended.
pub enum Took { Item(u64), Empty, Closed }

/// A put returns whether the item was stored; dropping it closes the queue.
pub type Put = Box<dyn FnMut(u64) -> bool + Send>;
pub type Take = Box<dyn FnMut() -> Took + Send>;

/// The name of a queue; the first line of its recording; `lawful`, or the beginning of its fault's words, without numbers; its constructor.
pub struct Queue(pub &'static str, pub &'static str, pub &'static str, pub fn() -> (Put, Take));

pub fn ends(put: impl FnMut(u64) -> bool + Send + 'static, take: impl FnMut() -> Took + Send + 'static) -> (Put, Take) {
    (Box::new(put), Box::new(take))
}

struct SetAtDrop(Arc<AtomicBool>);

impl Drop for SetAtDrop {
    fn drop(&mut self) { self.0.store(true, SeqCst) }
}

/// The ends of a queue that has no close: with a flag beside it. The consumer finds it closed if it finds nothing, then the flag set, then
/// nothing once more.
pub fn flagged_ends(
    mut put: impl FnMut(u64) -> bool + Send + 'static, mut take: impl FnMut() -> Option<u64> + Send + 'static,
) -> (Put, Take) {
    let done = Arc::new(AtomicBool::new(false));
    let flag = SetAtDrop(done.clone());
    let put = move |item| {
        let _kept = &flag;
        put(item)
    };
    ends(put, move || match take() {
        Some(item) => Took::Item(item),
        None if !done.load(SeqCst) => Took::Empty,
        None => take().map_or(Took::Closed, Took::Item),
    })
}

fn random(g: &mut u64) -> u64 {
    *g ^= *g << 13;
    *g ^= *g >> 7;
    *g ^= *g << 17;
    *g
}

fn rest(g: &mut u64, longer: bool) {
    let longer = longer || random(g) % 4096 < 64;
    (0..random(g) % if longer { 200 } else { 8 }).for_each(|_| std::hint::spin_loop());
    if longer && random(g) % 64 == 0 {
        thread::yield_now();
    }
}

fn produce(log: &mut PutLog, calls: u64, mut put: Put) {
    let (mut g, mut item) = (88172645463325252, 0);
    for _ in 0..calls {
        log.put(item);
        let stored = put(item);
        if stored { log.stored() } else { log.full() }
        item += u64::from(stored);
        rest(&mut g, !stored);
    }
    log.close();
    drop(put);
    log.closed();
}

fn consume(log: &mut TakeLog, mut take: Take) {
    let mut g = 362436069;
    loop {
        log.take();
        let took = take();
        match took {
            Took::Item(item) => log.item(item),
            Took::Empty => log.empty(),
            Took::Closed => return log.closed(),
        }
        rest(&mut g, !matches!(took, Took::Item(_)));
    }
}

pub fn relay(queues: &[Queue]) -> io::Result<()> {
    let args: Vec<String> = std::env::args().collect();
    if args.len() != 3 {
        queues.iter().for_each(|Queue(name, _, verdict, _)| println!("{name} {verdict}"));
        return Ok(());
    }
    let Queue(_, head, _, make) = queues.iter().find(|queue| queue.0 == args[1]).expect("the name of a queue");
    let calls: u64 = args[2].parse().expect("a number of calls");
    let clock = Clock::new();
    let words = calls as usize * 24 + 4096;
    let (mut p, mut c) = (PutLog::new(&clock, words), TakeLog::new(&clock, words));
    let (puts, takes, (put, take), both_are_here) = (&mut p, &mut c, make(), &Barrier::new(2));
    thread::scope(|both| {
        both.spawn(move || {
            both_are_here.wait();
            produce(puts, calls, put)
        });
        both.spawn(move || {
            both_are_here.wait();
            consume(takes, take)
        });
    });
    write_calls(head, &p, &c, &mut BufWriter::new(io::stdout().lock()))
}
