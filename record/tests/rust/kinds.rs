//! Every kind of event, by functions that take the logs of either recorder: `--cfg plain` writes the recording of ring_calls.rs.
#[cfg(not(plain))]
use explore::{explore, PutLog, TakeLog};
#[cfg(plain)]
use ring_calls::{write_calls, Clock, PutLog, TakeLog};

#[cfg(plain)]
#[path = "../../include/rust/ring_calls.rs"]
mod ring_calls;

fn produce(p: &mut PutLog) {
    p.put(5);
    p.stored();
    p.put_all(&[1, 2, 3]);
    p.stored_of(2, 3);
    p.put_all(&[1, 2, 3]);
    p.stored_of(3, 3);
    p.put_all(&[1, 2, 3]);
    p.stored_of(0, 3);
    p.put(4);
    p.full();
    p.put_all(&[4, 5]);
    p.short();
    p.put(6);
    p.nothing();
    p.put_all(&[1, 2, 3]);
    p.some(2);
    p.put(6);
    p.some(0);
    p.close();
    p.closed();
    p.put_all(&[7, u64::MAX]);
    p.closed();
}

fn consume(c: &mut TakeLog<'_>) {
    c.take();
    c.item(5);
    c.take_all(3);
    c.short();
    c.take_all(3);
    c.items(&[1, 2]);
    c.take_all(1);
    c.items(&[]);
    c.take();
    c.empty();
    c.take();
    c.nothing();
    c.take_all(3);
    c.some(&[1, 2]);
    c.take();
    c.some(&[]);
    c.take();
    c.closed();
}

#[cfg(not(plain))]
fn main() {
    use std::sync::atomic::{AtomicU64, Ordering::Relaxed};
    static SHARED: AtomicU64 = AtomicU64::new(0);
    let make = || { SHARED.store(0, Relaxed); ((), ()) };
    explore("queue 2", make, |_, p| { SHARED.store(1, Relaxed); produce(p) }, |_, c| { SHARED.load(Relaxed); consume(c) })
}

#[cfg(plain)]
fn main() -> std::io::Result<()> {
    let clock = Clock::new();
    let (mut p, mut c) = (PutLog::new(&clock, 1000), TakeLog::new(&clock, 1000));
    produce(&mut p);
    consume(&mut c);
    write_calls("queue 2", &p, &c, &mut std::io::stdout().lock())
}
