//! Queues of crates as they are, by the word that the program is given.
use concurrent_queue::ConcurrentQueue;
use crossbeam_channel::bounded;
use crossbeam_queue::{ArrayQueue, SegQueue};
use explore::explore;
use futures_channel::mpsc::unbounded;
use std::sync::Arc;

/// Two ends that both sides share.
fn shared<Q>(make: impl Fn() -> Q) -> impl Fn() -> (Arc<Q>, Arc<Q>) {
    move || {
        let queue = Arc::new(make());
        (queue.clone(), queue)
    }
}

fn main() {
    match std::env::args().nth(1).as_deref() {
        Some("array_queue") => explore("queue 2", shared(|| ArrayQueue::new(2)),
            |q, p| for item in 1..4 { p.put(item); if q.push(item).is_ok() { p.stored() } else { p.full() } },
            |q, c| for _ in 0..3 { c.take(); match q.pop() { Some(item) => c.item(item), None => c.empty() } }),
        Some("seg_queue") => explore("queue", shared(SegQueue::new),
            |q, p| for item in 1..4 { p.put(item); q.push(Box::new(item)); p.stored() },
            |q, c| for _ in 0..3 { c.take(); match q.pop() { Some(item) => c.item(*item), None => c.empty() } }),
        Some("concurrent_queue") => explore("queue 1", shared(|| ConcurrentQueue::bounded(1)),
            |q, p| for item in 1..4 { p.put(item); if q.push(item).is_ok() { p.stored() } else { p.full() } },
            |q, c| for _ in 0..3 { c.take(); match q.pop() { Ok(item) => c.item(item), Err(_) => c.empty() } }),
        Some("crossbeam_channel") => explore("queue 1", || bounded(1),
            |q, p| for item in 1..3 { p.put(item); q.send(item).unwrap(); p.stored() },
            |q, c| for _ in 0..2 { c.take(); let item = q.recv().unwrap(); c.item(item) }),
        // (its queue is a list of boxes)
        Some("futures_channel") => explore("queue", || { let (s, r) = unbounded(); (Some(s), r) },
            |q, p| { for item in 1..3 { p.put(item); q.as_ref().unwrap().unbounded_send(item).unwrap(); p.stored() } p.close(); q.take(); p.closed() },
            |q, c| for _ in 0..3 { c.take(); match q.try_next() { Ok(Some(item)) => c.item(item), Ok(None) => { c.closed(); return } Err(_) => c.empty() } }),
        _ => eprintln!("of_crates QUEUE"),
    }
}
