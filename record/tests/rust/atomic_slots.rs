//! A ring whose slots are atomic, so it has no data race. `--cfg bug` stores the tail relaxed: then the consumer may find a tail that is newer than
//! the slot it finds, which no order of the accesses, one after the other, shows.
use explore::explore;
use std::sync::atomic::{AtomicU64, AtomicUsize, Ordering::*};
use std::sync::Arc;

const CAPACITY: usize = 2;
const TAIL_STORE: std::sync::atomic::Ordering = if cfg!(bug) { Relaxed } else { Release };

#[derive(Default)]
struct Ring {
    head: AtomicUsize,
    tail: AtomicUsize,
    slots: [AtomicU64; CAPACITY],
}

impl Ring {
    fn push(&self, item: u64) -> Result<(), u64> {
        let tail = self.tail.load(Relaxed);
        if tail - self.head.load(Acquire) == CAPACITY {
            return Err(item);
        }
        self.slots[tail % CAPACITY].store(item, Relaxed);
        self.tail.store(tail + 1, TAIL_STORE);
        Ok(())
    }

    fn pop(&self) -> Option<u64> {
        let head = self.head.load(Relaxed);
        if head == self.tail.load(Acquire) {
            return None;
        }
        let item = self.slots[head % CAPACITY].load(Relaxed);
        self.head.store(head + 1, Release);
        Some(item)
    }
}

fn make() -> (Arc<Ring>, Arc<Ring>) {
    let ring = Arc::new(Ring::default());
    (ring.clone(), ring)
}

fn main() {
    explore("queue 2", make,
        |q, p| for item in 1..4 { p.put(item); if q.push(item).is_ok() { p.stored() } else { p.full() } },
        |q, c| for _ in 0..3 { c.take(); match q.pop() { Some(item) => c.item(item), None => c.empty() } });
}
