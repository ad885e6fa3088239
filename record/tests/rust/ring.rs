//! A ring of plain slots. `--cfg bug` stores the tail relaxed, so that nothing puts the item before it: a data race at its slot.
use explore::explore;
use std::cell::UnsafeCell;
use std::sync::atomic::{AtomicUsize, Ordering::*};
use std::sync::Arc;

const CAPACITY: usize = 2;
const TAIL_STORE: std::sync::atomic::Ordering = if cfg!(bug) { Relaxed } else { Release };

#[derive(Default)]
struct Ring {
    head: AtomicUsize,
    tail: AtomicUsize,
    slots: [UnsafeCell<u64>; CAPACITY],
}

unsafe impl Sync for Ring {}

impl Ring {
    fn push(&self, item: u64) -> Result<(), u64> {
        let tail = self.tail.load(Relaxed);
        if tail - self.head.load(Acquire) == CAPACITY {
            return Err(item);
        }
        unsafe { *self.slots[tail % CAPACITY].get() = item };
        self.tail.store(tail + 1, TAIL_STORE);
        Ok(())
    }

    fn pop(&self) -> Option<u64> {
        let head = self.head.load(Relaxed);
        if head == self.tail.load(Acquire) {
            return None;
        }
        let item = unsafe { *self.slots[head % CAPACITY].get() };
        self.head.store(head + 1, Release);
        Some(item)
    }
}

fn make() -> (Arc<Ring>, Arc<Ring>) {
    let ring = Arc::new(Ring::default());
    (ring.clone(), ring)
}

fn main() {
    explore("queue 2", make,
        |q, p| for item in 1..4 { p.put(item); if q.push(item).is_ok() { p.stored() } else { p.full() } },
        |q, c| for _ in 0..3 { c.take(); match q.pop() { Some(item) => c.item(item), None => c.empty() } });
}
