//! A list of boxes, of which the first was taken already. `--cfg bug` drops the next one instead of it, whose item is taken: the list still has it.
use explore::explore;
use std::sync::atomic::{AtomicPtr, Ordering::*};
use std::sync::Arc;

struct Node {
    next: AtomicPtr<Node>,
    item: u64,
}

struct Queue {
    first: AtomicPtr<Node>,
    last: AtomicPtr<Node>,
}

fn node(item: u64) -> *mut Node {
    Box::into_raw(Box::new(Node { next: AtomicPtr::default(), item }))
}

impl Queue {
    fn push(&self, item: u64) {
        let (last, new) = (self.last.load(Relaxed), node(item));
        self.last.store(new, Release);
        unsafe { (*last).next.store(new, Release) };
    }

    fn pop(&self) -> Option<u64> {
        let first = self.first.load(Relaxed);
        let next = unsafe { (*first).next.load(Acquire) };
        if next.is_null() {
            return None;
        }
        let item = unsafe { (*next).item };
        self.first.store(next, Relaxed);
        drop(unsafe { Box::from_raw(if cfg!(bug) { next } else { first }) });
        Some(item)
    }
}

fn make() -> (Arc<Queue>, Arc<Queue>) {
    let first = node(0);
    let queue = Arc::new(Queue { first: AtomicPtr::new(first), last: AtomicPtr::new(first) });
    (queue.clone(), queue)
}

fn main() {
    explore("queue", make,
        |q, p| for item in 1..3 { p.put(item); q.push(item); p.stored() },
        |q, c| for _ in 0..3 { c.take(); match q.pop() { Some(item) => c.item(item), None => c.empty() } });
}
