//! A ring like rtrb's: positions below twice the capacity, each end keeps a copy of the other's, items of any type, here boxes. `--cfg bug`
//! loads the tail relaxed when the consumer's copy is used up.
use explore::explore;
use std::cell::{Cell, UnsafeCell};
use std::mem::MaybeUninit;
use std::sync::atomic::{AtomicUsize, Ordering};
use std::sync::Arc;

const TAIL_LOAD: Ordering = if cfg!(bug) { Ordering::Relaxed } else { Ordering::Acquire };

#[repr(align(128))]
struct Padded<T>(T);

struct Ring<T> {
    head: Padded<AtomicUsize>,
    tail: Padded<AtomicUsize>,
    slots: Box<[UnsafeCell<MaybeUninit<T>>]>,
    capacity: usize,
}

unsafe impl<T: Send> Sync for Ring<T> {}
unsafe impl<T: Send> Send for Ring<T> {}

struct Producer<T> {
    ring: Arc<Ring<T>>,
    head: Cell<usize>,
    tail: Cell<usize>,
}

struct Consumer<T> {
    ring: Arc<Ring<T>>,
    head: Cell<usize>,
    tail: Cell<usize>,
}

impl<T> Ring<T> {
    fn new(capacity: usize) -> (Producer<T>, Consumer<T>) {
        let slots = (0..capacity).map(|_| UnsafeCell::new(MaybeUninit::uninit())).collect();
        let ring = Arc::new(Ring { head: Padded(AtomicUsize::new(0)), tail: Padded(AtomicUsize::new(0)), slots, capacity });
        (Producer { ring: ring.clone(), head: Cell::new(0), tail: Cell::new(0) }, Consumer { ring, head: Cell::new(0), tail: Cell::new(0) })
    }

    fn slot(&self, at: usize) -> *mut T {
        self.slots[if at < self.capacity { at } else { at - self.capacity }].get().cast()
    }

    fn next(&self, at: usize) -> usize {
        if at < 2 * self.capacity - 1 { at + 1 } else { 0 }
    }

    fn distance(&self, from: usize, to: usize) -> usize {
        if from <= to { to - from } else { 2 * self.capacity - from + to }
    }
}

impl<T> Producer<T> {
    fn push(&mut self, item: T) -> Result<(), T> {
        let tail = self.tail.get();
        if self.ring.distance(self.head.get(), tail) == self.ring.capacity {
            self.head.set(self.ring.head.0.load(Ordering::Acquire));
            if self.ring.distance(self.head.get(), tail) == self.ring.capacity {
                return Err(item);
            }
        }
        unsafe { self.ring.slot(tail).write(item) };
        self.tail.set(self.ring.next(tail));
        self.ring.tail.0.store(self.tail.get(), Ordering::Release);
        Ok(())
    }
}

impl<T> Consumer<T> {
    fn pop(&mut self) -> Option<T> {
        let head = self.head.get();
        if head == self.tail.get() {
            self.tail.set(self.ring.tail.0.load(TAIL_LOAD));
            if head == self.tail.get() {
                return None;
            }
        }
        let item = unsafe { self.ring.slot(head).read() };
        self.head.set(self.ring.next(head));
        self.ring.head.0.store(self.head.get(), Ordering::Release);
        Some(item)
    }
}

fn main() {
    explore("queue 2", || Ring::<Box<u64>>::new(2),
        |q, p| for item in 1..5 { p.put(item); if q.push(Box::new(item)).is_ok() { p.stored() } else { p.full() } },
        |q, c| for _ in 0..4 { c.take(); match q.pop() { Some(item) => c.item(*item), None => c.empty() } });
}
