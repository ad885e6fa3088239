//! What a test may use of Rust's std, by the word that the program is given: what is seen, what is modelled, what ends the test.
use explore::{explore, explore_status};
use std::cell::Cell;
use std::collections::VecDeque;
use std::hint::spin_loop;
use std::sync::atomic::{AtomicU64, AtomicUsize, Ordering::*};
use std::sync::mpsc::{channel, sync_channel, TryRecvError};
use std::sync::{Arc, Barrier, Condvar, Mutex, Once, RwLock};
use std::thread::{self, park, park_timeout, sleep, yield_now, Thread};
use std::time::Duration;

/// A ring whose slots are atomic, and what else the sides use.
struct Ring {
    head: AtomicUsize,
    tail: AtomicUsize,
    slots: [AtomicU64; 2],
    barrier: Barrier,
    once: Once,
    read_write: RwLock<u64>,
    waiter: Mutex<Option<Thread>>,
}

impl Ring {
    fn ends() -> (Arc<Ring>, Arc<Ring>) {
        let ring = Arc::new(Ring {
            head: AtomicUsize::new(0),
            tail: AtomicUsize::new(0),
            slots: [AtomicU64::new(0), AtomicU64::new(0)],
            barrier: Barrier::new(2),
            once: Once::new(),
            read_write: RwLock::new(0),
            waiter: Mutex::new(None),
        });
        (ring.clone(), ring)
    }

    fn push(&self, item: u64) -> bool {
        let tail = self.tail.load(Relaxed);
        if tail - self.head.load(Acquire) == 2 {
            return false;
        }
        self.slots[tail % 2].store(item, Relaxed);
        self.tail.store(tail + 1, Release);
        true
    }

    fn pop(&self) -> Option<u64> {
        let head = self.head.load(Relaxed);
        if head == self.tail.load(Acquire) {
            return None;
        }
        let item = self.slots[head % 2].load(Relaxed);
        self.head.store(head + 1, Release);
        Some(item)
    }
}

/// Explores two puts and two takes; before them each side does something else.
fn ring(before_puts: impl Fn(&Ring), before_takes: impl Fn(&Ring)) -> ! {
    explore("queue 2", Ring::ends,
        |q, p| { before_puts(q); for item in 1..3 { p.put(item); if q.push(item) { p.stored() } else { p.full() } } },
        |q, c| { before_takes(q); for _ in 0..2 { c.take(); match q.pop() { Some(item) => c.item(item), None => c.empty() } } })
}

/// The consumer parks when the ring is empty. Once an item is stored it is unparked, if it has left its handle; it looks again after that, or does not.
fn parks(looks_again: bool) -> ! {
    explore("queue 2", Ring::ends,
        |q, p| for item in 1..3 {
            p.put(item);
            if q.push(item) { p.stored() } else { p.full() }
            if let Some(waiter) = q.waiter.lock().unwrap().take() { waiter.unpark() }
        },
        |q, c| for _ in 0..2 {
            c.take();
            let item = loop {
                if let Some(item) = q.pop() { break item }
                *q.waiter.lock().unwrap() = Some(thread::current());
                if looks_again { if let Some(item) = q.pop() { break item } }
                park();
            };
            c.item(item);
        })
}

fn mutex() -> ! {
    explore("queue 2", || { let q = Arc::new(Mutex::new(VecDeque::new())); (q.clone(), q) },
        |q, p| for item in 1..4 {
            p.put(item);
            let mut inside = q.lock().unwrap();
            let has_room = inside.len() < 2;
            if has_room { inside.push_back(item) }
            drop(inside);
            if has_room { p.stored() } else { p.full() }
        },
        |q, c| for _ in 0..3 { c.take(); let item = q.lock().unwrap().pop_front(); match item { Some(item) => c.item(item), None => c.empty() } })
}

/// A queue of a lock and a condition; the producer notifies, or forgets to.
fn condvar(notifies: bool) -> ! {
    explore("queue", || { let q = Arc::new((Mutex::new(VecDeque::new()), Condvar::new())); (q.clone(), q) },
        |q, p| for item in 1..3 { p.put(item); q.0.lock().unwrap().push_back(item); if notifies { q.1.notify_one() } p.stored() },
        |q, c| for _ in 0..2 {
            c.take();
            let mut inside = q.0.lock().unwrap();
            while inside.is_empty() { inside = q.1.wait(inside).unwrap() }
            let item = inside.pop_front().unwrap();
            drop(inside);
            c.item(item);
        })
}

/// The same, but the consumer waits for a while only.
fn waits_for_a_while() -> ! {
    explore("queue", || { let q = Arc::new((Mutex::new(VecDeque::new()), Condvar::new())); (q.clone(), q) },
        |q, p| for item in 1..3 { p.put(item); q.0.lock().unwrap().push_back(item); q.1.notify_all(); p.stored() },
        |q, c| for _ in 0..2 {
            c.take();
            let mut inside = q.0.lock().unwrap();
            if inside.is_empty() { inside = q.1.wait_timeout(inside, Duration::from_secs(1)).unwrap().0 }
            let item = inside.pop_front();
            drop(inside);
            match item { Some(item) => c.item(item), None => c.empty() }
        })
}

/// Two tests in one program.
fn twice() -> ! {
    let status = || explore_status("queue 2", Ring::ends,
        |q, p| { p.put(1); if q.push(1) { p.stored() } else { p.full() } },
        |q, c| { c.take(); match q.pop() { Some(item) => c.item(item), None => c.empty() } });
    std::process::exit(status() + status())
}

/// Each side drops its end, the last one the ring and what is left in it.
fn drops_ends() -> ! {
    explore("queue", || { let q = Arc::new(Mutex::new(Vec::new())); (Some(q.clone()), Some(q)) },
        |q, p| { p.put(1); q.as_ref().unwrap().lock().unwrap().push(Box::new(1)); p.stored(); drop(q.take()) },
        |q, c| { c.take(); let item = q.as_ref().unwrap().lock().unwrap().pop(); match item { Some(item) => c.item(*item), None => c.empty() } drop(q.take()) })
}

fn main() {
    thread_local! { static COUNT: Cell<u64> = Cell::new(0); }
    let count = || COUNT.with(|count| { count.set(count.get() + 1); assert_eq!(count.get(), 1) });
    match std::env::args().nth(1).as_deref() {
        Some("mutex") => mutex(),
        Some("condvar") => condvar(true),
        Some("wait_timeout") => waits_for_a_while(),
        Some("drops_ends") => drops_ends(),
        Some("twice") => twice(),
        Some("forgets") => condvar(false),
        Some("park") => parks(true),
        Some("parks_late") => parks(false),
        Some("mpsc") => explore("queue", || { let (s, r) = channel(); (Some(s), r) },
            |q, p| { for item in 1..3 { p.put(item); q.as_ref().unwrap().send(item).unwrap(); p.stored() } p.close(); q.take(); p.closed() },
            |q, c| for _ in 0..3 { c.take(); match q.try_recv() { Ok(item) => c.item(item), Err(TryRecvError::Empty) => c.empty(), Err(_) => { c.closed(); return } } }),
        Some("mpsc_sync") => explore("queue 2", || sync_channel(2),
            |q, p| for item in 1..4 { p.put(item); if q.try_send(item).is_ok() { p.stored() } else { p.full() } },
            |q, c| for _ in 0..3 { c.take(); match q.try_recv() { Ok(item) => c.item(item), Err(_) => c.empty() } }),
        Some("mpsc_waits") => explore("queue 1", || sync_channel(1),
            |q, p| for item in 1..3 { p.put(item); q.send(item).unwrap(); p.stored() },
            |q, c| for _ in 0..2 { c.take(); let item = q.recv().unwrap(); c.item(item) }),
        Some("rests") => ring(|_| { yield_now(); spin_loop(); sleep(Duration::from_millis(100)) }, |_| park_timeout(Duration::from_secs(100))),
        Some("thread_local") => ring(|_| count(), |_| { count(); assert!(thread::current().name().is_none()) }),
        Some("prints") => ring(|_| println!("the producer begins"), |_| ()),
        Some("panics") => ring(|_| (), |q| assert!(q.tail.load(Relaxed) < 2, "here it is")),
        Some("barrier") => ring(|q| { q.barrier.wait(); }, |q| { q.barrier.wait(); }),
        Some("once") => ring(|q| q.once.call_once(|| ()), |_| ()),
        Some("rwlock") => ring(|q| *q.read_write.write().unwrap() += 1, |q| *q.read_write.write().unwrap() += 1),
        Some("spawns") => ring(|_| { thread::spawn(|| ()); }, |_| ()),
        Some("scope") => ring(|_| thread::scope(|s| { s.spawn(|| ()); }), |_| ()),
        _ => eprintln!("of_std WAY"),
    }
}
