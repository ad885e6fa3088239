//! Tests in Rust for record/explore, which builds this file as the crate `explore`. A test is a program:
//!
//! ```text
//! use explore::explore;
//!
//! fn main() {
//!     explore("queue 2", my_ring::new,                                    // the queue's two ends, made anew for each run
//!         |q, p| for item in 1..4 { p.put(item); if q.push(item).is_ok() { p.stored() } else { p.full() } },
//!         |q, c| for _ in 0..3 { c.take(); match q.pop() { Some(item) => c.item(item), None => c.empty() } });
//! }
//!
//! record/explore my_explore.rs                                            the queue in the same file, or in a module of it
//! record/explore my_explore.rs my_queue=../my_queue/src/lib.rs            the queue in a crate
//! ```
//!
//! The names of the calls are those of ring_calls.rs, so the two closures may be functions that take `&mut PutLog` and `&mut TakeLog` and
//! serve both. What is recorded goes to the explorer; the logs hold nothing.
use std::ffi::CString;
use std::io;
use std::marker::PhantomData;
use std::mem::{forget, transmute, transmute_copy};
use std::os::raw::{c_char, c_int, c_uint};
use std::panic;
use std::process::{abort, exit};
use std::sync::atomic::AtomicU64;
use std::thread;

/// What explorer/explore.c has.
mod explorer {
    use super::*;
    extern "C" {
        pub fn explore(reset: extern "C" fn(), produce: extern "C" fn(), consume: extern "C" fn(), head: *const c_char) -> c_int;
        pub fn explore_event(kind: c_int, numbers: *const u64, count: usize);
        pub fn explore_choose(n: c_uint) -> c_uint;
        pub fn explore_outcome(value: u64);
        pub fn explore_outcome_at_end(word: *const u64);
        pub fn explore_std_thread(at: usize, current: extern "C" fn() -> *const u8);
        pub fn write(file: c_int, bytes: *const u8, count: usize) -> isize;
    }
}

/// Explores a test, prints what was found and ends the program with its status: 0 all that was tried is lawful; 2 it cannot explore, as
/// standard error says; 3 a fault, a data race or a use after free; 4 both sides wait forever, a side runs forever, or it crashed.
///
/// `head` is the first line of a recording, such as `"queue 2"`. `make` makes the two ends of the queue, before each run: for a queue that
/// both sides share, two clones of an `Arc`. It also resets the statics that the sides change. `produce` and `consume` are the two sides.
///
/// What `make` and a run allocate is gone at the next run: forgotten, not dropped. So a side that is to drop its end takes it out of an
/// `Option`, and a static that allocates at its first use, such as a `LazyLock`, is used once before this is called.
pub fn explore<P, C>(head: &str, make: impl Fn() -> (P, C), produce: impl Fn(&mut P, &mut PutLog), consume: impl Fn(&mut C, &mut TakeLog)) -> ! {
    exit(explore_status(head, make, produce, consume))
}

/// Like [`explore`], but returns the status, for a program that explores several tests.
pub fn explore_status<P, C>(head: &str, make: impl Fn() -> (P, C), produce: impl Fn(&mut P, &mut PutLog), consume: impl Fn(&mut C, &mut TakeLog)) -> i32 {
    let head = CString::new(head).expect("the first line of a recording has no zero byte");
    let test: Box<dyn Test + '_> = Box::new(TestOf { make, produce, consume, producer: None, consumer: None });
    // Rust's memory model is that of C++20, whose release sequences are shorter than those of C11.
    if std::env::var_os("EXPLORE_SEQUENCES").is_none() {
        std::env::set_var("EXPLORE_SEQUENCES", "20");
    }
    // What std makes at the first print is made now: the memory of a run is gone at the next.
    drop((io::stdout().lock(), io::stderr().lock()));
    // (that of std prints a backtrace, and so reads the program's file, access by access)
    panic::set_hook(Box::new(|info| {
        let words = format!("{info}\n");
        // SAFETY: it reads these bytes.
        unsafe { explorer::write(2, words.as_ptr(), words.len()) };
        abort()
    }));
    // SAFETY: the explorer calls the three functions only until it returns, so the test outlives TEST. There is one thread.
    unsafe {
        explorer::explore_std_thread(offset_of_token(), current_thread);
        TEST = Some(transmute::<*mut (dyn Test + '_), *mut (dyn Test + 'static)>(Box::into_raw(test)));
        explorer::explore(reset, produce_side, consume_side, head.as_ptr())
    }
}

/// Draws a number below `n`: the explorer tries each.
#[inline]
pub fn choose(n: u32) -> u32 {
    // SAFETY: it takes any number.
    unsafe { explorer::explore_choose(n) }
}

/// Reports a value of this run, such as that of a load; each outcome is printed once. For litmus tests.
#[inline]
pub fn outcome(value: u64) {
    // SAFETY: it takes any number.
    unsafe { explorer::explore_outcome(value) }
}

/// Like [`outcome`], for the last value that a word of this run has.
#[inline]
pub fn outcome_at_end(word: &AtomicU64) {
    // SAFETY: it is read before the next run makes its own.
    unsafe { explorer::explore_outcome_at_end(word as *const AtomicU64 as *const u64) }
}

#[inline(always)]
fn event(kind: c_int, numbers: &[u64]) {
    // SAFETY: the numbers are read before it returns.
    unsafe { explorer::explore_event(kind, numbers.as_ptr(), numbers.len()) }
}

/// Stands for the counter of tickets of ring_calls.rs; the explorer needs none.
#[derive(Default)]
pub struct Clock(());

impl Clock {
    pub fn new() -> Self { Self::default() }
}

/// The producer's calls: a start before each call of the queue, an end after it.
pub struct PutLog<'a>(PhantomData<&'a Clock>);

#[rustfmt::skip]
impl<'a> PutLog<'a> {
    pub fn new(_clock: &'a Clock, _words: usize) -> Self { PutLog(PhantomData) }
    /// A put of one item begins.
    #[inline(always)] pub fn put(&mut self, item: u64) { event(0, &[item]) }
    /// A put of several items begins.
    #[inline(always)] pub fn put_all(&mut self, items: &[u64]) { event(0, items) }
    /// A close begins.
    #[inline(always)] pub fn close(&mut self) { event(1, &[]) }
    /// All items were stored.
    #[inline(always)] pub fn stored(&mut self) { event(3, &[]) }
    /// The first `stored` of the items were stored, as many as there was room for.
    #[inline(always)] pub fn stored_of(&mut self, stored: usize, offered: usize) {
        if stored == 0 { self.full() } else if stored == offered { self.stored() } else { event(3, &[stored as u64]) }
    }
    /// The first `stored` of the items were stored, with no reason given why no more.
    #[inline(always)] pub fn some(&mut self, stored: usize) { if stored > 0 { event(4, &[stored as u64]) } else { self.nothing() } }
    /// None was stored: the queue is full.
    #[inline(always)] pub fn full(&mut self) { event(5, &[]) }
    /// An all-or-nothing put of two items or more: none was stored, since there was not room for all.
    #[inline(always)] pub fn short(&mut self) { event(6, &[]) }
    /// None was stored, with no reason given.
    #[inline(always)] pub fn nothing(&mut self) { event(7, &[]) }
    /// A close ends, or a put that found the queue closed.
    #[inline(always)] pub fn closed(&mut self) { event(8, &[]) }
    /// Does nothing: each run begins with an empty recording.
    pub fn restart(&mut self) {}
}

/// The consumer's calls: a start before each call of the queue, an end after it.
pub struct TakeLog<'a>(PhantomData<&'a Clock>);

#[rustfmt::skip]
impl<'a> TakeLog<'a> {
    pub fn new(_clock: &'a Clock, _words: usize) -> Self { TakeLog(PhantomData) }
    /// A take of one item begins.
    #[inline(always)] pub fn take(&mut self) { event(2, &[]) }
    /// A take of at most `most` items begins, from 1.
    #[inline(always)] pub fn take_all(&mut self, most: usize) { if most > 1 { event(2, &[most as u64]) } else { self.take() } }
    /// This item was taken.
    #[inline(always)] pub fn item(&mut self, item: u64) { event(9, &[item]) }
    /// These items were taken, as many as were asked for or inside; none says that the queue is empty.
    #[inline(always)] pub fn items(&mut self, items: &[u64]) { if items.is_empty() { self.empty() } else { event(9, items) } }
    /// These items were taken, with no reason given why no more.
    #[inline(always)] pub fn some(&mut self, items: &[u64]) { if items.is_empty() { self.nothing() } else { event(10, items) } }
    /// None was taken: the queue is empty.
    #[inline(always)] pub fn empty(&mut self) { event(11, &[]) }
    /// An all-or-nothing take of two items or more: there were not enough.
    #[inline(always)] pub fn short(&mut self) { event(12, &[]) }
    /// None was taken, with no reason given.
    #[inline(always)] pub fn nothing(&mut self) { event(13, &[]) }
    /// The queue is empty, and closed.
    #[inline(always)] pub fn closed(&mut self) { event(14, &[]) }
    /// Does nothing: each run begins with an empty recording.
    pub fn restart(&mut self) {}
}

// The test, for the explorer's three functions without arguments.
trait Test {
    fn reset(&mut self);
    fn produce(&mut self);
    fn consume(&mut self);
}

struct TestOf<P, C, M, F, G> {
    make: M,
    produce: F,
    consume: G,
    producer: Option<P>,
    consumer: Option<C>,
}

impl<P, C, M: Fn() -> (P, C), F: Fn(&mut P, &mut PutLog), G: Fn(&mut C, &mut TakeLog)> Test for TestOf<P, C, M, F, G> {
    fn reset(&mut self) {
        // The memory of the last run is gone.
        forget((self.producer.take(), self.consumer.take()));
        let (producer, consumer) = (self.make)();
        self.producer = Some(producer);
        self.consumer = Some(consumer);
    }
    fn produce(&mut self) { (self.produce)(self.producer.as_mut().unwrap(), &mut PutLog(PhantomData)) }
    fn consume(&mut self) { (self.consume)(self.consumer.as_mut().unwrap(), &mut TakeLog(PhantomData)) }
}

static mut TEST: Option<*mut dyn Test> = None;
// SAFETY: TEST is set before the explorer calls one of these. A suspended side holds no reference that another uses: each has its
// own end, and the rest of the test is only read.
fn test() -> *mut dyn Test { unsafe { TEST.unwrap() } }
extern "C" fn reset() { unsafe { (*test()).reset() } }
extern "C" fn produce_side() { unsafe { (*test()).produce() } }
extern "C" fn consume_side() { unsafe { (*test()).consume() } }

/// What the handle of this thread points to.
extern "C" fn current_thread() -> *const u8 {
    let handle = thread::current();
    // SAFETY: a handle is one pointer, as offset_of_token has checked; the thread lives on.
    unsafe { transmute_copy(&handle) }
}

/// The offset of the token of `thread::park` in that: `unpark` makes it 1. std does not specify it, so one is called; 0 if it is not found.
fn offset_of_token() -> usize {
    const WORDS: usize = 12;
    assert_eq!(std::mem::size_of::<thread::Thread>(), std::mem::size_of::<usize>());
    let words = current_thread() as *mut u32;
    // SAFETY: these words lie in one allocation, as std's handle has its counts, name and number before the token.
    let read = |at| unsafe { words.add(at).read_volatile() };
    let before: Vec<u32> = (0..WORDS).map(read).collect();
    thread::current().unpark();
    let found = (0..WORDS).find(|&at| before[at] == 0 && read(at) == 1);
    if let Some(at) = found {
        // SAFETY: as above; no other thread knows of it.
        unsafe { words.add(at).write_volatile(0) };
    }
    found.unwrap_or(0) * 4
}
